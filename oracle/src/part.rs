//! Calls over a part of a flat board, request C-20: parts that wrap at 501, of one origin, one row or one column, of 100 by 100, and full ones; views too small for the whole board; and lists of
//! few edges whose winner is left to weights, list position, row number and column number, in parts that wrap.

use crate::cases::{self, pick};
use crate::count::{Board, Call as Counted, Part};
use crate::exact::in_units;
use crate::file::{self, Call, Words};
use crate::{patterns, poles, Case, Edge, Random, Square};

/// A start from which so many numbers hold one, somewhere among them.
fn start(r: &mut Random, holds: i32, number: u32) -> u32 {
    (holds as u32 + 501 - r.below(number.into()) as u32) % 501
}

/// A part that holds a placing's origin, by its style: one origin, one row, one column, 100 by 100, the whole board from any start, and small ones.
fn around(r: &mut Random, style: u64, at: &Square) -> Part {
    let few = |r: &mut Random| 1 + r.below(12) as u32;
    let (rows, cols) = match style {
        0 => (1, 1),
        1 => (1, 501),
        2 => (501, 1),
        3 => (100, 100),
        4 => (501, 501),
        5 => (2 + r.below(499) as u32, 2 + r.below(499) as u32),
        _ => (few(r), few(r)),
    };
    Part { row: start(r, at.row, rows), col: start(r, at.col, cols), rows, cols }
}

/// A part that runs over the last row or column, or both, with as many numbers on either side of it or nearly.
fn wrapped(r: &mut Random) -> Part {
    let side = |r: &mut Random, over: bool| {
        let number = 2 + r.below(90) as u32;
        (if over { 501 - number / 2 } else { r.below(u64::from(502 - number)) as u32 }, number)
    };
    let which = r.below(3);
    let ((row, rows), (col, cols)) = (side(r, which != 0), side(r, which != 1));
    Part { row, col, rows, cols }
}

/// The board of a case.
fn flat(case: &Case) -> Board {
    let (h, v) = patterns(case.map);
    Board { h, v }
}

/// A clean list of a window: every edge is a hit at the placing.
fn clean(r: &mut Random, board: &Board, squares: i32, at: &Square) -> Vec<Edge> {
    let mut edges = cases::seen(r, squares, |e| board.true_bit(e, at));
    edges.iter_mut().for_each(|e| e.bit = board.true_bit(e, at));
    edges
}

/// What is counted of a case.
fn counted<'a>(board: &'a Board, case: &'a Case) -> Counted<'a> {
    let Case { logical, physical, transforms, limit, soft, .. } = case;
    Counted { board, logical, physical, likelihoods: &[], transforms, limit: *limit, soft }
}

/// A physical list of few edges of equal confidence, some seen with both bits, of which many placings of a part that wraps have as many hits and as much weight; and a clean logical window cut at
/// the winner, at times a row beside it. So the winner shows in the answer: found, or 12.
fn few_seen(r: &mut Random) -> (Case, Part) {
    let mut case = cases::hostile(r);
    case.map = pick(r, &[0, 1, 3]);
    case.limit = pick(r, &[0.0, 0.3, 1.0]);
    case.physical.truncate(4);
    let confidence = pick(r, &[1.0, 0.5, 0.75]);
    for e in case.physical.iter_mut() {
        (e.row, e.col) = (e.row % 8, e.col % 8);
        if !r.once_in(3) {
            e.confidence = confidence;
        }
    }
    let (board, part) = (flat(&case), wrapped(r));
    let mut at = counted(&board, &case).part_physical(&part).unwrap_or_else(|_| poles::placing(r, &board));
    if r.once_in(5) {
        at.row = (at.row + 1) % 501;
    }
    let squares = 4 + r.below(3) as i32;
    case.logical = clean(r, &board, squares, &at);
    (case, part)
}

/// A window of 1 to 3 squares a side, with the logical list the physical one: too few edges for the whole board, and at times enough for a part. At times some bits are turned.
fn small(r: &mut Random) -> (Case, Part) {
    let mut case = cases::refused(r);
    let at = cases::placing(r);
    let (squares, style) = (1 + r.below(3) as i32, pick(r, &[0, 0, 0, 6, 6, 3]));
    case.physical = clean(r, &flat(&case), squares, &at);
    case.limit = pick(r, &[0.3, 1.0, 1.0]);
    case.transforms = if r.once_in(2) { vec![at.transform as u8] } else { cases::transforms(r, at.transform, true) };
    if r.once_in(3) {
        let turned = r.below(1 + case.physical.len() as u64) as usize;
        case.physical.iter_mut().take(turned).for_each(|e| e.bit = 1 - e.bit);
    }
    case.logical = case.physical.clone();
    let part = around(r, style, &at);
    (case, part)
}

/// Case i with its part: every kind comes in turn, and one in eight has confidences at halves of a unit. None where a list is empty.
pub fn case(i: usize, r: &mut Random) -> Option<(Case, Part)> {
    let style = (i / 10 % 7) as u64;
    let (mut case, part) = match i % 10 {
        0 => {
            let case = cases::hostile(r);
            let at = cases::placing(r);
            (case, around(r, style, &at))
        }
        1 => (cases::refused(r), wrapped(r)),
        2 => {
            let case = cases::near_tie(r);
            let at = cases::placing(r);
            (case, around(r, style, &at))
        }
        3 | 4 => few_seen(r),
        5 | 6 => small(r),
        7 => {
            let squares = 4 + r.below(4) as i32;
            (cases::view(r, squares, true), wrapped(r))
        }
        _ => {
            let squares = 4 + r.below(4) as i32;
            let (case, at) = cases::placed_view(r, squares, true);
            (case, around(r, style, &at))
        }
    };
    if r.once_in(8) {
        in_units(r, &mut case.logical);
        in_units(r, &mut case.physical);
    }
    (!case.logical.is_empty() && !case.physical.is_empty()).then_some((case, part))
}

/// A call over a part in room that is just enough, and its answer by the count.
pub fn call(case: &Case, part: &Part) -> (Call, Words) {
    let board = flat(case);
    let answer = counted(&board, case).part(part).map_or_else(file::refused, |f| file::part(&f));
    (Call { room: poles::room(167), ..Call::over(case, part) }, answer)
}

#[cfg(test)]
mod tests {
    use super::*;
    use crate::count::FULL;

    /// Over the full part from any start the count says what it says of the exact mode, but for the runner-up's place and weight.
    #[test]
    fn the_full_part_is_the_exact_mode() {
        let mut r = Random(11);
        let mut numbers = std::collections::BTreeMap::new();
        for i in 0..60 {
            let Some((case, _)) = case(i, &mut r) else { continue };
            let part = Part { row: r.below(501) as u32, col: r.below(501) as u32, ..FULL };
            let mut over = call(&case, &part).1;
            let mut exact = crate::answer(file::EXACT, &case, &Square { transform: 0, row: 0, col: 0 });
            over[12..].fill(0);
            exact[12..].fill(0);
            assert_eq!(over, exact, "case {i}");
            *numbers.entry(over[0]).or_insert(0) += 1;
        }
        for number in [0, 11, 12, 13] {
            assert!(numbers.contains_key(&number), "{numbers:?}");
        }
    }

    /// One origin and one transform: found exactly where the hits are more than the misses, and no runner-up is shown; with the transform listed twice there is one, with as many hits.
    #[test]
    fn one_origin() {
        let mut r = Random(12);
        let mut case = cases::refused(&mut r);
        let at = Square { transform: 2, row: 500, col: 0 };
        case.physical = clean(&mut r, &flat(&case), 2, &at);
        case.logical = case.physical.clone();
        (case.transforms, case.limit) = (vec![2], 1.0);
        let part = Part { row: 500, col: 0, rows: 1, cols: 1 };
        let found = |case: &Case| counted(&flat(case), case).part(&part);
        let edges = case.logical.len();
        for turned in 0..=edges {
            let mut bent = case.clone();
            bent.logical.iter_mut().take(turned).for_each(|e| e.bit = 1 - e.bit);
            match found(&bent) {
                Ok(f) => assert!(edges - turned > turned && f.runner.is_none() && f.square == at),
                Err(number) => assert!(number == 13 && edges - turned <= turned),
            }
        }
        case.transforms = vec![2, 2];
        assert_eq!(found(&case), Err(13));
        case.transforms = vec![2, 0];
        assert!(found(&case).map_or(true, |f| f.runner.is_some_and(|n| n.0 == Square { transform: 0, ..at })));
    }
}
