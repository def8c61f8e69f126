//! Calls of the exact mode, request C-15: confidences at halves of a unit, and physical lists whose winner is left to weights, list position, row and column.

use crate::cases::{self, pick, Pairs};
use crate::count::{Board, Call};
use crate::{patterns, poles, Case, Edge, Random, Square};

/// A unit of weight.
const UNIT: f32 = 1.0 / (1 << 24) as f32;

/// The next smaller float of one that is above 0.
fn below(x: f32) -> f32 {
    f32::from_bits(x.to_bits() - 1)
}

/// A confidence by a style: odd halves of a unit; around half a unit, which is the least that counts; less than that; and whole and half units below 1/2.
fn confidence(r: &mut Random, style: u64) -> f32 {
    let few = r.below(8) as f32;
    match style {
        0 => (few + 0.5) * UNIT,
        1 => pick(r, &[UNIT / 2.0, below(UNIT / 2.0), UNIT / 4.0, 1.5 * UNIT, below(1.5 * UNIT), UNIT, 0.0, -0.0]),
        2 => pick(r, &[UNIT / 4.0, below(UNIT / 2.0), 1e-45, 0.0, -0.0]),
        _ => 0.5 - few * UNIT / 2.0,
    }
}

/// Such confidences in the place of a list's own, of one style; seldom those that all count as 0.
fn in_units(r: &mut Random, edges: &mut [Edge]) {
    let style = pick(r, &[0, 0, 1, 1, 1, 3, 3, 3, 2]);
    edges.iter_mut().for_each(|e| e.confidence = confidence(r, style));
}

/// The winner of a physical list in the exact mode; any placing where its units add up to 0.
fn winner(r: &mut Random, board: &Board, case: &Case) -> Square {
    let Case { logical, physical, transforms, limit, soft, .. } = case;
    let call = Call { board, logical, physical, likelihoods: &[], transforms, limit: *limit, soft };
    call.exact_physical().unwrap_or_else(|_| poles::placing(r, board))
}

/// A physical list of few edges, some seen with both bits, by which many placings have the most hits; and a clean logical window that is cut at that list's winner, at times beside it.
/// So the winner shows in the answer: found, or 12.
pub fn few_seen(r: &mut Random, board: &Board) -> Case {
    let mut case = cases::hostile(r);
    case.limit = pick(r, &[0.0, 0.3, 1.0]);
    case.physical.truncate(12);
    for e in case.physical.iter_mut() {
        (e.row, e.col) = (e.row % 8, e.col % 8);
    }
    if r.once_in(2) {
        let turned: Vec<Edge> = case.physical.iter().map(|e| Edge { bit: 1 - e.bit, ..*e }).collect();
        case.physical.extend(turned);
    }
    in_units(r, &mut case.physical);
    let mut at = winner(r, board, &case);
    if r.once_in(4) {
        at.row = (at.row + 1) % board.rows() as i32;
    }
    let squares = 6 + r.below(3) as i32;
    case.logical = cases::seen(r, squares, |e| board.true_bit(e, &at));
    case.logical.iter_mut().for_each(|e| e.bit = board.true_bit(e, &at));
    case
}

/// A clean window of a board whose vertical table is its horizontal one but for a few patterns, over all transforms: read with rows and columns swapped it has nearly as many hits, so that
/// the runner-up is often at another list position.
fn mirrored(r: &mut Random) -> (Board, Case) {
    let h = patterns(r.below(2) as usize).0;
    let mut v = h.clone();
    let at = poles::placing(r, &Board { h: h.clone(), v: v.clone() });
    for _ in 0..1 + r.below(3) {
        let near = (at.col as usize + r.below(6) as usize) % 167;
        v[near] = r.below(8) as u8;
    }
    let board = Board { h, v };
    let squares = 4 + r.below(4) as i32;
    let mut case = cases::refused(r);
    (case.limit, case.transforms) = (0.3, (0..8).collect());
    case.physical = cases::seen(r, squares, |e| board.true_bit(e, &at));
    case.physical.iter_mut().for_each(|e| e.bit = board.true_bit(e, &at));
    case.logical = case.physical.clone();
    (board, case)
}

/// Lists around 1,024 class pairs, for the boards that the given files are compiled with.
pub struct Pool(Vec<Pairs>);

impl Pool {
    pub fn new(r: &mut Random) -> Self {
        Self([0, 3, 4].iter().map(|&map| Pairs::new(r, map)).collect())
    }

    fn case(&self, r: &mut Random) -> Option<Case> {
        let product = pick(r, &[1023, 1024, 1025, 1026]);
        self.0[r.below(3) as usize].case(r, product)
    }
}

/// The board of a case on the flat board.
fn flat(case: &Case) -> Board {
    let (h, v) = patterns(case.map);
    Board { h, v }
}

/// A pole: half of the time one that tells its places apart.
fn pole(r: &mut Random) -> Board {
    let length = poles::length(r);
    if r.once_in(2) {
        poles::good_board(r, length)
    } else {
        poles::board(r, length)
    }
}

/// Case i with its board: every kind of case comes in turn, on the flat board and on poles.
fn on_some_board(i: usize, r: &mut Random, pool: &Pool) -> Option<(Board, Case)> {
    let squares = 4 + r.below(4) as i32;
    let case = match i % 12 {
        0 => cases::hostile(r),
        1 => cases::refused(r),
        2 => cases::near_tie(r),
        3 => pool.case(r)?,
        4 | 5 => {
            let board = flat(&Case { map: pick(r, &[0, 1, 3]), ..cases::near_tie(r) });
            let case = few_seen(r, &board);
            return Some((board, case));
        }
        6 => {
            let board = pole(r);
            let case = few_seen(r, &board);
            return Some((board, case));
        }
        7 | 8 => {
            let board = pole(r);
            let case = poles::view(r, &board, squares).0;
            return Some((board, case));
        }
        9 => return Some(mirrored(r)),
        _ => cases::view(r, squares, true),
    };
    Some((flat(&case), case))
}

/// A case with its board; one in four has confidences at halves of a unit. None where there is no such case, or one of its lists is empty.
pub fn case(i: usize, r: &mut Random, pool: &Pool) -> Option<(Board, Case)> {
    let (board, mut case) = on_some_board(i, r, pool)?;
    if r.once_in(4) {
        in_units(r, &mut case.logical);
        in_units(r, &mut case.physical);
    }
    (!case.logical.is_empty() && !case.physical.is_empty()).then_some((board, case))
}

#[cfg(test)]
mod tests {
    use super::*;
    use crate::file;

    /// Views on one board whose physical lists have 1,024 and 1,025 optimal class pairs by document 01's weights, and the same winner in the exact mode. Document 01's winner is that one
    /// up to 1,024 pairs, and another from 1,025 on. The program `exactruns` prints them.
    #[test]
    fn winners_at_1024_pairs() {
        let ones = |from: usize, n: usize| (0..167).map(|i| u8::from((from..from + n).contains(&i))).collect::<Vec<u8>>();
        let board = Board { h: ones(9, 32), v: ones(20, 41) };
        let light = 1.0 / 1024.0;
        let edge = |row: i32, col: i32, orientation: u8, confidence: f32| Edge { row, col, orientation, bit: 1, confidence };
        // the first horizontal edge is seen with bit 0 too, one unit lighter
        let physical = |horizontal: i32, vertical: i32| {
            let mut edges = vec![Edge { bit: 0, ..edge(0, 0, 0, light - UNIT) }];
            edges.extend((0..horizontal).map(|row| edge(row, 0, 0, light)));
            edges.extend((0..vertical).map(|col| edge(0, col, 1, 1.0)));
            edges
        };
        let window = |at: &Square| {
            let mut edges = Vec::new();
            for place in 0..45 * 90 {
                let e = edge(place / 90, place / 2 % 45, (place % 2) as u8, 1.0);
                edges.push(Edge { bit: board.true_bit(&e, at), ..e });
            }
            edges
        };
        let both = |physical: &[Edge], row: i32| {
            let at = Square { transform: 0, row, col: 21 };
            let case = cases::near_tie(&mut Random(1));
            let case = Case { logical: window(&at), physical: physical.to_vec(), transforms: vec![0], limit: 0.3, ..case };
            [file::HARD, file::EXACT].map(|kind| poles::counted(kind, &board, &case, &at).1[0])
        };
        assert_eq!([12, 9].map(|row| both(&physical(1, 10), row)), [[0, 0], [12, 12]]);
        assert_eq!([12, 9].map(|row| both(&physical(8, 1), row)), [[12, 0], [0, 12]]);
    }
}
