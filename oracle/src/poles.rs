//! Poles: horizontal pattern tables of lengths other than 167, and views of them.

use crate::cases::{self, pick};
use crate::count::{self, Board};
use crate::file::{self, Call, Words};
use crate::{Case, Edge, Random, Square};

/// The lengths that are tried most: the smallest, small ones, one below and above the flat board's, the flat board's own, and the largest.
pub const LENGTHS: [usize; 9] = [4, 5, 7, 100, 166, 167, 169, 499, 500];

/// Whether a pole may have so many patterns.
pub fn is_length(n: usize) -> bool {
    (4..=500).contains(&n) && n % 3 != 0
}

/// One of `LENGTHS`, seldom another pole length.
pub fn length(r: &mut Random) -> usize {
    if r.once_in(4) {
        return (0..).map(|_| 4 + r.below(497) as usize).find(|&n| is_length(n)).expect("two in three are");
    }
    LENGTHS[r.below(LENGTHS.len() as u64) as usize]
}

/// A pole's horizontal table: mostly random, at times cut from a board's map and gone round again, with few ones, or one pattern everywhere.
pub fn table(r: &mut Random, length: usize) -> Vec<u8> {
    match r.below(12) {
        0..=7 => (0..length).map(|_| r.below(8) as u8).collect(),
        8 | 9 => {
            let (map, start) = (plain::maps::pair(r.below(2) as usize).0, r.below(167) as usize);
            (0..length).map(|i| map[(start + i) % 167]).collect()
        }
        10 => (0..length).map(|_| (r.below(8) & r.below(8) & r.below(8)) as u8).collect(),
        _ => vec![r.below(8) as u8; length],
    }
}

/// A board that tells its places apart but for chance: random horizontal patterns, and a board's vertical ones.
pub fn good_board(r: &mut Random, length: usize) -> Board {
    Board { h: (0..length).map(|_| r.below(8) as u8).collect(), v: crate::patterns(0).1 }
}

/// A board with any horizontal table of a pole, and one of the vertical ones that the given files are compiled with.
pub fn board(r: &mut Random, length: usize) -> Board {
    Board { h: table(r, length), v: crate::patterns(pick(r, &[0, 0, 1, 1, 3, 4])).1 }
}

/// A placing on a pole; half of the time near the seam, where row 3L-1 meets row 0, or one of the two rows at which the horizontal table begins again.
pub fn placing(r: &mut Random, board: &Board) -> Square {
    let rows = board.rows() as i64;
    let near = board.h.len() as i64 * r.below(3) as i64 + r.below(17) as i64 - 8;
    let row = if r.once_in(2) { near.rem_euclid(rows) } else { r.below(rows as u64) as i64 };
    Square { transform: r.below(8) as u32, row: row as i32, col: r.below(501) as i32 }
}

/// A view of a pole, and where it was cut: a window, half of the time with some bits wrong, and with some edges left out; with the logical list by the votes, the physical list itself, or another
/// window; at times without confidence, or a margin that refuses; or a list with nothing true about it.
pub fn view(r: &mut Random, board: &Board, squares: i32) -> (Case, Square) {
    let at = placing(r, board);
    if r.once_in(6) {
        let case = if r.once_in(3) { cases::near_tie(r) } else { cases::hostile(r) };
        return (case, at);
    }
    let cut = |r: &mut Random, at: &Square| cases::seen(r, squares, |e: &Edge| board.true_bit(e, at));
    let mut physical = cut(r, &at);
    if r.once_in(2) {
        physical.iter_mut().for_each(|e| e.bit = board.true_bit(e, &at));
    }
    let logical = match r.below(8) {
        0 | 1 => physical.clone(),
        2 => {
            let other = Square { transform: at.transform, ..placing(r, board) };
            crate::votes(&cut(r, &other))
        }
        _ => crate::votes(&physical),
    };
    let limit = cases::limit(r, logical.len());
    let mut case =
        Case { map: 0, logical, physical, transforms: cases::transforms(r, at.transform, true), limit, soft: cases::soft(r) };
    match r.below(40) {
        0 => case.logical.iter_mut().for_each(|e| e.confidence = 0.0),
        1 => case.physical.iter_mut().for_each(|e| e.confidence = -0.0),
        2 => case.soft.margin = pick(r, &[10.0, 65536.0]),
        3..=22 => (case.limit, case.soft.margin) = (pick(r, &[0.3, 1.0]), 0.0),
        _ => (),
    }
    if r.once_in(4) && !case.physical.is_empty() {
        cases::own_likelihoods(r, &mut case);
    }
    (case, at)
}

/// The room that a pole of that length needs: u32, f32 and i64.
pub fn room(length: usize) -> [u32; 3] {
    let length = length as u32;
    [9 * length + 1503, 9 * length + 1503, 15 * length + 2505]
}

/// A call of that kind in room that is just enough, and its answer by the count.
pub fn counted(kind: u32, board: &Board, case: &Case, at: &Square) -> (Call, Words) {
    let likelihoods = crate::likelihoods(case);
    let mut call = Call::of(kind, case, &likelihoods, at);
    call.room = room(board.h.len());
    let asked = count::Call {
        board,
        logical: &case.logical,
        physical: &case.physical,
        likelihoods: &likelihoods,
        transforms: &case.transforms,
        limit: case.limit,
        soft: &case.soft,
    };
    let answer = count::answer(kind, &asked, at);
    (call, answer)
}

/// One of the four kinds of call.
pub fn kind(r: &mut Random) -> u32 {
    pick(r, &[file::HARD, file::HARD, file::HARD, file::SOFT, file::SOFT, file::SOFT, file::STATS, file::SELECTION])
}

#[cfg(test)]
mod tests {
    use super::*;
    use crate::{cases, cells, flat_cells, patterns};

    /// Each length that is tried is a pole length, and those beside them are not.
    #[test]
    fn lengths() {
        assert!(LENGTHS.iter().all(|&n| is_length(n)));
        assert!([0, 1, 2, 3, 6, 9, 165, 168, 498, 501, 502].iter().all(|&n| !is_length(n)));
        let mut r = Random(5);
        assert!((0..200).all(|_| is_length(length(&mut r))));
    }

    /// Clean windows of a pole are found where they were cut, also across the seam, for the smallest and the largest length.
    #[test]
    fn windows_of_poles_are_found() {
        let mut r = Random(9);
        for length in [4, 5, 100, 166, 500] {
            let board = good_board(&mut r, length);
            for row in [0, board.rows() - 1, board.rows() - 4, length, length + 1] {
                let at = Square { transform: r.below(4) as u32, row: row as i32, col: 500 };
                let mut physical = Vec::new();
                for place in 0..200u8 {
                    let e = Edge {
                        row: (place / 20).into(),
                        col: (place / 2 % 10).into(),
                        orientation: place % 2,
                        bit: 0,
                        confidence: 0.5,
                    };
                    physical.push(Edge { bit: board.true_bit(&e, &at), ..e });
                }
                let mut case = cases::view(&mut r, 4, true);
                (case.logical, case.physical, case.transforms) = (physical.clone(), physical, vec![0, 1, 2, 3]);
                let (_, answer) = counted(file::HARD, &board, &case, &at);
                assert_eq!(answer[..6], [0, at.transform, at.row as u32, at.col as u32, 200, 200], "{length} {row}");
            }
        }
    }

    /// With the maps' own horizontal table a pole is the flat board: the given files say the same cells of both.
    #[test]
    fn the_flat_board_is_a_pole() {
        let mut r = Random(6);
        for _ in 0..40 {
            let case = cases::view(&mut r, 6, false);
            let t = r.below(8) as u8;
            assert_eq!(cells(&case, &patterns(case.map).0, t), flat_cells(&case, t));
        }
    }

    /// Both sides have three cells for each pattern, and what a vertical cell holds does not depend on the horizontal table.
    #[test]
    fn cells_of_a_pole() {
        let mut r = Random(7);
        for length in LENGTHS {
            let case = cases::view(&mut r, 6, false);
            let pole = cells(&case, &table(&mut r, length), 1);
            let flat = flat_cells(&case, 1);
            for n in [pole.counts.len(), pole.weights.len(), pole.sums.len()] {
                assert_eq!(n, 3 * length + 501);
            }
            assert_eq!(pole.counts[3 * length..], flat.counts[501..]);
            assert_eq!(pole.weights[3 * length..], flat.weights[501..]);
            assert_eq!(pole.sums[3 * length..], flat.sums[501..]);
        }
    }
}
