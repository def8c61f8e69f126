//! Poles: boards whose horizontal table has a length of its own.

use super::*;
use crate::{pole_length, sums_for, tables_for};

const LENGTHS: [usize; 6] = [4, 5, 100, 166, 167, 500];
const BAD_LENGTHS: [usize; 10] = [0, 1, 2, 3, 6, 165, 168, 498, 501, 1000];

/// A call on a pole that finds a square, in room of the flat board's size.
fn on_pole(length: usize, square: Square) -> Call {
    let board = Board::pole(length);
    let list = board.window(square, 12);
    let good = call();
    Call { board_h: board.horizontal, board_v: board.vertical, logical: list.clone(), physical: list, room: Room::new(), ..good }
}

/// The first and the last row, from which a window runs over the seam, and one between.
fn rows_of(length: usize) -> [u32; 3] {
    let rows = 3 * length as u32;
    [0, rows / 2, rows - 1]
}

/// Room of these lengths with something in it.
fn filled(tables: usize, sums: usize) -> Room {
    Room { counts: vec![7; tables], weights: vec![7.5; tables], sums: vec![-7; sums] }
}

#[test]
fn hard_and_soft_find_on_every_pole() {
    for length in LENGTHS {
        let board = Board::pole(length);
        for transform in 0..8 {
            for row in rows_of(length) {
                let square = Square { transform, row, col: 456 };
                let call = on_pole(length, square);
                let mut room = call.room.clone();
                let hard = call.hard(&mut room).unwrap();
                assert_eq!((hard.square, hard.hits, hard.edges, hard.error_rate), (square, 264, 264, 0.0), "L = {length}");
                assert_eq!(hard.margin_hits, 264 - hard.runner_up_hits);
                let soft = call.soft(&mut room).unwrap();
                assert_eq!((soft.square, soft.hits, soft.edges, soft.best_score), (square, 264, 264, -33.0), "L = {length}");
                assert_eq!((soft.runner_up, soft.runner_up_hits), (hard.runner_up, hard.runner_up_hits));
                assert!(hard.runner_up.row < 3 * length as u32 && soft.second.row < 3 * length as u32);
                let fit = match_stats(&call.logical, square, board.patterns()).unwrap();
                assert_eq!((fit.hits, fit.edges, fit.error_rate), (264, 264, 0.0));
                let next = match_stats(&call.logical, hard.runner_up, board.patterns()).unwrap();
                assert_eq!(next.hits, hard.runner_up_hits);
            }
        }
    }
}

/// One row further than the last is no row of the board, though a window there would look like one at row 0.
#[test]
fn statistics_take_the_rows_of_the_pole() {
    for length in LENGTHS {
        let board = Board::pole(length);
        let rows = 3 * length as u32;
        let last = Square { transform: 5, row: rows - 1, col: 500 };
        let list = board.window(last, 6);
        assert_eq!(match_stats(&list, last, board.patterns()).map(|fit| fit.hits), Ok(60));
        for square in [Square { row: rows, ..last }, Square { row: u32::MAX, ..last }, Square { col: 501, ..last }] {
            let refused = nowhere(Refusal::BadSetting);
            assert_eq!(match_stats(&list, square, board.patterns()), Err(refused), "L = {length}");
            only_the_refusal_of_stats(match_stats_raw(&list, square, board.patterns()), refused);
        }
    }
}

#[test]
fn a_bad_length_is_refused_by_8() {
    let square = Square { transform: 0, row: 0, col: 0 };
    for length in BAD_LENGTHS {
        assert!(!pole_length(length));
        let mut call = call();
        call.board_h = (0..length).map(|i| i as u8 % 8).collect();
        for room in [used_room(), filled(0, 0), filled(1538, 2564), filled(1539, 2565)] {
            let refused = nowhere(Refusal::BadTable);
            let mut after = room.clone();
            assert_eq!(call.hard(&mut after), Err(refused), "L = {length}");
            assert_eq!(call.soft(&mut after), Err(refused), "L = {length}");
            // what was there is untouched, and what was added is zero
            assert!(after.counts.starts_with(&room.counts) && after.counts[room.counts.len()..].iter().all(|x| *x == 0));
            assert!(after.weights.starts_with(&room.weights) && after.weights[room.weights.len()..].iter().all(|x| *x == 0.0));
            assert!(after.sums.starts_with(&room.sums) && after.sums[room.sums.len()..].iter().all(|x| *x == 0));
            assert_eq!((after.counts.len(), after.sums.len()), (room.counts.len().max(1539), room.sums.len().max(2565)));
        }
        assert_eq!(match_stats(&call.logical, square, call.patterns()), Err(nowhere(Refusal::BadTable)));
        // a pole's table is no vertical one
        std::mem::swap(&mut call.board_h, &mut call.board_v);
        hard_refused(&call, nowhere(Refusal::BadTable));
        soft_refused(&call, nowhere(Refusal::BadTable));
    }
    for length in [4, 100, 166, 500] {
        let mut call = on_pole(length, square);
        call.room = filled(tables_for(length), sums_for(length));
        call.board_h[length - 1] = 8;
        hard_refused(&call, nowhere(Refusal::BadTable));
        soft_refused(&call, nowhere(Refusal::BadTable));
        let mut vertical = on_pole(length, square);
        vertical.board_v = vertical.board_h.clone();
        vertical.room = filled(tables_for(length), sums_for(length));
        hard_refused(&vertical, nowhere(Refusal::BadTable));
        soft_refused(&vertical, nowhere(Refusal::BadTable));
    }
}

/// In room as it is: one place too few is refused by 1, by the length of a pole, and for a bad length by that of the smallest.
#[test]
fn room_is_asked_for_by_the_length() {
    assert_eq!([4, 167, 500].map(tables_for), [1539, 3006, 6003]);
    assert_eq!([4, 167, 500].map(sums_for), [2565, 5010, 10005]);
    let short = nowhere(Refusal::RoomTooShort);
    for length in LENGTHS {
        let call = on_pole(length, Square { transform: 0, row: 0, col: 0 });
        let (tables, sums) = (tables_for(length), sums_for(length));
        for (room, by_hard) in [
            (Room { counts: vec![7; tables - 1], ..filled(tables, sums) }, true),
            (Room { weights: vec![7.5; tables - 1], ..filled(tables, sums) }, true),
            (Room { sums: vec![-7; sums - 1], ..filled(tables, sums) }, false),
        ] {
            let mut after = room.clone();
            only_the_refusal_of_soft(call.soft_raw(&mut after), short);
            assert_eq!(after, room);
            if by_hard {
                only_the_refusal(call.hard_raw(&mut after), short);
                assert_eq!(after, room);
            }
        }
        assert!(call.hard_raw(&mut filled(tables, 0)).refusal == 0 && call.soft_raw(&mut filled(tables, sums)).refusal == 0);
    }
    for length in BAD_LENGTHS {
        let mut call = call();
        call.board_h = vec![0; length];
        only_the_refusal(call.hard_raw(&mut filled(1538, 0)), short);
        only_the_refusal_of_soft(call.soft_raw(&mut filled(1539, 2564)), short);
        only_the_refusal(call.hard_raw(&mut filled(1539, 0)), nowhere(Refusal::BadTable));
        only_the_refusal_of_soft(call.soft_raw(&mut filled(1539, 2565)), nowhere(Refusal::BadTable));
    }
}

/// One room for boards of all lengths: each call finds in it what it finds in room of its own, empties what it used and leaves the rest.
#[test]
fn a_room_is_kept_for_boards_of_all_lengths() {
    let mut kept = Room { counts: Vec::new(), weights: Vec::new(), sums: Vec::new() };
    for length in [4, 500, 4, 167, 100, 5, 500, 166] {
        let square = Square { transform: 3, row: 3 * length as u32 - 1, col: 77 };
        let call = on_pole(length, square);
        assert_eq!(call.hard(&mut kept), call.hard(&mut Room::new()));
        assert_eq!(call.soft(&mut kept), call.soft(&mut Room::new()));
        let (tables, sums) = (tables_for(length), sums_for(length));
        assert!(kept.counts.len() >= tables && kept.weights.len() >= tables && kept.sums.len() >= sums);
        assert!(kept.counts[..tables].iter().all(|x| *x == 0) && kept.weights[..tables].iter().all(|x| x.to_bits() == 0));
        assert!(kept.sums[..sums].iter().all(|x| *x == 0));
        // the surplus of the next calls is told from what they use
        let before = filled(kept.counts.len(), kept.sums.len());
        kept = before.clone();
        assert_eq!(call.soft(&mut kept).map(|found| found.square), Ok(square));
        assert!(emptied(&kept.counts, &before.counts, tables, 0));
        assert!(emptied(&kept.weights, &before.weights, tables, 0.0));
        assert!(emptied(&kept.sums, &before.sums, sums, 0));
    }
    assert_eq!((kept.counts.len(), kept.weights.len(), kept.sums.len()), (6003, 6003, 10005));
}
