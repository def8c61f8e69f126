//! The five functions through the static library: found, each refusal, the edge that it is about, the room, and what a refusal holds.

mod board;
mod exact;
mod locate;
mod poles;

use crate::{
    counted, decode_hard, decode_hard_raw, decode_soft, decode_soft_raw, decoded, match_stats, match_stats_raw, raw,
    soft_decoded, Decoded, Edge, EdgeList, EdgePlace, Likelihoods, List, MatchStats, Patterns, Refusal, Refused, Room,
    SoftDecoded, Square, ROOM_COUNTS, ROOM_SUMS, ROOM_WEIGHTS,
};
use board::{Board, ALL_TRANSFORMS};
use std::fmt::Debug;
use std::mem::{offset_of, size_of};

const AT: Square = Square { transform: 5, row: 123, col: 456 };
const ELSEWHERE: Square = Square { transform: 5, row: 77, col: 300 };
const NOTHING: u32 = 0xFFFF_FFFF;
const SURPLUS: usize = 9;

/// A call of either decoder that finds AT, to be spoilt in one place.
#[derive(Clone)]
struct Call {
    board_h: Vec<u8>,
    board_v: Vec<u8>,
    logical: EdgeList,
    physical: EdgeList,
    likelihoods: Likelihoods,
    transforms: Vec<u8>,
    limit: f32,
    margin: f32,
    room: Room,
}

fn likelihoods_of(n: usize) -> Likelihoods {
    Likelihoods { matches: vec![-0.125; n], mismatches: vec![-2.5; n] }
}

/// Room longer than needed, with something in it.
fn used_room() -> Room {
    Room {
        counts: vec![7; ROOM_COUNTS + SURPLUS],
        weights: vec![7.5; ROOM_WEIGHTS + SURPLUS],
        sums: vec![-7; ROOM_SUMS + SURPLUS],
    }
}

fn call() -> Call {
    let board = Board::new();
    let list = board.window(AT, 12);
    Call {
        likelihoods: likelihoods_of(list.len()),
        logical: list.clone(),
        physical: list,
        transforms: ALL_TRANSFORMS.to_vec(),
        board_h: board.horizontal,
        board_v: board.vertical,
        limit: 0.25,
        margin: 0.125,
        room: used_room(),
    }
}

impl Call {
    fn patterns(&self) -> Patterns<'_> {
        Patterns { horizontal: &self.board_h, vertical: &self.board_v }
    }

    fn hard(&self, room: &mut Room) -> Result<Decoded, Refused> {
        decode_hard(&self.logical, &self.physical, &self.transforms, self.patterns(), self.limit, room)
    }

    fn soft(&self, room: &mut Room) -> Result<SoftDecoded, Refused> {
        decode_soft(
            &self.logical,
            &self.physical,
            &self.likelihoods,
            &self.transforms,
            self.patterns(),
            self.limit,
            self.margin,
            room,
        )
    }

    fn hard_raw(&self, room: &mut Room) -> raw::Answer {
        decode_hard_raw(&self.logical, &self.physical, &self.transforms, self.patterns(), self.limit, room)
    }

    fn soft_raw(&self, room: &mut Room) -> raw::SoftAnswer {
        decode_soft_raw(
            &self.logical,
            &self.physical,
            &self.likelihoods,
            &self.transforms,
            self.patterns(),
            self.limit,
            self.margin,
            room,
        )
    }
}

/// A refusal that is about no edge.
fn nowhere(reason: Refusal) -> Refused {
    Refused { reason, place: None }
}

/// A refusal that is about one edge.
fn at(reason: Refusal, list: List, position: usize) -> Refused {
    Refused { reason, place: Some(EdgePlace { list, position }) }
}

/// Whether a call was refused before any work was done.
fn early(reason: Refusal) -> bool {
    reason.number() < 10 || reason.number() > 15
}

/// The two words that an answer has for a place.
fn place_words(place: Option<EdgePlace>) -> [u32; 2] {
    match place {
        None => [NOTHING; 2],
        Some(EdgePlace { list: List::Logical, position }) => [1, position as u32],
        Some(EdgePlace { list: List::Physical, position }) => [2, position as u32],
        Some(EdgePlace { list: List::Only, position }) => [3, position as u32],
        Some(EdgePlace { list: List::Unknown(number), position }) => [number, position as u32],
    }
}

/// A struct of the library, of which these are all fields after the third, holds 0xFFFFFFFF in every whole number and NaN in every float.
fn nothing_in<A>(wholes: &[u32], floats: &[f32]) {
    assert_eq!(4 * (3 + wholes.len() + floats.len()), size_of::<A>());
    assert!(wholes.iter().all(|x| *x == NOTHING), "{wholes:?}");
    assert!(floats.iter().all(|x| x.is_nan()), "{floats:?}");
}

/// Nothing but the number and the place: 0xFFFFFFFF or NaN in every other field.
fn only_the_refusal(answer: raw::Answer, refused: Refused) {
    assert_eq!(answer.refusal, refused.number());
    assert_eq!([answer.list, answer.position], place_words(refused.place));
    let wholes = [
        answer.transform,
        answer.row,
        answer.col,
        answer.hits,
        answer.edges,
        answer.runner_up_transform,
        answer.runner_up_row,
        answer.runner_up_col,
        answer.runner_up_hits,
        answer.margin_hits,
    ];
    let floats = [answer.weighted_score, answer.error_rate, answer.mean_confidence, answer.best_score];
    nothing_in::<raw::Answer>(&wholes, &floats);
}

fn only_the_refusal_of_soft(answer: raw::SoftAnswer, refused: Refused) {
    assert_eq!(answer.refusal, refused.number());
    assert_eq!([answer.list, answer.position], place_words(refused.place));
    let wholes = [
        answer.transform,
        answer.row,
        answer.col,
        answer.hits,
        answer.edges,
        answer.second_transform,
        answer.second_row,
        answer.second_col,
        answer.runner_up_transform,
        answer.runner_up_row,
        answer.runner_up_col,
        answer.runner_up_hits,
    ];
    let floats =
        [answer.weighted_score, answer.error_rate, answer.mean_confidence, answer.best_score, answer.second_score, answer.margin];
    nothing_in::<raw::SoftAnswer>(&wholes, &floats);
}

fn only_the_refusal_of_stats(stats: raw::Stats, refused: Refused) {
    assert_eq!(stats.refusal, refused.number());
    assert_eq!([stats.list, stats.position], place_words(refused.place));
    nothing_in::<raw::Stats>(&[stats.edges, stats.hits], &[stats.error_rate, stats.mean_confidence]);
}

/// The used part of a slice is zero and its surplus as it was.
fn emptied<A: PartialEq + Copy>(now: &[A], before: &[A], used: usize, zero: A) -> bool {
    now.len() == before.len() && now[..used].iter().all(|x| *x == zero) && now[used..] == before[used..]
}

fn room_after(room: &Room, before: &Room, sums_too: bool) {
    assert!(emptied(&room.counts, &before.counts, ROOM_COUNTS, 0));
    assert!(emptied(&room.weights, &before.weights, ROOM_WEIGHTS, 0.0));
    if sums_too {
        assert!(emptied(&room.sums, &before.sums, ROOM_SUMS, 0));
    } else {
        assert_eq!(room.sums, before.sums);
    }
}

/// Both the safe function and the raw one refuse, the refusal holds only its number and its place, and the room is as promised: untouched
/// after 1 to 9, 16 and 17, else zero where it was used.
fn hard_refused(call: &Call, refused: Refused) {
    let mut room = call.room.clone();
    assert_eq!(call.hard(&mut room), Err(refused));
    if early(refused.reason) {
        assert_eq!(room, call.room);
    } else {
        room_after(&room, &call.room, false);
    }
    only_the_refusal(call.hard_raw(&mut room), refused);
}

fn soft_refused(call: &Call, refused: Refused) {
    let mut room = call.room.clone();
    assert_eq!(call.soft(&mut room), Err(refused));
    if early(refused.reason) {
        assert_eq!(room, call.room);
    } else {
        room_after(&room, &call.room, true);
    }
    only_the_refusal_of_soft(call.soft_raw(&mut room), refused);
}

/// One spoilt call after the other, each by itself, through both decoders; the refusal is about no edge.
fn both_refused(spoils: &[fn(&mut Call)], refusal: Refusal) {
    for spoil in spoils {
        let mut spoilt = call();
        spoil(&mut spoilt);
        hard_refused(&spoilt, nowhere(refusal));
        soft_refused(&spoilt, nowhere(refusal));
    }
}

/// The same, with the list and the position of the edge at fault.
fn both_refused_at(spoils: &[(fn(&mut Call), List, usize)], refusal: Refusal) {
    for (spoil, list, position) in spoils {
        let mut spoilt = call();
        spoil(&mut spoilt);
        hard_refused(&spoilt, at(refusal, *list, *position));
        soft_refused(&spoilt, at(refusal, *list, *position));
    }
}

// ---- found

#[test]
fn hard_finds_every_transform() {
    let board = Board::new();
    for transform in 0..8 {
        let square = Square { transform, ..AT };
        let list = board.window(square, 12);
        let mut room = used_room();
        let found = decode_hard(&list, &list, &ALL_TRANSFORMS, board.patterns(), 0.0, &mut room).unwrap();
        assert_eq!(found.square, square);
        assert_eq!((found.hits, found.edges, found.error_rate), (264, 264, 0.0));
        assert_eq!(found.weighted_score, 1.0);
        assert_eq!(found.best_score, 1.0);
        assert_eq!(found.margin_hits, 264 - found.runner_up_hits);
        assert_ne!(found.runner_up, square);
        let next = match_stats(&list, found.runner_up, board.patterns()).unwrap();
        assert_eq!(next.hits, found.runner_up_hits);
        room_after(&room, &used_room(), false);
    }
}

#[test]
fn hard_finds_with_errors() {
    let mut noisy = call();
    for i in [3, 50, 99, 200, 263] {
        noisy.logical.bits[i] ^= 1;
    }
    let found = noisy.hard(&mut noisy.room.clone()).unwrap();
    assert_eq!(found.square, AT);
    assert_eq!((found.hits, found.edges), (259, 264));
    assert_eq!(found.error_rate, 5.0 / 264.0);
    assert_eq!(found.margin_hits, 259 - found.runner_up_hits);
}

#[test]
fn soft_finds() {
    let call = call();
    let mut room = used_room();
    let found = call.soft(&mut room).unwrap();
    assert_eq!(found.square, AT);
    assert_eq!((found.hits, found.edges, found.error_rate), (264, 264, 0.0));
    assert_eq!(found.best_score, -33.0);
    assert_eq!(found.weighted_score, -0.125);
    assert!(found.margin > 0.125);
    room_after(&room, &used_room(), true);
}

/// The log likelihood of the physical list at a square, edge by edge. Those of these tests are eighths, so their f32 sum is exact.
fn total(call: &Call, square: Square) -> f32 {
    let board = Board::new();
    let list = &call.physical;
    (0..list.len())
        .map(|i| {
            let hit = board.predicted(square, list.rows[i], list.cols[i], list.orientations[i]) == list.bits[i];
            if hit {
                call.likelihoods.matches[i]
            } else {
                call.likelihoods.mismatches[i]
            }
        })
        .sum()
}

/// Each figure of a soft answer is that of its own placing: scores are log likelihoods of the physical list, and the runner-up's hits are the
/// logical list's. The two lists have misses of their own, and a vertical edge says less than a horizontal one.
#[test]
fn soft_tells_the_second_by_likelihood_and_the_runner_up_by_hits() {
    let board = Board::new();
    let mut two_squares = 0;
    for transform in 0..8 {
        let square = Square { transform, ..AT };
        let mut call = call();
        call.logical = board.window(square, 12);
        call.physical = board.window(square, 12);
        for i in [3, 50, 99, 200, 263] {
            call.logical.bits[i] ^= 1;
            call.physical.bits[263 - i] ^= 1;
        }
        call.physical.bits[150] ^= 1;
        for i in 132..264 {
            call.likelihoods.mismatches[i] = -0.75;
        }
        call.margin = 0.0;
        let hits = |list: &EdgeList, square: Square| match_stats(list, square, board.patterns()).unwrap().hits;
        let found = call.soft(&mut used_room()).unwrap();
        assert_eq!((found.square, found.hits, found.edges), (square, 258, 264));
        assert_eq!(found.best_score, total(&call, square));
        assert_eq!(found.weighted_score, found.best_score / 264.0);
        assert_ne!(found.second, square);
        assert_eq!(found.second_score, total(&call, found.second));
        assert!(found.second_score < found.best_score);
        assert_eq!(found.margin.to_bits(), ((found.best_score - found.second_score) / found.edges as f32).to_bits());
        assert_ne!(found.runner_up, square);
        assert_eq!(found.runner_up_hits, hits(&call.logical, found.runner_up));
        assert!(found.runner_up_hits < hits(&call.logical, square));
        // each is the best other by its own measure, so neither is better by the other's
        assert!(found.second_score >= total(&call, found.runner_up));
        assert!(found.runner_up_hits >= hits(&call.logical, found.second));
        two_squares += u32::from(found.second != found.runner_up);
        // hard decode on the same lists has the same runner-up
        let hard = call.hard(&mut used_room()).unwrap();
        assert_eq!((hard.square, hard.runner_up, hard.runner_up_hits), (square, found.runner_up, found.runner_up_hits));
    }
    assert!(two_squares > 0, "no view tells the second from the runner-up");
}

#[test]
fn a_list_of_8192_edges_is_taken() {
    let mut call = call();
    let mut list = Board::new().window(AT, 64);
    while list.len() < 8192 {
        let (row, col, orientation, bit) = (list.rows[0], list.cols[0], list.orientations[0], list.bits[0]);
        list.push(Edge { row, col, orientation, bit, confidence: 1.0 });
    }
    call.logical = list.clone();
    call.physical = list;
    call.likelihoods = likelihoods_of(8192);
    let hard = call.hard(&mut used_room()).unwrap();
    assert_eq!((hard.square, hard.hits, hard.edges), (AT, 8192, 8192));
    let soft = call.soft(&mut used_room()).unwrap();
    assert_eq!((soft.square, soft.hits, soft.edges), (AT, 8192, 8192));
}

#[test]
fn what_the_room_held_has_no_influence() {
    let call = call();
    let mut clean = Room::new();
    assert_eq!(call.hard(&mut clean), call.hard(&mut used_room()));
    assert_eq!(call.soft(&mut clean), call.soft(&mut used_room()));
    let mut stale = used_room();
    stale.weights.fill(f32::NAN);
    assert_eq!(call.hard(&mut clean), call.hard(&mut stale));
}

/// NaNs of both signs, quiet and signalling, each with bits of its own.
fn nans(n: usize) -> Vec<f32> {
    let heads = [0x7fc0_0000, 0xffc0_0000, 0x7f80_0000, 0xff80_0000];
    (0..n).map(|i| f32::from_bits(heads[i % 4] + 1 + i as u32)).collect()
}

fn bits(floats: &[f32]) -> Vec<u32> {
    floats.iter().map(|x| x.to_bits()).collect()
}

/// Room whose floats are all NaN, surplus too: after every call the surplus is what it was, bit for bit, and so is the whole room after
/// refusals 1 to 9, 16 and 17; what was used is 0 elsewhere, and no NaN in the room reaches an answer.
fn nan_in_the_room<A: PartialEq + Debug>(decode: fn(&Call, &mut Room) -> Result<A, Refused>) {
    let call = call();
    let stale = Room { weights: nans(ROOM_WEIGHTS + SURPLUS), ..used_room() };
    assert!(stale.weights.iter().all(|x| x.is_nan()));
    let spoils: [fn(&mut Call); 4] =
        [|_| (), |c| c.logical.confidences.fill(0.0), |c| c.transforms = vec![5, 5], |c| c.limit = 2.0];
    for (place, spoil) in spoils.iter().enumerate() {
        let mut call = call.clone();
        spoil(&mut call);
        let mut room = stale.clone();
        let answer = decode(&call, &mut room);
        assert_eq!(answer, decode(&call, &mut Room::new()));
        assert_eq!(answer.is_ok(), place == 0);
        let untouched = if answer == Err(nowhere(Refusal::BadSetting)) { 0 } else { ROOM_WEIGHTS };
        assert!(bits(&room.weights[..untouched]).iter().all(|x| *x == 0));
        assert_eq!(bits(&room.weights[untouched..]), bits(&stale.weights[untouched..]));
    }
    // too short by one: it is made longer, and then it is used
    let mut room = Room { weights: nans(ROOM_WEIGHTS - 1), ..used_room() };
    assert_eq!(decode(&call, &mut room), decode(&call, &mut Room::new()));
    assert_eq!(bits(&room.weights), bits(&[0.0; ROOM_WEIGHTS]));
}

#[test]
fn nan_in_the_room_comes_back_bit_for_bit() {
    nan_in_the_room(Call::hard);
    nan_in_the_room(Call::soft);
}

#[test]
fn a_refusal_after_a_found_answer_holds_nothing_of_it() {
    let mut call = call();
    let mut room = used_room();
    assert!(call.hard(&mut room).is_ok() && call.soft(&mut room).is_ok());
    call.limit = f32::NAN;
    only_the_refusal(call.hard_raw(&mut room), nowhere(Refusal::BadSetting));
    call.logical.bits[7] = 2;
    only_the_refusal(call.hard_raw(&mut room), at(Refusal::BadBit, List::Logical, 7));
    only_the_refusal_of_soft(call.soft_raw(&mut room), at(Refusal::BadBit, List::Logical, 7));
    call.logical.bits[7] = 0;
    only_the_refusal_of_soft(call.soft_raw(&mut room), nowhere(Refusal::BadSetting));
}

// ---- refusals 1 to 9, 16 and 17, through both decoders

/// In room as it is: 1, and the room is untouched. The safe functions make it longer, so they never give this.
#[test]
fn refusal_1_room_too_short() {
    let spoils: [fn(&mut Call); 4] = [
        |c| c.room.counts.truncate(ROOM_COUNTS - 1),
        |c| c.room.weights.truncate(ROOM_WEIGHTS - 1),
        |c| c.room.counts.clear(),
        |c| {
            c.room.weights.clear();
            c.physical.bits.pop();
            c.limit = 2.0;
        },
    ];
    let refused = nowhere(Refusal::RoomTooShort);
    for spoil in spoils {
        let mut short = call();
        spoil(&mut short);
        let mut room = short.room.clone();
        only_the_refusal(short.hard_raw(&mut room), refused);
        only_the_refusal_of_soft(short.soft_raw(&mut room), refused);
        assert_eq!(room, short.room);
        assert_ne!(short.hard(&mut room), Err(refused));
        assert_eq!((room.counts.len() >= ROOM_COUNTS, room.weights.len() >= ROOM_WEIGHTS), (true, true));
        assert_ne!(short.soft(&mut short.room.clone()), Err(refused));
    }
    let mut short = call();
    short.room.sums.truncate(ROOM_SUMS - 1);
    let mut room = short.room.clone();
    only_the_refusal_of_soft(short.soft_raw(&mut room), refused);
    assert_eq!(room, short.room);
    assert!(short.hard(&mut room).is_ok());
    assert_eq!(room.sums, short.room.sums);
    assert!(short.soft(&mut room).is_ok());
    assert_eq!(room.sums, [0; ROOM_SUMS]);
}

#[test]
fn refusal_2_lengths_differ() {
    both_refused(
        &[
            |c| {
                c.logical.rows.pop();
            },
            |c| {
                c.logical.cols.pop();
            },
            |c| {
                c.logical.orientations.pop();
            },
            |c| {
                c.logical.bits.push(0);
            },
            |c| {
                c.logical.confidences.push(0.5);
            },
            |c| {
                c.physical.rows.push(0);
            },
            |c| {
                c.physical.cols.clear();
            },
            |c| {
                c.physical.orientations.pop();
            },
            |c| {
                c.physical.bits.pop();
            },
            |c| {
                c.physical.confidences.pop();
            },
        ],
        Refusal::LengthsDiffer,
    );
    for spoil in [|c: &mut Call| c.likelihoods.matches.push(0.0), |c: &mut Call| c.likelihoods.mismatches.clear()] {
        let mut spoilt = call();
        spoil(&mut spoilt);
        soft_refused(&spoilt, nowhere(Refusal::LengthsDiffer));
    }
}

#[test]
fn refusal_3_list_size() {
    both_refused(&[|c| c.logical = EdgeList::new()], Refusal::ListSize);
    let mut empty = call();
    empty.physical = EdgeList::new();
    empty.likelihoods = likelihoods_of(0);
    hard_refused(&empty, nowhere(Refusal::ListSize));
    soft_refused(&empty, nowhere(Refusal::ListSize));
    let mut long = call();
    while long.logical.len() < 8193 {
        long.logical.push(Edge { row: 0, col: 0, orientation: 0, bit: 0, confidence: 1.0 });
    }
    hard_refused(&long, nowhere(Refusal::ListSize));
    soft_refused(&long, nowhere(Refusal::ListSize));
}

#[test]
fn refusal_4_bad_coordinate() {
    both_refused_at(
        &[
            (|c| c.logical.rows[5] = 1_000_001, List::Logical, 5),
            (|c| c.logical.cols[5] = -1_000_001, List::Logical, 5),
            (|c| c.physical.rows[0] = i32::MIN, List::Physical, 0),
            (|c| c.physical.cols[263] = i32::MAX, List::Physical, 263),
        ],
        Refusal::BadCoordinate,
    );
}

#[test]
fn refusal_16_bad_orientation() {
    both_refused_at(
        &[(|c| c.logical.orientations[9] = 2, List::Logical, 9), (|c| c.physical.orientations[9] = 255, List::Physical, 9)],
        Refusal::BadOrientation,
    );
}

#[test]
fn refusal_17_bad_bit() {
    both_refused_at(
        &[(|c| c.logical.bits[9] = 2, List::Logical, 9), (|c| c.physical.bits[9] = 128, List::Physical, 9)],
        Refusal::BadBit,
    );
}

#[test]
fn refusal_5_bad_confidence() {
    both_refused_at(
        &[
            (|c| c.logical.confidences[1] = f32::NAN, List::Logical, 1),
            (|c| c.logical.confidences[1] = -0.001, List::Logical, 1),
            (|c| c.physical.confidences[263] = 1.001, List::Physical, 263),
            (|c| c.physical.confidences[263] = f32::INFINITY, List::Physical, 263),
        ],
        Refusal::BadConfidence,
    );
    let mut minus_zero = call();
    minus_zero.logical.confidences[1] = -0.0;
    assert!(minus_zero.hard(&mut used_room()).is_ok());
}

#[test]
fn refusal_6_bad_likelihood() {
    for bad in [f32::NAN, f32::INFINITY, f32::NEG_INFINITY, 65536.01, -70000.0] {
        let mut spoilt = call();
        spoilt.likelihoods.matches[17] = bad;
        soft_refused(&spoilt, at(Refusal::BadLikelihood, List::Physical, 17));
        let mut spoilt = call();
        spoilt.likelihoods.mismatches[17] = bad;
        soft_refused(&spoilt, at(Refusal::BadLikelihood, List::Physical, 17));
    }
}

#[test]
fn refusal_7_bad_transform() {
    both_refused(
        &[|c| c.transforms.clear(), |c| c.transforms.push(0), |c| c.transforms[3] = 8, |c| c.transforms[0] = 255],
        Refusal::BadTransform,
    );
}

#[test]
fn refusal_8_bad_table() {
    both_refused(
        &[
            |c| c.board_h.push(0),
            |c| {
                c.board_v.pop();
            },
            |c| c.board_v.push(0),
            |c| c.board_v.clear(),
            |c| c.board_h[166] = 8,
            |c| c.board_v[0] = 255,
        ],
        Refusal::BadTable,
    );
}

#[test]
fn refusal_9_bad_setting() {
    both_refused(&[|c| c.limit = f32::NAN, |c| c.limit = -0.5, |c| c.limit = 1.001], Refusal::BadSetting);
    for bad in [f32::NAN, -1.0, 65537.0, f32::INFINITY] {
        let mut spoilt = call();
        spoilt.margin = bad;
        soft_refused(&spoilt, nowhere(Refusal::BadSetting));
    }
}

/// Wrong in every way at once, and mended in one way after the other: the refusals come in their order, each over all lists.
#[test]
fn the_first_refusal_in_their_order() {
    let mut call = call();
    let good = call.clone();
    call.room.counts.clear();
    call.logical.rows[3] = i32::MAX;
    call.logical.orientations[2] = 2;
    call.logical.bits[1] = 2;
    call.logical.confidences[0] = 2.0;
    call.likelihoods.matches[4] = f32::NAN;
    call.transforms.clear();
    call.board_h[0] = 9;
    call.limit = 2.0;
    let spoilt = call.logical.clone();
    call.logical.cols.pop();
    call.physical = EdgeList::new();
    only_the_refusal(call.hard_raw(&mut call.room.clone()), nowhere(Refusal::RoomTooShort));
    only_the_refusal_of_soft(call.soft_raw(&mut call.room.clone()), nowhere(Refusal::RoomTooShort));
    call.room = good.room.clone();
    hard_refused(&call, nowhere(Refusal::LengthsDiffer));
    soft_refused(&call, nowhere(Refusal::LengthsDiffer));
    call.logical = spoilt;
    hard_refused(&call, nowhere(Refusal::ListSize));
    soft_refused(&call, nowhere(Refusal::LengthsDiffer));
    call.physical = good.physical.clone();
    let steps: [(Refused, fn(&mut Call, &Call)); 8] = [
        (at(Refusal::BadCoordinate, List::Logical, 3), |c, good| c.logical.rows = good.logical.rows.clone()),
        (at(Refusal::BadOrientation, List::Logical, 2), |c, good| c.logical.orientations = good.logical.orientations.clone()),
        (at(Refusal::BadBit, List::Logical, 1), |c, good| c.logical.bits = good.logical.bits.clone()),
        (at(Refusal::BadConfidence, List::Logical, 0), |c, good| c.logical.confidences = good.logical.confidences.clone()),
        (at(Refusal::BadLikelihood, List::Physical, 4), |c, good| c.likelihoods = good.likelihoods.clone()),
        (nowhere(Refusal::BadTransform), |c, good| c.transforms = good.transforms.clone()),
        (nowhere(Refusal::BadTable), |c, good| c.board_h = good.board_h.clone()),
        (nowhere(Refusal::BadSetting), |c, good| c.limit = good.limit),
    ];
    for (refused, mend) in steps {
        soft_refused(&call, refused);
        if refused.reason != Refusal::BadLikelihood {
            hard_refused(&call, refused);
        }
        mend(&mut call, &good);
    }
    assert!(call.hard(&mut used_room()).is_ok() && call.soft(&mut used_room()).is_ok());
}

// ---- which edge

/// The ways in which an edge of a list is bad, in the order of the refusals.
const FIELDS: [(Refusal, fn(&mut EdgeList, usize)); 7] = [
    (Refusal::BadCoordinate, |l, i| l.rows[i] = 1_000_001),
    (Refusal::BadCoordinate, |l, i| l.cols[i] = -1_000_001),
    (Refusal::BadOrientation, |l, i| l.orientations[i] = 2),
    (Refusal::BadBit, |l, i| l.bits[i] = 2),
    (Refusal::BadConfidence, |l, i| l.confidences[i] = 1.5),
    (Refusal::BadConfidence, |l, i| l.confidences[i] = f32::NAN),
    (Refusal::BadConfidence, |l, i| l.confidences[i] = -0.5),
];

/// The ways in which a physical edge's likelihoods are bad.
const UNLIKELY: [fn(&mut Likelihoods, usize); 2] = [|l, i| l.matches[i] = f32::NAN, |l, i| l.mismatches[i] = -65537.0];

/// The first, a middle and the last place.
const PLACES: [usize; 3] = [0, 131, 263];

fn list_of(call: &mut Call, list: List) -> &mut EdgeList {
    match list {
        List::Logical => &mut call.logical,
        _ => &mut call.physical,
    }
}

#[test]
fn one_bad_edge_of_each_kind_in_each_list() {
    let good = call();
    assert_eq!((good.logical.len(), good.physical.len()), (264, 264));
    let mut tried = 0;
    for position in PLACES {
        for (reason, spoil) in FIELDS {
            for list in [List::Logical, List::Physical] {
                let mut spoilt = good.clone();
                spoil(list_of(&mut spoilt, list), position);
                hard_refused(&spoilt, at(reason, list, position));
                soft_refused(&spoilt, at(reason, list, position));
                tried += 2;
            }
        }
        for spoil in UNLIKELY {
            let mut spoilt = good.clone();
            spoil(&mut spoilt.likelihoods, position);
            soft_refused(&spoilt, at(Refusal::BadLikelihood, List::Physical, position));
            assert!(spoilt.hard(&mut used_room()).is_ok());
            tried += 1;
        }
    }
    assert_eq!(tried, 90);
}

#[test]
fn of_two_bad_edges_of_one_kind_the_first() {
    let good = call();
    for (reason, spoil) in FIELDS {
        for (near, far) in [(0, 1), (0, 263), (40, 200), (262, 263)] {
            for list in [List::Logical, List::Physical] {
                let mut spoilt = good.clone();
                spoil(list_of(&mut spoilt, list), far);
                spoil(list_of(&mut spoilt, list), near);
                hard_refused(&spoilt, at(reason, list, near));
                soft_refused(&spoilt, at(reason, list, near));
            }
            // one in each list: the logical one, also where it stands later
            let mut spoilt = good.clone();
            spoil(&mut spoilt.logical, far);
            spoil(&mut spoilt.physical, near);
            hard_refused(&spoilt, at(reason, List::Logical, far));
            soft_refused(&spoilt, at(reason, List::Logical, far));
        }
    }
    // a row and a column are one kind, and so are a match and a mismatch likelihood
    let mut spoilt = good.clone();
    spoilt.logical.rows[9] = i32::MAX;
    spoilt.logical.cols[8] = i32::MIN;
    hard_refused(&spoilt, at(Refusal::BadCoordinate, List::Logical, 8));
    soft_refused(&spoilt, at(Refusal::BadCoordinate, List::Logical, 8));
    spoilt.logical.rows[7] = i32::MAX;
    hard_refused(&spoilt, at(Refusal::BadCoordinate, List::Logical, 7));
    for (i, j) in [(9, 8), (8, 9)] {
        let mut spoilt = good.clone();
        spoilt.likelihoods.matches[i] = f32::INFINITY;
        spoilt.likelihoods.mismatches[j] = 70000.0;
        soft_refused(&spoilt, at(Refusal::BadLikelihood, List::Physical, 8));
    }
}

/// Of two kinds the one that comes first, whichever list and place it stands in.
#[test]
fn the_kind_comes_before_the_list_and_the_place() {
    let good = call();
    for (i, (reason, spoil)) in FIELDS.iter().enumerate() {
        for (later, also) in FIELDS[i + 1..].iter().filter(|(later, _)| later != reason) {
            for (list, other) in [
                (List::Physical, List::Logical),
                (List::Logical, List::Physical),
                (List::Logical, List::Logical),
                (List::Physical, List::Physical),
            ] {
                let mut spoilt = good.clone();
                spoil(list_of(&mut spoilt, list), 200);
                also(list_of(&mut spoilt, other), 3);
                hard_refused(&spoilt, at(*reason, list, 200));
                soft_refused(&spoilt, at(*reason, list, 200));
                assert_ne!(reason, later);
            }
        }
        let mut spoilt = good.clone();
        spoil(&mut spoilt.physical, 200);
        spoilt.likelihoods.matches[0] = f32::NAN;
        soft_refused(&spoilt, at(*reason, List::Physical, 200));
    }
}

// ---- refusals 10 to 15

#[test]
fn refusal_10_no_confidence() {
    both_refused(&[|c| c.logical.confidences.fill(0.0), |c| c.physical.confidences.fill(0.0)], Refusal::NoConfidence);
}

#[test]
fn refusal_11_none_within_limit() {
    both_refused(
        &[|c| {
            c.limit = 0.0;
            c.logical.bits[100] ^= 1;
        }],
        Refusal::NoneWithinLimit,
    );
}

#[test]
fn refusal_12_lists_disagree() {
    let mut apart = call();
    apart.physical = Board::new().window(ELSEWHERE, 12);
    hard_refused(&apart, nowhere(Refusal::ListsDisagree));
}

#[test]
fn refusal_13_not_far_ahead() {
    let one = |c: &mut Call| {
        let mut list = EdgeList::new();
        list.push(Edge { row: 0, col: 0, orientation: 0, bit: 1, confidence: 1.0 });
        c.logical = list.clone();
        c.physical = list;
        c.limit = 1.0;
    };
    let mut alone = call();
    one(&mut alone);
    hard_refused(&alone, nowhere(Refusal::NotFarAhead));
    let mut twice = call();
    twice.transforms = vec![5, 5];
    hard_refused(&twice, nowhere(Refusal::NotFarAhead));
    let mut blank = call();
    blank.board_h.fill(0);
    blank.board_v.fill(0);
    blank.logical.bits.fill(0);
    blank.physical.bits.fill(0);
    blank.limit = 1.0;
    hard_refused(&blank, nowhere(Refusal::NotFarAhead));
    blank.margin = 0.0;
    soft_refused(&blank, nowhere(Refusal::NotFarAhead));
}

#[test]
fn refusal_14_soft_margin() {
    let mut narrow = call();
    narrow.margin = 65536.0;
    soft_refused(&narrow, nowhere(Refusal::SoftMargin));
}

#[test]
fn refusal_15_soft_and_hard_disagree() {
    let mut apart = call();
    apart.physical = Board::new().window(ELSEWHERE, 12);
    soft_refused(&apart, nowhere(Refusal::SoftHardDisagree));
}

// ---- match statistics

#[test]
fn stats_count_edge_by_edge() {
    let board = Board::new();
    let list = board.window(AT, 12);
    for (square, same) in [(AT, true), (ELSEWHERE, false), (Square { transform: 2, row: 500, col: 0 }, false)] {
        let mut hits = 0;
        let mut weight = 0.0f32;
        for i in 0..list.len() {
            if board.predicted(square, list.rows[i], list.cols[i], list.orientations[i]) == list.bits[i] {
                hits += 1;
                weight += list.confidences[i];
            }
        }
        let stats = match_stats(&list, square, board.patterns()).unwrap();
        assert_eq!((stats.edges, stats.hits), (264, hits));
        assert_eq!(stats.error_rate, (264 - hits) as f32 / 264.0);
        assert_eq!(stats.mean_confidence, weight / hits as f32);
        assert_eq!(hits == 264, same);
    }
}

#[test]
fn stats_of_no_edges() {
    let board = Board::new();
    let stats = match_stats(&EdgeList::new(), AT, board.patterns()).unwrap();
    assert_eq!((stats.edges, stats.hits, stats.error_rate, stats.mean_confidence), (0, 0, 1.0, 0.0));
}

#[test]
fn stats_refuse_every_wrong_transform() {
    let board = Board::new();
    let list = board.window(AT, 4);
    for transform in [8, 9, 255, 256, 257, 261, 263, 264, 511, 512, 65536, 0x0100_0005, 0x8000_0000, u32::MAX] {
        let square = Square { transform, ..AT };
        assert_eq!(match_stats(&list, square, board.patterns()), Err(nowhere(Refusal::BadTransform)));
        only_the_refusal_of_stats(match_stats_raw(&list, square, board.patterns()), nowhere(Refusal::BadTransform));
    }
}

#[test]
fn stats_refuse_by_the_first_in_their_order() {
    let board = Board::new();
    let good = board.window(AT, 4);
    let far = Square { transform: 256, row: 501, col: u32::MAX };
    let mut tried = 0;
    let mut refused = |list: &EdgeList, square: Square, patterns: Patterns, refused: Refused| {
        assert_eq!(match_stats(list, square, patterns), Err(refused));
        only_the_refusal_of_stats(match_stats_raw(list, square, patterns), refused);
        tried += 1;
    };
    let mut list = good.clone();
    list.confidences[0] = 2.0;
    refused(&list, far, board.patterns(), at(Refusal::BadConfidence, List::Only, 0));
    list.bits[3] = 2;
    refused(&list, far, board.patterns(), at(Refusal::BadBit, List::Only, 3));
    list.orientations[4] = 2;
    refused(&list, far, board.patterns(), at(Refusal::BadOrientation, List::Only, 4));
    list.cols[5] = 1_000_001;
    refused(&list, far, board.patterns(), at(Refusal::BadCoordinate, List::Only, 5));
    list.rows.pop();
    refused(&list, far, board.patterns(), nowhere(Refusal::LengthsDiffer));
    let mut long = EdgeList::new();
    for _ in 0..8193 {
        long.push(Edge { row: 0, col: 0, orientation: 1, bit: 1, confidence: 3.0 });
    }
    refused(&long, far, board.patterns(), nowhere(Refusal::ListSize));
    refused(&good, far, board.patterns(), nowhere(Refusal::BadTransform));
    let short = Patterns { horizontal: &board.horizontal[2..], vertical: &board.vertical };
    refused(&good, Square { transform: 7, ..far }, short, nowhere(Refusal::BadTable));
    for square in [Square { row: 501, ..AT }, Square { col: 501, ..AT }, Square { row: u32::MAX, ..AT }] {
        refused(&good, square, board.patterns(), nowhere(Refusal::BadSetting));
    }
    assert_eq!(tried, 11);
}

#[test]
fn stats_say_which_edge() {
    let board = Board::new();
    let good = board.window(AT, 12);
    let stats = |list: &EdgeList, refused: Refused| {
        assert_eq!(match_stats(list, AT, board.patterns()), Err(refused));
        only_the_refusal_of_stats(match_stats_raw(list, AT, board.patterns()), refused);
    };
    for (i, (reason, spoil)) in FIELDS.iter().enumerate() {
        for position in PLACES {
            let mut list = good.clone();
            spoil(&mut list, position);
            stats(&list, at(*reason, List::Only, position));
            spoil(&mut list, 263);
            stats(&list, at(*reason, List::Only, position));
            for (_, also) in FIELDS[i + 1..].iter().filter(|(later, _)| later != reason) {
                let mut list = list.clone();
                also(&mut list, 0);
                stats(&list, at(*reason, List::Only, position));
            }
        }
    }
    let counted: Result<MatchStats, Refused> = match_stats(&good, AT, board.patterns());
    assert!(counted.is_ok());
}

// ---- the refusal type

#[test]
fn refusals_have_numbers_and_words() {
    for (place, refusal) in Refusal::ALL.iter().enumerate() {
        assert_eq!(refusal.number() as usize, place + 1);
        assert_eq!(Refusal::from_number(refusal.number()), Some(*refusal));
        assert!(refusal.to_string().starts_with(&format!("refused ({})", place + 1)));
    }
    assert_eq!(Refusal::from_number(0), None);
}

/// A number above 17, which no archive of this wrapper's own gives: an `Err` of its own, whatever the other fields hold, and no panic.
#[test]
fn an_unknown_number_is_refused() {
    let call = call();
    let found = call.hard_raw(&mut used_room());
    let soft = call.soft_raw(&mut used_room());
    let fit = match_stats_raw(&call.physical, AT, call.patterns());
    assert!(decoded(found).is_ok() && soft_decoded(soft).is_ok() && counted(fit).is_ok());
    for number in [18, 19, 255, 256, 1315, 0x8000_0000, u32::MAX] {
        assert_eq!(decoded(raw::Answer { refusal: number, ..found }), Err(nowhere(Refusal::Unknown(number))));
        assert_eq!(soft_decoded(raw::SoftAnswer { refusal: number, ..soft }), Err(nowhere(Refusal::Unknown(number))));
        assert_eq!(counted(raw::Stats { refusal: number, ..fit }), Err(nowhere(Refusal::Unknown(number))));
        assert_eq!(Refusal::Unknown(number).number(), number);
        assert_eq!(Refusal::Unknown(number).to_string(), format!("refused ({number}): a number that this wrapper does not know"));
    }
}

/// A list that no archive of this wrapper's own names is handed on by its number, and so is half a place: nothing is made up, and no panic.
#[test]
fn an_unknown_list_is_handed_on() {
    let found = call().hard_raw(&mut used_room());
    let soft = call().soft_raw(&mut used_room());
    let refusal = 4;
    for number in [0, 4, 255, 0x8000_0000, u32::MAX - 1] {
        let refused = decoded(raw::Answer { refusal, list: number, position: 6, ..found }).unwrap_err();
        assert_eq!(refused, at(Refusal::BadCoordinate, List::Unknown(number), 6));
        assert_eq!(soft_decoded(raw::SoftAnswer { refusal, list: number, position: 6, ..soft }), Err(refused));
        assert!(refused
            .to_string()
            .ends_with(&format!("list {number}, which this wrapper does not know, edge 7 (counting from 1)")));
    }
    let half = decoded(raw::Answer { refusal, list: 1, position: NOTHING, ..found }).unwrap_err();
    assert_eq!(half, at(Refusal::BadCoordinate, List::Logical, NOTHING as usize));
    assert!(half.to_string().ends_with("logical list, edge 4294967296 (counting from 1)"));
    let half = decoded(raw::Answer { refusal, list: NOTHING, position: 0, ..found }).unwrap_err();
    assert_eq!(half, at(Refusal::BadCoordinate, List::Unknown(NOTHING), 0));
    // a found answer is found, whatever stands there
    assert_eq!(decoded(raw::Answer { list: 1, position: 2, ..found }), decoded(found));
    assert_eq!(soft_decoded(raw::SoftAnswer { list: 1, position: 2, ..soft }), soft_decoded(soft));
}

/// A found answer is about no edge.
#[test]
fn a_found_answer_has_no_place() {
    let call = call();
    let fit = match_stats_raw(&call.physical, AT, call.patterns());
    for place in [
        [call.hard_raw(&mut used_room()).list, call.hard_raw(&mut used_room()).position],
        [call.soft_raw(&mut used_room()).list, call.soft_raw(&mut used_room()).position],
        [fit.list, fit.position],
    ] {
        assert_eq!(place, [NOTHING; 2]);
    }
}

/// The words for people: the list by name and the edge counting from 1, where there is one.
#[test]
fn refusals_say_list_and_edge() {
    let words = |refused: Refused| refused.to_string();
    assert_eq!(
        words(at(Refusal::BadCoordinate, List::Logical, 2)),
        "refused (4): a row or column is beyond 1,000,000 either way: logical list, edge 3 (counting from 1)"
    );
    assert_eq!(
        words(at(Refusal::BadBit, List::Physical, 0)),
        "refused (17): a bit is not 0 or 1: physical list, edge 1 (counting from 1)"
    );
    assert_eq!(
        words(at(Refusal::BadOrientation, List::Only, 8191)),
        "refused (16): an orientation is not 0 or 1: only list, edge 8192 (counting from 1)"
    );
    for reason in Refusal::ALL {
        assert_eq!(words(nowhere(reason)), reason.to_string());
        assert_eq!(nowhere(reason).number(), reason.number());
    }
}

#[test]
fn the_answers_have_the_header_s_fields_in_its_order() {
    assert_eq!(size_of::<raw::Answer>(), 68);
    let answer = [
        offset_of!(raw::Answer, refusal),
        offset_of!(raw::Answer, list),
        offset_of!(raw::Answer, position),
        offset_of!(raw::Answer, transform),
        offset_of!(raw::Answer, row),
        offset_of!(raw::Answer, col),
        offset_of!(raw::Answer, hits),
        offset_of!(raw::Answer, edges),
        offset_of!(raw::Answer, weighted_score),
        offset_of!(raw::Answer, error_rate),
        offset_of!(raw::Answer, mean_confidence),
        offset_of!(raw::Answer, best_score),
        offset_of!(raw::Answer, runner_up_transform),
        offset_of!(raw::Answer, runner_up_row),
        offset_of!(raw::Answer, runner_up_col),
        offset_of!(raw::Answer, runner_up_hits),
        offset_of!(raw::Answer, margin_hits),
    ];
    assert!(answer.iter().enumerate().all(|(i, at)| *at == 4 * i), "{answer:?}");
    assert_eq!(size_of::<raw::SoftAnswer>(), 84);
    let soft = [
        offset_of!(raw::SoftAnswer, refusal),
        offset_of!(raw::SoftAnswer, list),
        offset_of!(raw::SoftAnswer, position),
        offset_of!(raw::SoftAnswer, transform),
        offset_of!(raw::SoftAnswer, row),
        offset_of!(raw::SoftAnswer, col),
        offset_of!(raw::SoftAnswer, hits),
        offset_of!(raw::SoftAnswer, edges),
        offset_of!(raw::SoftAnswer, weighted_score),
        offset_of!(raw::SoftAnswer, error_rate),
        offset_of!(raw::SoftAnswer, mean_confidence),
        offset_of!(raw::SoftAnswer, best_score),
        offset_of!(raw::SoftAnswer, second_transform),
        offset_of!(raw::SoftAnswer, second_row),
        offset_of!(raw::SoftAnswer, second_col),
        offset_of!(raw::SoftAnswer, second_score),
        offset_of!(raw::SoftAnswer, margin),
        offset_of!(raw::SoftAnswer, runner_up_transform),
        offset_of!(raw::SoftAnswer, runner_up_row),
        offset_of!(raw::SoftAnswer, runner_up_col),
        offset_of!(raw::SoftAnswer, runner_up_hits),
    ];
    assert!(soft.iter().enumerate().all(|(i, at)| *at == 4 * i), "{soft:?}");
    assert_eq!(size_of::<raw::Stats>(), 28);
    let stats = [
        offset_of!(raw::Stats, refusal),
        offset_of!(raw::Stats, list),
        offset_of!(raw::Stats, position),
        offset_of!(raw::Stats, edges),
        offset_of!(raw::Stats, hits),
        offset_of!(raw::Stats, error_rate),
        offset_of!(raw::Stats, mean_confidence),
    ];
    assert!(stats.iter().enumerate().all(|(i, at)| *at == 4 * i), "{stats:?}");
}
