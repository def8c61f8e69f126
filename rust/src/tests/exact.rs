//! Exact decode: found, each refusal, the edge that it is about, the room, and weights in whole units.

use super::*;
use crate::{decode_exact, decode_exact_raw, exact_decoded, tables_for, ExactDecoded, ExactRoom, ROOM_UNITS, UNITS};

const NO_WEIGHT: u64 = u64::MAX;

/// Room longer than needed, with something in it.
fn used() -> ExactRoom {
    ExactRoom { counts: vec![7; ROOM_COUNTS + SURPLUS], units: vec![1 << 60; ROOM_UNITS + SURPLUS] }
}

fn exact(call: &Call, room: &mut ExactRoom) -> Result<ExactDecoded, Refused> {
    decode_exact(&call.logical, &call.physical, &call.transforms, call.patterns(), call.limit, room)
}

fn exact_raw(call: &Call, room: &mut ExactRoom) -> raw::ExactAnswer {
    decode_exact_raw(&call.logical, &call.physical, &call.transforms, call.patterns(), call.limit, room)
}

/// Nothing but the number and the place: 0xFFFFFFFF, 0xFFFFFFFFFFFFFFFF or NaN in every other field.
fn only_its_refusal(answer: raw::ExactAnswer, refused: Refused) {
    assert_eq!(answer.refusal, refused.number());
    assert_eq!([answer.list, answer.position], place_words(refused.place));
    let wholes = [
        answer.transform,
        answer.row,
        answer.col,
        answer.hits,
        answer.edges,
        answer.runner_up_transform,
        answer.runner_up_row,
        answer.runner_up_col,
        answer.runner_up_hits,
        answer.margin_hits,
    ];
    let weights = [answer.weight, answer.total, answer.runner_up_weight];
    assert_eq!(size_of::<raw::ExactAnswer>(), 4 * (3 + wholes.len() + 1) + 8 * weights.len());
    assert_eq!(wholes, [NOTHING; 10]);
    assert_eq!(weights, [NO_WEIGHT; 3]);
    assert!(answer.error_rate.is_nan());
}

/// The used part of both slices is zero and their surplus as it was.
fn all_used(room: &ExactRoom, before: &ExactRoom, length: usize) {
    assert!(emptied(&room.counts, &before.counts, tables_for(length), 0));
    assert!(emptied(&room.units, &before.units, tables_for(length), 0));
}

/// Both the safe function and the raw one refuse, the refusal holds only its number and its place, and the room is as promised: untouched after 1
/// to 9, 16 and 17, else zero where it was used. A good call in the same room is then found.
fn refused(call: &Call, refused: Refused) {
    let mut room = used();
    assert_eq!(exact(call, &mut room), Err(refused));
    if early(refused.reason) {
        assert_eq!(room, used());
    } else {
        all_used(&room, &used(), call.board_h.len());
    }
    only_its_refusal(exact_raw(call, &mut room), refused);
    assert_eq!(exact(&super::call(), &mut room), exact(&super::call(), &mut ExactRoom::new()));
}

fn spoilt(spoil: fn(&mut Call)) -> Call {
    let mut call = call();
    spoil(&mut call);
    call
}

/// A confidence in whole units, halves away from zero, by integers alone: a float is a whole number of 24 bits times a power of two.
fn units_of(confidence: f32) -> u64 {
    let bits = confidence.abs().to_bits();
    let (exponent, whole) = (bits >> 23, u64::from(bits & 0x7f_ffff | 0x80_0000));
    match exponent {
        126.. => whole << (exponent - 126),
        101.. => (whole + (1 << (125 - exponent))) >> (126 - exponent),
        _ => 0,
    }
}

/// The hits of a list at a square and what they weigh, edge by edge, and what the whole list weighs.
fn counted_at(board: &Board, list: &EdgeList, square: Square) -> (u32, u64, u64) {
    let (mut hits, mut weight, mut total) = (0, 0, 0);
    for i in 0..list.len() {
        let units = units_of(list.confidences[i]);
        total += units;
        if board.predicted(square, list.rows[i], list.cols[i], list.orientations[i]) == list.bits[i] {
            hits += 1;
            weight += units;
        }
    }
    (hits, weight, total)
}

// ---- found

/// On the flat board and on poles, in every transform, with misses: all figures are those of an own count, and hard decode finds the same.
#[test]
fn exact_finds_and_weighs() {
    for length in [4, 100, 167, 500] {
        let board = Board::pole(length);
        for transform in 0..8 {
            let square = Square { transform, row: 3 * length as u32 - 1, col: 456 };
            let mut list = board.window(square, 12);
            for i in [3, 50, 99] {
                list.bits[i] ^= 1;
            }
            for (i, confidence) in list.confidences.iter_mut().enumerate() {
                *confidence = (i as f32 * 0.377).fract() / (1 << (i % 20)) as f32;
            }
            let before =
                ExactRoom { counts: vec![7; tables_for(length) + SURPLUS], units: vec![9; tables_for(length) + SURPLUS] };
            let mut room = before.clone();
            let found = decode_exact(&list, &list, &ALL_TRANSFORMS, board.patterns(), 0.25, &mut room).unwrap();
            assert_eq!((found.square, found.edges, found.error_rate), (square, 264, 3.0 / 264.0));
            assert_eq!((found.hits, found.weight, found.total), counted_at(&board, &list, square));
            assert_ne!(found.runner_up, square);
            assert_eq!((found.runner_up_hits, found.runner_up_weight, found.total), counted_at(&board, &list, found.runner_up));
            assert_eq!(found.margin_hits, found.hits - found.runner_up_hits);
            all_used(&room, &before, length);
            let hard = decode_hard(&list, &list, &ALL_TRANSFORMS, board.patterns(), 0.25, &mut Room::new()).unwrap();
            assert_eq!((hard.square, hard.hits, hard.runner_up_hits), (found.square, found.hits, found.runner_up_hits));
            assert_eq!(hard.error_rate.to_bits(), found.error_rate.to_bits());
        }
    }
}

/// Halves go up, what is below a half unit counts as 0, and -0 is 0.
#[test]
fn confidences_become_whole_units() {
    let board = Board::new();
    let half = 1.0 / (1u32 << 25) as f32;
    let small =
        [half, f32::from_bits(half.to_bits() - 1), half / 2.0, 0.0, -0.0, 3.0 * half, 5.0 * half, 0.5, 1.0, f32::MIN_POSITIVE];
    let units = [1, 0, 0, 0, 0, 2, 3, UNITS / 2, UNITS, 0];
    for (confidence, weight) in small.into_iter().zip(units) {
        let mut call = call();
        call.logical.confidences.fill(0.0);
        call.logical.confidences[17] = confidence;
        call.logical.confidences[18] = 1.0;
        let found = exact(&call, &mut used()).unwrap();
        assert_eq!((found.square, found.weight, found.total), (AT, UNITS + weight, UNITS + weight), "{confidence:e}");
        assert_eq!(counted_at(&board, &call.logical, AT), (264, UNITS + weight, UNITS + weight));
    }
}

/// No list weighs more than 2^37 units, and one of 8,192 sure edges weighs just that.
#[test]
fn the_heaviest_list_is_taken() {
    let mut call = call();
    let mut list = Board::new().window(AT, 64);
    while list.len() < 8192 {
        let (row, col, orientation, bit) = (list.rows[0], list.cols[0], list.orientations[0], list.bits[0]);
        list.push(Edge { row, col, orientation, bit, confidence: 1.0 });
    }
    list.confidences.fill(1.0);
    call.logical = list.clone();
    call.physical = list;
    let found = exact(&call, &mut used()).unwrap();
    assert_eq!((found.square, found.hits, found.weight, found.total), (AT, 8192, 1 << 37, 1 << 37));
}

/// Room of no length is made as long as the call needs, and kept for the next; what it held has no influence.
#[test]
fn the_room_grows_and_is_kept() {
    let mut kept = ExactRoom { counts: Vec::new(), units: Vec::new() };
    for length in [4, 500, 167, 5] {
        let board = Board::pole(length);
        let square = Square { transform: 2, row: 1, col: 2 };
        let list = board.window(square, 12);
        let longest = kept.units.len().max(tables_for(length));
        let found = decode_exact(&list, &list, &ALL_TRANSFORMS, board.patterns(), 0.25, &mut kept).unwrap();
        assert_eq!((found.square, found.hits), (square, 264));
        assert_eq!((kept.counts.len(), kept.units.len()), (longest, longest));
        let mut stale = ExactRoom { counts: vec![u32::MAX; longest], units: vec![u64::MAX; longest] };
        assert_eq!(decode_exact(&list, &list, &ALL_TRANSFORMS, board.patterns(), 0.25, &mut stale), Ok(found));
        assert_eq!(stale.units[..tables_for(length)], vec![0; tables_for(length)]);
    }
    assert_eq!(ExactRoom::default(), ExactRoom::new());
}

// ---- refusals

/// In room as it is: 1, and the room is untouched; the safe function makes it longer.
#[test]
fn exact_refusal_1() {
    let short = nowhere(Refusal::RoomTooShort);
    for (counts, units) in
        [(ROOM_COUNTS - 1, ROOM_UNITS), (ROOM_COUNTS, ROOM_UNITS - 1), (0, ROOM_UNITS), (ROOM_COUNTS, 0), (0, 0)]
    {
        let before = ExactRoom { counts: vec![7; counts], units: vec![7; units] };
        let mut room = before.clone();
        let mut call = call();
        only_its_refusal(exact_raw(&call, &mut room), short);
        call.limit = 2.0;
        call.logical.bits.pop();
        only_its_refusal(exact_raw(&call, &mut room), short);
        assert_eq!(room, before);
        assert_eq!(exact(&super::call(), &mut room), exact(&super::call(), &mut used()));
        assert_eq!((room.counts.len(), room.units.len()), (ROOM_COUNTS, ROOM_UNITS));
    }
    // a bad length asks for the room of the smallest pole
    let bad = spoilt(|c| c.board_h.truncate(3));
    for (places, reason) in [(1538, Refusal::RoomTooShort), (1539, Refusal::BadTable)] {
        let mut room = ExactRoom { counts: vec![7; 1539], units: vec![7; places] };
        only_its_refusal(exact_raw(&bad, &mut room), nowhere(reason));
    }
}

#[test]
fn exact_refusals_2_to_9_16_and_17() {
    let spoils: [(fn(&mut Call), Refused); 17] = [
        (|c| c.physical.rows.push(0), nowhere(Refusal::LengthsDiffer)),
        (|c| c.logical.confidences.push(0.5), nowhere(Refusal::LengthsDiffer)),
        (|c| c.logical = EdgeList::new(), nowhere(Refusal::ListSize)),
        (|c| c.physical = EdgeList::new(), nowhere(Refusal::ListSize)),
        (|c| c.logical.rows[5] = 1_000_001, at(Refusal::BadCoordinate, List::Logical, 5)),
        (|c| c.physical.cols[263] = i32::MIN, at(Refusal::BadCoordinate, List::Physical, 263)),
        (|c| c.physical.orientations[9] = 255, at(Refusal::BadOrientation, List::Physical, 9)),
        (|c| c.logical.bits[9] = 2, at(Refusal::BadBit, List::Logical, 9)),
        (|c| c.logical.confidences[1] = f32::NAN, at(Refusal::BadConfidence, List::Logical, 1)),
        (|c| c.physical.confidences[0] = 1.001, at(Refusal::BadConfidence, List::Physical, 0)),
        (|c| c.transforms.clear(), nowhere(Refusal::BadTransform)),
        (|c| c.transforms.push(0), nowhere(Refusal::BadTransform)),
        (|c| c.board_h.push(0), nowhere(Refusal::BadTable)),
        (|c| c.board_v[0] = 8, nowhere(Refusal::BadTable)),
        (|c| c.limit = f32::NAN, nowhere(Refusal::BadSetting)),
        (|c| c.limit = 1.001, nowhere(Refusal::BadSetting)),
        (|c| c.limit = -0.5, nowhere(Refusal::BadSetting)),
    ];
    for (spoil, why) in spoils {
        refused(&spoilt(spoil), why);
    }
    // of two kinds the first, whichever list it stands in
    let two = spoilt(|c| {
        c.physical.bits[9] = 2;
        c.logical.confidences[0] = 2.0;
        c.limit = 2.0;
    });
    refused(&two, at(Refusal::BadBit, List::Physical, 9));
}

/// Refusal 10 goes by whole units: 2^-25 is one, and a list of smaller ones has none, where hard decode still finds a square.
#[test]
fn exact_refusal_10() {
    let spoils: [fn(&mut Call); 5] = [
        |c| c.logical.confidences.fill(0.0),
        |c| c.physical.confidences.fill(-0.0),
        |c| c.logical.confidences.fill(2.0f32.powi(-26)),
        |c| c.physical.confidences.fill(f32::from_bits(2.0f32.powi(-25).to_bits() - 1)),
        |c| {
            c.logical.confidences.fill(1.0e-30);
            c.limit = 0.0;
            c.logical.bits[100] ^= 1; // 10 comes before 11
        },
    ];
    for (place, spoil) in spoils.into_iter().enumerate() {
        let call = spoilt(spoil);
        refused(&call, nowhere(Refusal::NoConfidence));
        assert_eq!(call.hard(&mut used_room()).is_ok(), place == 2 || place == 3);
    }
    let just = spoilt(|c| c.logical.confidences.fill(2.0f32.powi(-25)));
    let found = exact(&just, &mut used()).unwrap();
    assert_eq!((found.square, found.weight, found.total), (AT, 264, 264));
}

#[test]
fn exact_refusals_11_to_13() {
    let miss = spoilt(|c| {
        c.limit = 0.0;
        c.logical.bits[100] ^= 1;
    });
    refused(&miss, nowhere(Refusal::NoneWithinLimit));
    // 11 comes before 10 of the physical list
    refused(&Call { physical: spoilt(|c| c.physical.confidences.fill(0.0)).physical, ..miss }, nowhere(Refusal::NoneWithinLimit));
    refused(&Call { physical: Board::new().window(ELSEWHERE, 12), ..call() }, nowhere(Refusal::ListsDisagree));
    refused(&spoilt(|c| c.transforms = vec![5, 5]), nowhere(Refusal::NotFarAhead));
    let one = spoilt(|c| {
        let mut list = EdgeList::new();
        list.push(Edge { row: 0, col: 0, orientation: 0, bit: 1, confidence: 1.0 });
        c.logical = list.clone();
        c.physical = list;
        c.limit = 1.0;
    });
    refused(&one, nowhere(Refusal::NotFarAhead));
}

/// The physical list has no error limit, and needs no more than to point to the same square.
#[test]
fn the_physical_list_has_no_limit() {
    let mut call = call();
    call.limit = 0.0;
    for i in [3, 50, 99, 200] {
        call.physical.bits[i] ^= 1;
    }
    assert_eq!(exact(&call, &mut used()).map(|found| found.square), Ok(AT));
}

#[test]
fn a_refusal_after_a_found_exact_answer_holds_nothing_of_it() {
    let mut call = call();
    let mut room = used();
    assert!(exact(&call, &mut room).is_ok());
    call.limit = f32::NAN;
    only_its_refusal(exact_raw(&call, &mut room), nowhere(Refusal::BadSetting));
    call.logical.bits[7] = 2;
    only_its_refusal(exact_raw(&call, &mut room), at(Refusal::BadBit, List::Logical, 7));
}

#[test]
fn numbers_that_the_wrapper_does_not_know() {
    let found = exact_raw(&call(), &mut used());
    assert_eq!([found.list, found.position], [NOTHING; 2]);
    assert!(exact_decoded(found).is_ok());
    for number in [18, 255, u32::MAX] {
        assert_eq!(exact_decoded(raw::ExactAnswer { refusal: number, ..found }), Err(nowhere(Refusal::Unknown(number))));
    }
    let listed = raw::ExactAnswer { refusal: 4, list: 9, position: 6, ..found };
    assert_eq!(exact_decoded(listed), Err(at(Refusal::BadCoordinate, List::Unknown(9), 6)));
}

#[test]
fn the_exact_answer_has_the_header_s_fields_in_its_order() {
    assert_eq!(size_of::<raw::ExactAnswer>(), 80);
    let fours = [
        offset_of!(raw::ExactAnswer, refusal),
        offset_of!(raw::ExactAnswer, list),
        offset_of!(raw::ExactAnswer, position),
        offset_of!(raw::ExactAnswer, transform),
        offset_of!(raw::ExactAnswer, row),
        offset_of!(raw::ExactAnswer, col),
        offset_of!(raw::ExactAnswer, hits),
        offset_of!(raw::ExactAnswer, edges),
        offset_of!(raw::ExactAnswer, error_rate),
        offset_of!(raw::ExactAnswer, runner_up_transform),
        offset_of!(raw::ExactAnswer, runner_up_row),
        offset_of!(raw::ExactAnswer, runner_up_col),
        offset_of!(raw::ExactAnswer, runner_up_hits),
        offset_of!(raw::ExactAnswer, margin_hits),
    ];
    assert!(fours.iter().enumerate().all(|(i, at)| *at == 4 * i), "{fours:?}");
    let eights = [
        offset_of!(raw::ExactAnswer, weight),
        offset_of!(raw::ExactAnswer, total),
        offset_of!(raw::ExactAnswer, runner_up_weight),
    ];
    assert_eq!(eights, [56, 64, 72]);
}
