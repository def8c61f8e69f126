//! Locate: found, each refusal and the edge that it is about, and that it says what hard decode says of the list with itself.

use super::*;
use crate::{locate, locate_raw, located, Located};

fn of(call: &Call) -> Result<Located, Refused> {
    locate(&call.logical, &call.transforms, call.patterns(), call.limit)
}

/// Both the safe function and the raw one refuse, the refusal holds only its number and its place, and hard decode of the list with itself gives the
/// same number at the same place.
fn refused(call: &Call, refused: Refused) {
    assert_eq!(of(call), Err(refused));
    let answer = locate_raw(&call.logical, &call.transforms, call.patterns(), call.limit);
    assert_eq!(answer.refusal, refused.number());
    assert_eq!([answer.list, answer.position], place_words(refused.place));
    let wholes = [
        answer.transform,
        answer.row,
        answer.col,
        answer.hits,
        answer.runner_up_transform,
        answer.runner_up_row,
        answer.runner_up_col,
        answer.runner_up_hits,
    ];
    nothing_in::<raw::Located>(&wholes, &[]);
    let twice = Call { physical: call.logical.clone(), ..call.clone() };
    let hard = twice.hard(&mut Room::new()).unwrap_err();
    assert_eq!((hard.reason, hard.place.map(|p| p.position)), (refused.reason, refused.place.map(|p| p.position)));
}

fn spoilt(spoil: fn(&mut Call)) -> Call {
    let mut call = call();
    spoil(&mut call);
    call
}

/// On the flat board and on poles, with misses, in every transform: the square, and the hits of an own count at both squares.
#[test]
fn locate_finds() {
    for length in [4, 100, 167, 500] {
        let board = Board::pole(length);
        for transform in 0..8 {
            let square = Square { transform, row: 3 * length as u32 - 1, col: 456 };
            let mut list = board.window(square, 12);
            for i in [3, 50, 99] {
                list.bits[i] ^= 1;
            }
            let found = locate(&list, &ALL_TRANSFORMS, board.patterns(), 0.25).unwrap();
            assert_eq!((found.square, found.hits), (square, 261));
            assert_ne!(found.runner_up, square);
            assert_eq!(match_stats(&list, found.runner_up, board.patterns()).unwrap().hits, found.runner_up_hits);
            let hard = decode_hard(&list, &list, &ALL_TRANSFORMS, board.patterns(), 0.25, &mut Room::new()).unwrap();
            assert_eq!((hard.square, hard.hits, hard.runner_up_hits), (found.square, found.hits, found.runner_up_hits));
        }
    }
}

/// Confidences have no influence but by refusal 10: the runner-up is the first of those with as many hits, where hard decode takes the heaviest.
#[test]
fn confidences_have_no_influence() {
    let mut call = call();
    let found = of(&call).unwrap();
    for (i, confidence) in call.logical.confidences.iter_mut().enumerate() {
        *confidence = (i as f32 * 0.377).fract();
    }
    assert_eq!(of(&call), Ok(found));
}

#[test]
fn locate_refusals_2_to_9_16_and_17() {
    let spoils: [(fn(&mut Call), Refused); 15] = [
        (|c| c.logical.rows.push(0), nowhere(Refusal::LengthsDiffer)),
        (|c| c.logical.confidences.push(0.5), nowhere(Refusal::LengthsDiffer)),
        (|c| c.logical = EdgeList::new(), nowhere(Refusal::ListSize)),
        (|c| c.logical.rows[5] = 1_000_001, at(Refusal::BadCoordinate, List::Only, 5)),
        (|c| c.logical.cols[263] = i32::MIN, at(Refusal::BadCoordinate, List::Only, 263)),
        (|c| c.logical.orientations[9] = 255, at(Refusal::BadOrientation, List::Only, 9)),
        (|c| c.logical.bits[9] = 2, at(Refusal::BadBit, List::Only, 9)),
        (|c| c.logical.confidences[1] = f32::NAN, at(Refusal::BadConfidence, List::Only, 1)),
        (|c| c.transforms.clear(), nowhere(Refusal::BadTransform)),
        (|c| c.transforms.push(0), nowhere(Refusal::BadTransform)),
        (|c| c.board_h.push(0), nowhere(Refusal::BadTable)),
        (|c| c.board_v[0] = 8, nowhere(Refusal::BadTable)),
        (|c| c.limit = f32::NAN, nowhere(Refusal::BadSetting)),
        (|c| c.limit = 1.001, nowhere(Refusal::BadSetting)),
        (|c| c.limit = -0.5, nowhere(Refusal::BadSetting)),
    ];
    for (spoil, why) in spoils {
        refused(&spoilt(spoil), why);
    }
}

#[test]
fn locate_refusals_10_11_and_13() {
    refused(&spoilt(|c| c.logical.confidences.fill(-0.0)), nowhere(Refusal::NoConfidence));
    let miss = spoilt(|c| {
        c.limit = 0.0;
        c.logical.bits[100] ^= 1;
    });
    refused(&miss, nowhere(Refusal::NoneWithinLimit));
    refused(&spoilt(|c| c.transforms = vec![5, 5]), nowhere(Refusal::NotFarAhead));
    let one = spoilt(|c| {
        c.logical = EdgeList::new();
        c.logical.push(Edge { row: 0, col: 0, orientation: 0, bit: 1, confidence: 1.0 });
        c.limit = 1.0;
    });
    refused(&one, nowhere(Refusal::NotFarAhead));
}

#[test]
fn numbers_that_the_wrapper_does_not_know() {
    let call = call();
    let found = locate_raw(&call.logical, &call.transforms, call.patterns(), call.limit);
    assert_eq!([found.list, found.position], [NOTHING; 2]);
    for number in [18, 255, u32::MAX] {
        assert_eq!(located(raw::Located { refusal: number, ..found }), Err(nowhere(Refusal::Unknown(number))));
    }
    let listed = raw::Located { refusal: 4, list: 9, position: 6, ..found };
    assert_eq!(located(listed), Err(at(Refusal::BadCoordinate, List::Unknown(9), 6)));
}

#[test]
fn what_is_located_has_the_header_s_fields_in_its_order() {
    let fields = [
        offset_of!(raw::Located, refusal),
        offset_of!(raw::Located, list),
        offset_of!(raw::Located, position),
        offset_of!(raw::Located, transform),
        offset_of!(raw::Located, row),
        offset_of!(raw::Located, col),
        offset_of!(raw::Located, hits),
        offset_of!(raw::Located, runner_up_transform),
        offset_of!(raw::Located, runner_up_row),
        offset_of!(raw::Located, runner_up_col),
        offset_of!(raw::Located, runner_up_hits),
    ];
    assert_eq!(size_of::<raw::Located>(), 4 * fields.len());
    assert!(fields.iter().enumerate().all(|(i, at)| *at == 4 * i), "{fields:?}");
}
