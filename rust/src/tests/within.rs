//! The test against the error limit: yes and no with the edges read, each refusal and their order, and match statistics beside it.

use super::*;
use crate::{judged, within_limit, within_limit_raw, LimitTest};
use LimitTest::{Beyond, Within};

fn of(call: &Call, square: Square) -> Result<LimitTest, Refused> {
    within_limit(&call.logical, square, call.patterns(), call.limit)
}

/// Both the safe function and the raw one refuse, and the refusal holds only its number and its place.
fn refused_at(call: &Call, square: Square, refused: Refused) {
    assert_eq!(of(call, square), Err(refused));
    let answer = within_limit_raw(&call.logical, square, call.patterns(), call.limit);
    assert_eq!(answer.refusal, refused.number());
    assert_eq!([answer.list, answer.position], place_words(refused.place));
    nothing_in::<raw::LimitTest>(&[answer.within, answer.read], &[]);
}

fn refused(call: &Call, refused: Refused) {
    refused_at(call, AT, refused);
}

fn spoilt(spoil: fn(&mut Call)) -> Call {
    let mut call = call();
    spoil(&mut call);
    call
}

/// A window of 264 edges at the limit 0.25, so of at most 66 misses: the least number of edges that decides, from either side.
#[test]
fn read_until_certain() {
    let mut call = call();
    assert_eq!(call.logical.len(), 264);
    assert_eq!(of(&call, AT), Ok(Within { read: 198 }));
    for i in 0..66 {
        call.logical.bits[i] ^= 1;
    }
    assert_eq!(of(&call, AT), Ok(Within { read: 264 }));
    call.logical.bits[66] ^= 1;
    assert_eq!(of(&call, AT), Ok(Beyond { read: 67 }));
    call.limit = 1.0;
    assert_eq!(of(&call, AT), Ok(Within { read: 0 }));
    call.limit = 0.0;
    assert_eq!(of(&call, AT), Ok(Beyond { read: 1 }));
}

/// The empty list has rate 1.
#[test]
fn the_empty_list() {
    let mut call = spoilt(|c| c.logical = EdgeList::new());
    for (limit, answer) in [(1.0, Within { read: 0 }), (0.99999994, Beyond { read: 0 }), (0.0, Beyond { read: 0 })] {
        call.limit = limit;
        assert_eq!(of(&call, AT), Ok(answer));
    }
}

#[test]
fn within_refusals_2_3_and_7_to_9() {
    let spoils: [(fn(&mut Call), Refusal); 11] = [
        (|c| c.logical.rows.push(0), Refusal::LengthsDiffer),
        (|c| c.logical.cols.push(0), Refusal::LengthsDiffer),
        (|c| c.logical.orientations.push(0), Refusal::LengthsDiffer),
        (|c| c.logical.bits.push(0), Refusal::LengthsDiffer),
        (|c| c.logical.confidences.push(0.5), Refusal::LengthsDiffer),
        (
            |c| {
                for _ in c.logical.len()..8193 {
                    c.logical.push(Edge { row: 0, col: 0, orientation: 0, bit: 0, confidence: 0.5 });
                }
            },
            Refusal::ListSize,
        ),
        (|c| c.board_h.push(0), Refusal::BadTable),
        (|c| c.board_v[0] = 8, Refusal::BadTable),
        (|c| c.limit = f32::NAN, Refusal::BadSetting),
        (|c| c.limit = 1.0000001, Refusal::BadSetting),
        (|c| c.limit = -1e-45, Refusal::BadSetting),
    ];
    for (spoil, why) in spoils {
        refused(&spoilt(spoil), nowhere(why));
    }
    let call = call();
    for transform in [8, 255, 256, 263, u32::MAX] {
        refused_at(&call, Square { transform, ..AT }, nowhere(Refusal::BadTransform));
    }
    for off in [Square { row: 501, ..AT }, Square { col: 501, ..AT }, Square { row: u32::MAX, ..AT }] {
        refused_at(&call, off, nowhere(Refusal::BadSetting));
    }
}

/// Each refusal of the call comes before those after it, and all of them before a bad first edge.
#[test]
fn the_call_comes_before_the_edges() {
    let mut call = spoilt(|c| {
        c.logical.rows[0] = 1_000_001;
        c.limit = 2.0;
        c.board_h.push(0);
        for _ in c.logical.len()..8193 {
            c.logical.push(Edge { row: 0, col: 0, orientation: 0, bit: 0, confidence: 0.5 });
        }
        c.logical.bits.push(0);
    });
    let off = Square { transform: 8, row: 501, col: 501 };
    refused_at(&call, off, nowhere(Refusal::LengthsDiffer));
    call.logical.bits.pop();
    refused_at(&call, off, nowhere(Refusal::ListSize));
    for column in [&mut call.logical.rows, &mut call.logical.cols] {
        column.pop();
    }
    call.logical.orientations.pop();
    call.logical.bits.pop();
    call.logical.confidences.pop();
    refused_at(&call, off, nowhere(Refusal::BadTransform));
    refused(&call, nowhere(Refusal::BadTable));
    call.board_h.pop();
    refused(&call, nowhere(Refusal::BadSetting));
    call.limit = 0.5;
    refused(&call, at(Refusal::BadCoordinate, List::Only, 0));
    call.limit = 1.0;
    assert_eq!(of(&call, AT), Ok(Within { read: 0 }));
}

/// A bad edge is refused where it is reached, its fields in their order; the one after the last that is read does not matter.
#[test]
fn bad_edges_as_far_as_read() {
    let fields: [(fn(&mut EdgeList, usize), Refusal); 5] = [
        (|l, i| l.confidences[i] = f32::NAN, Refusal::BadConfidence),
        (|l, i| l.bits[i] = 2, Refusal::BadBit),
        (|l, i| l.orientations[i] = 2, Refusal::BadOrientation),
        (|l, i| l.cols[i] = -1_000_001, Refusal::BadCoordinate),
        (|l, i| l.rows[i] = i32::MIN, Refusal::BadCoordinate),
    ];
    let mut call = call();
    for (spoil, why) in fields {
        spoil(&mut call.logical, 197);
        refused(&call, at(why, List::Only, 197));
    }
    let mut call = spoilt(|_| ());
    for (spoil, _) in fields {
        spoil(&mut call.logical, 198);
        assert_eq!(of(&call, AT), Ok(Within { read: 198 }));
    }
    for i in 0..67 {
        call.logical.bits[i] ^= 1;
    }
    assert_eq!(of(&call, AT), Ok(Beyond { read: 67 }));
}

/// 1,000 random lists beside match statistics: yes exactly where their rate is at most the limit. The number read is the least after which the rates
/// with all other edges missed and with all hit lie on one side of the limit.
#[test]
fn as_match_statistics() {
    let mut state = 1818u64;
    let mut next = move |n: usize| {
        state = state.wrapping_mul(6364136223846793005).wrapping_add(1442695040888963407);
        (state >> 33) as usize % n
    };
    let mut told = [0; 2];
    for _ in 0..1000 {
        let length = [4, 5, 100, 167, 500][next(5)];
        let board = Board::pole(length);
        let square = Square { transform: next(8) as u32, row: next(3 * length) as u32, col: next(501) as u32 };
        let mut list = board.window(square, 2 + next(7) as i32);
        let one_in = 1 + next(12);
        let mut hits = Vec::new();
        for bit in &mut list.bits {
            let missed = next(one_in) == 0;
            *bit ^= missed as u8;
            hits.push(!missed);
        }
        let n = hits.len();
        let rate = |misses: usize| misses as f32 / n as f32;
        let limit = match next(4) {
            0 => rate(next(n + 1)),
            1 => f32::from_bits(rate(1 + next(n)).to_bits() - 1),
            2 => f32::from_bits(rate(next(n)).to_bits() + 1),
            _ => next(1001) as f32 / 1000.0,
        };
        let stats = match_stats(&list, square, board.patterns()).unwrap();
        assert_eq!(stats.hits as usize, hits.iter().filter(|h| **h).count());
        let within = stats.error_rate <= limit;
        let misses = |i: usize| hits[..i].iter().filter(|h| !**h).count();
        let read = (0..=n).find(|i| rate(misses(*i)) > limit || rate(misses(*i) + n - i) <= limit).unwrap() as u32;
        let expected = if within { Within { read } } else { Beyond { read } };
        assert_eq!(within_limit(&list, square, board.patterns(), limit), Ok(expected));
        told[within as usize] += 1;
        let mut unread = list.clone();
        for i in read as usize..n {
            unread.bits[i] = 9;
        }
        assert_eq!(within_limit(&unread, square, board.patterns(), limit), Ok(expected));
    }
    assert!(told.iter().all(|n| *n > 200), "{told:?}");
}

#[test]
fn numbers_that_the_wrapper_does_not_know() {
    let call = call();
    let answer = within_limit_raw(&call.logical, AT, call.patterns(), call.limit);
    assert_eq!([answer.refusal, answer.list, answer.position, answer.within, answer.read], [0, NOTHING, NOTHING, 1, 198]);
    for number in [18, 255, u32::MAX] {
        assert_eq!(judged(raw::LimitTest { refusal: number, ..answer }), Err(nowhere(Refusal::Unknown(number))));
    }
    let listed = raw::LimitTest { refusal: 4, list: 9, position: 6, ..answer };
    assert_eq!(judged(listed), Err(at(Refusal::BadCoordinate, List::Unknown(9), 6)));
    assert_eq!(judged(raw::LimitTest { within: 2, ..answer }), Ok(Beyond { read: 198 }));
}

#[test]
fn what_is_judged_has_the_header_s_fields_in_its_order() {
    let fields = [
        offset_of!(raw::LimitTest, refusal),
        offset_of!(raw::LimitTest, list),
        offset_of!(raw::LimitTest, position),
        offset_of!(raw::LimitTest, within),
        offset_of!(raw::LimitTest, read),
    ];
    assert_eq!(size_of::<raw::LimitTest>(), 4 * fields.len());
    assert!(fields.iter().enumerate().all(|(i, at)| *at == 4 * i), "{fields:?}");
}
