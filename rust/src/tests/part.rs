//! Decode over a part: held to a count at every origin of the part, edge by edge and without tables; each refusal, the room, and what is not shown.

use super::exact::{counted_at, NO_WEIGHT};
use super::*;
use crate::{decode_exact, decode_part, decode_part_raw, part_decoded, ExactRoom, Part, PartDecoded, PartRunnerUp, ROOM_UNITS};

const WHOLE: Part = Part { row: 0, col: 0, rows: 501, cols: 501 };
const AROUND: Part = Part { row: 120, col: 450, rows: 9, cols: 11 };
const ALONE: Part = Part { row: 123, col: 456, rows: 1, cols: 1 };

/// Room longer than needed, with something in it.
fn used() -> ExactRoom {
    ExactRoom { counts: vec![7; ROOM_COUNTS + SURPLUS], units: vec![1 << 60; ROOM_UNITS + SURPLUS] }
}

fn over(call: &Call, part: Part, room: &mut ExactRoom) -> Result<PartDecoded, Refused> {
    decode_part(&call.logical, &call.physical, &call.transforms, call.patterns(), call.limit, part, room)
}

fn over_raw(call: &Call, part: Part, room: &mut ExactRoom) -> raw::PartAnswer {
    decode_part_raw(&call.logical, &call.physical, &call.transforms, call.patterns(), call.limit, part, room)
}

/// The fields of a runner-up, none of which is shown.
fn none_shown(answer: &raw::PartAnswer) {
    assert_eq!([answer.runner_up_transform, answer.runner_up_row, answer.runner_up_col, answer.runner_up_hits], [NOTHING; 4]);
    assert_eq!(answer.runner_up_weight, NO_WEIGHT);
}

/// Nothing but the number and the place: 0xFFFFFFFF, 0xFFFFFFFFFFFFFFFF or NaN in every other field.
fn only_its_refusal(answer: raw::PartAnswer, refused: Refused) {
    assert_eq!(answer.refusal, refused.number());
    assert_eq!([answer.list, answer.position], place_words(refused.place));
    assert_eq!([answer.transform, answer.row, answer.col, answer.hits, answer.edges, answer.margin_hits], [NOTHING; 6]);
    assert_eq!([answer.weight, answer.total], [NO_WEIGHT; 2]);
    assert!(answer.error_rate.is_nan());
    none_shown(&answer);
}

/// The used part of both slices, 3,006 places of each, is zero and their surplus as it was.
fn all_used(room: &ExactRoom, before: &ExactRoom) {
    assert!(emptied(&room.counts, &before.counts, 3006, 0));
    assert!(emptied(&room.units, &before.units, 3006, 0));
}

/// Both the safe function and the raw one refuse, the refusal holds only its number and its place, and the room is as promised: untouched after 1
/// to 9, 16 and 17, else zero where it was used. A good call in the same room is then found.
fn refused(call: &Call, part: Part, refused: Refused) {
    let mut room = used();
    assert_eq!(over(call, part, &mut room), Err(refused), "{part:?}");
    if early(refused.reason) {
        assert_eq!(room, used());
    } else {
        all_used(&room, &used());
    }
    only_its_refusal(over_raw(call, part, &mut room), refused);
    assert_eq!(over(&super::call(), AROUND, &mut room), over(&super::call(), AROUND, &mut ExactRoom::new()));
}

fn spoilt(spoil: fn(&mut Call)) -> Call {
    let mut call = call();
    spoil(&mut call);
    call
}

// ---- a count by the request's words

/// One placing of a part: its place in the transforms, its square, and its hits and their weight on a list.
struct Placed {
    square: Square,
    hits: u32,
    weight: u64,
}

/// Every placing of the part, by place in the transforms, row number and column number.
fn placings(call: &Call, list: &EdgeList, part: Part) -> Vec<Placed> {
    let board = Board { horizontal: call.board_h.clone(), vertical: call.board_v.clone() };
    let side = |start: u32, number: u32| {
        let mut numbers: Vec<u32> = (0..number).map(|i| (start + i) % 501).collect();
        numbers.sort_unstable();
        numbers
    };
    let mut all = Vec::new();
    for transform in &call.transforms {
        for row in side(part.row, part.rows) {
            for col in side(part.col, part.cols) {
                let square = Square { transform: u32::from(*transform), row, col };
                let (hits, weight, _) = counted_at(&board, list, square);
                all.push(Placed { square, hits, weight });
            }
        }
    }
    all
}

/// The first of most hits, and of those of most weight.
fn winner(all: &[Placed]) -> usize {
    (0..all.len()).fold(0, |best, i| if (all[i].hits, all[i].weight) > (all[best].hits, all[best].weight) { i } else { best })
}

/// What an accepted call over a part must answer.
fn due(call: &Call, part: Part) -> Result<PartDecoded, Refusal> {
    let board = Board { horizontal: call.board_h.clone(), vertical: call.board_v.clone() };
    let total = |list: &EdgeList| counted_at(&board, list, AT).2;
    let edges = call.logical.len() as u32;
    let logical = placings(call, &call.logical, part);
    let best = winner(&logical);
    let Placed { square, hits, weight } = logical[best];
    let error_rate = (edges - hits) as f32 / edges as f32;
    if total(&call.logical) == 0 {
        return Err(Refusal::NoConfidence);
    }
    if error_rate > call.limit {
        return Err(Refusal::NoneWithinLimit);
    }
    if total(&call.physical) == 0 {
        return Err(Refusal::NoConfidence);
    }
    let physical = placings(call, &call.physical, part);
    if physical[winner(&physical)].square != square {
        return Err(Refusal::ListsDisagree);
    }
    let mut next: Option<&Placed> = None;
    for (_, other) in logical.iter().enumerate().filter(|(i, _)| *i != best) {
        if !next.is_some_and(|n| other.hits <= n.hits) {
            next = Some(other);
        }
    }
    let margin_hits = hits - next.map_or(0, |n| n.hits);
    if margin_hits <= edges - hits {
        return Err(Refusal::NotFarAhead);
    }
    let runner_up = next.map(|n| PartRunnerUp { square: n.square, hits: n.hits, weight: n.weight });
    Ok(PartDecoded { square, hits, edges, weight, total: total(&call.logical), error_rate, runner_up, margin_hits })
}

/// The call is answered as counted, and the room is zero afterwards.
fn as_counted(call: &Call, part: Part) -> Result<PartDecoded, Refusal> {
    let mut room = used();
    let said = over(call, part, &mut room).map_err(|refused| refused.reason);
    assert_eq!(said, due(call, part), "{part:?}");
    all_used(&room, &used());
    said
}

/// A call that sees a square through a window of n by n corners, with misses.
fn seeing(square: Square, n: i32, misses: &[usize]) -> Call {
    let mut call = call();
    call.logical = Board::new().window(square, n);
    call.physical = call.logical.clone();
    for i in misses {
        call.logical.bits[*i] ^= 1;
    }
    call
}

// ---- found

/// In every transform, across both seams, in one row, in one column and at one origin: all figures are those of the count.
#[test]
fn found_as_counted() {
    for transform in 0..8 {
        let square = Square { transform, row: 500, col: 1 };
        let call = seeing(square, 12, &[3, 50, 99]);
        for (row, col, rows, cols) in
            [(498, 499, 5, 6), (500, 500, 12, 3), (470, 0, 60, 2), (500, 499, 1, 9), (496, 1, 9, 1), (500, 1, 1, 1)]
        {
            let found = as_counted(&call, Part { row, col, rows, cols }).unwrap();
            assert_eq!((found.square, found.hits, found.edges), (square, 261, 264));
            assert!(found.runner_up.is_some_and(|next| next.square != square));
        }
    }
}

/// Windows of a few corners, which lie in many places: each end is the count's, and among them are 11, 12, 13 and found ones.
#[test]
fn every_end_as_counted() {
    let mut ends = std::collections::BTreeSet::new();
    let mut state = 2020u32;
    let mut next = |below: u32| {
        state = state.wrapping_mul(1664525).wrapping_add(1013904223);
        (state >> 8) % below
    };
    for _ in 0..160 {
        let square = Square { transform: next(8), row: next(501), col: next(501) };
        let mut call = seeing(square, 2 + next(3) as i32, &[]);
        let edges = call.logical.len();
        for _ in 0..next(3) {
            call.logical.bits[next(edges as u32) as usize] ^= 1;
        }
        if next(4) == 0 {
            // few physical edges are hits at many placings of equal weight: then the first by number is taken
            let kept = 1 + next(3) as usize;
            let list = &mut call.physical;
            list.rows.truncate(kept);
            list.cols.truncate(kept);
            list.orientations.truncate(kept);
            list.bits.truncate(kept);
            list.confidences.truncate(kept);
        }
        if next(12) == 0 {
            call.physical.confidences.fill(0.0);
        }
        call.transforms = (0..1 + next(4)).map(|_| next(8) as u8).chain([square.transform as u8]).collect();
        call.limit = [0.0, 0.1, 0.3, 1.0][next(4) as usize];
        let (rows, cols) = (1 + next(7), 1 + next(7));
        let part = Part { row: (square.row + 501 - next(rows)) % 501, col: (square.col + 501 - next(cols)) % 501, rows, cols };
        ends.insert(as_counted(&call, part).err().map_or(0, Refusal::number));
    }
    assert_eq!(ends.into_iter().collect::<Vec<_>>(), [0, 10, 11, 12, 13]);
}

/// Of equal placings the one with the lower row number is taken, though the part comes to it last.
#[test]
fn ties_go_by_number_and_not_by_distance() {
    let mut decided = 0;
    for row in [499, 500] {
        for at in 0..4 {
            // one physical edge, which is a hit at many placings
            let mut call = seeing(Square { transform: 0, row: (499 + at) % 501, col: 33 }, 6, &[]);
            call.transforms = vec![0];
            call.physical = EdgeList::new();
            let (bit, confidence) = (call.logical.bits[40], 1.0);
            call.physical.push(Edge { row: call.logical.rows[40], col: call.logical.cols[40], orientation: 1, bit, confidence });
            let said = as_counted(&call, Part { row, col: 33, rows: 4, cols: 1 });
            decided += u32::from(said.is_ok());
        }
    }
    assert!(decided > 0 && decided < 8, "{decided}");
}

/// A list that the whole board refuses with 13 is found in a part.
#[test]
fn a_part_tells_apart_what_the_board_does_not() {
    let call = seeing(AT, 3, &[]);
    refused(&call, WHOLE, nowhere(Refusal::NotFarAhead));
    assert_eq!(as_counted(&call, AROUND).map(|found| found.square), Ok(AT));
}

/// One origin and one transform: found with no runner-up, where the hits are more than the misses, and else 13. Two transforms are two placings.
#[test]
fn one_origin_shows_no_runner_up() {
    let mut call = call();
    call.transforms = vec![5];
    let found = as_counted(&call, ALONE).unwrap();
    assert_eq!((found.square, found.runner_up, found.margin_hits), (AT, None, 264));
    let answer = over_raw(&call, ALONE, &mut used());
    assert_eq!((answer.refusal, answer.transform, answer.margin_hits), (0, 5, 264));
    none_shown(&answer);
    call.limit = 1.0;
    for i in 0..132 {
        call.logical.bits[i] ^= 1;
    }
    refused(&call, ALONE, nowhere(Refusal::NotFarAhead));
    call.logical.bits[0] ^= 1;
    assert_eq!(as_counted(&call, ALONE).map(|found| (found.hits, found.runner_up, found.margin_hits)), Ok((133, None, 133)));
    let mut call = super::call();
    call.transforms = vec![5, 2];
    let next = as_counted(&call, ALONE).unwrap().runner_up.unwrap();
    assert_eq!(next.square, Square { transform: 2, ..AT });
    call.transforms = vec![5, 5];
    refused(&call, ALONE, nowhere(Refusal::NotFarAhead));
    call.transforms = vec![5];
    assert!(as_counted(&call, Part { cols: 2, ..ALONE }).unwrap().runner_up.is_some());
}

/// Over the whole board, from any start, every end is exact decode's, and so are the figures.
#[test]
fn the_whole_board_as_exact_decode() {
    let spoils: [fn(&mut Call); 7] = [
        |_| (),
        |c| c.logical.bits[100] ^= 1,
        |c| c.logical.confidences.fill(0.0),
        |c| c.limit = 0.0,
        |c| c.physical = Board::new().window(ELSEWHERE, 12),
        |c| c.transforms = vec![5, 5],
        |c| c.physical.bits[4] = 2,
    ];
    for spoil in spoils {
        let mut call = seeing(Square { row: 0, col: 500, ..AT }, 12, &[7]);
        spoil(&mut call);
        let exact = decode_exact(&call.logical, &call.physical, &call.transforms, call.patterns(), call.limit, &mut used());
        for (row, col) in [(0, 0), (500, 1), (250, 500)] {
            let part = over(&call, Part { row, col, ..WHOLE }, &mut used());
            match (part, exact) {
                (Ok(p), Ok(e)) => {
                    assert_eq!((p.square, p.hits, p.edges, p.weight, p.total), (e.square, e.hits, e.edges, e.weight, e.total));
                    assert_eq!((p.error_rate, p.margin_hits), (e.error_rate, e.margin_hits));
                    let next = p.runner_up.unwrap();
                    assert_eq!(next.hits, e.runner_up_hits);
                    assert_eq!(match_stats(&call.logical, next.square, call.patterns()).map(|m| m.hits), Ok(next.hits));
                }
                (p, e) => assert_eq!(p.err(), e.err()),
            }
        }
    }
}

// ---- refusals

/// In room as it is: 1, by the flat board's room whatever the table is, and the room is untouched; the safe function makes it longer.
#[test]
fn part_refusal_1() {
    let short = nowhere(Refusal::RoomTooShort);
    for (counts, units) in [(3005, 3006), (3006, 3005), (0, 3006), (3006, 0), (0, 0)] {
        let before = ExactRoom { counts: vec![7; counts], units: vec![7; units] };
        let mut room = before.clone();
        for length in [0, 4, 166, 167, 168, 500] {
            let mut call = call();
            call.board_h.resize(length, 0);
            only_its_refusal(over_raw(&call, AROUND, &mut room), short);
            call.limit = 2.0;
            call.logical.bits.pop();
            only_its_refusal(over_raw(&call, Part { rows: 0, ..AROUND }, &mut room), short);
        }
        assert_eq!(room, before);
        assert_eq!(over(&call(), AROUND, &mut room), over(&call(), AROUND, &mut used()));
        assert_eq!((room.counts.len(), room.units.len()), (3006, 3006));
    }
}

#[test]
fn part_refusals_2_to_9_16_and_17() {
    let spoils: [(fn(&mut Call), Refused); 17] = [
        (|c| c.physical.rows.push(0), nowhere(Refusal::LengthsDiffer)),
        (|c| c.logical.confidences.push(0.5), nowhere(Refusal::LengthsDiffer)),
        (|c| c.logical = EdgeList::new(), nowhere(Refusal::ListSize)),
        (|c| c.physical = EdgeList::new(), nowhere(Refusal::ListSize)),
        (|c| c.logical.rows[5] = 1_000_001, at(Refusal::BadCoordinate, List::Logical, 5)),
        (|c| c.physical.cols[263] = i32::MIN, at(Refusal::BadCoordinate, List::Physical, 263)),
        (|c| c.physical.orientations[9] = 255, at(Refusal::BadOrientation, List::Physical, 9)),
        (|c| c.logical.bits[9] = 2, at(Refusal::BadBit, List::Logical, 9)),
        (|c| c.logical.confidences[1] = f32::NAN, at(Refusal::BadConfidence, List::Logical, 1)),
        (|c| c.physical.confidences[0] = 1.001, at(Refusal::BadConfidence, List::Physical, 0)),
        (|c| c.transforms.clear(), nowhere(Refusal::BadTransform)),
        (|c| c.transforms.push(0), nowhere(Refusal::BadTransform)),
        (|c| c.board_h[0] = 8, nowhere(Refusal::BadTable)),
        (|c| c.board_v.truncate(166), nowhere(Refusal::BadTable)),
        (|c| c.limit = f32::NAN, nowhere(Refusal::BadSetting)),
        (|c| c.limit = 1.001, nowhere(Refusal::BadSetting)),
        (|c| c.limit = -0.5, nowhere(Refusal::BadSetting)),
    ];
    let far = Part { row: 501, ..AROUND };
    for (spoil, why) in spoils {
        let spoilt = spoilt(spoil);
        refused(&spoilt, AROUND, why);
        // what is wrong with the part comes last
        refused(&spoilt, far, why);
    }
    let two = spoilt(|c| {
        c.physical.bits[9] = 2;
        c.logical.confidences[0] = 2.0;
        c.board_h.truncate(4);
    });
    refused(&two, far, at(Refusal::BadBit, List::Physical, 9));
}

/// Any horizontal table but one of 167, also a pole's.
#[test]
fn part_refusal_8_for_every_other_length() {
    for length in (0..=501).filter(|length| *length != 167) {
        let mut call = call();
        call.board_h.resize(length, 1);
        let mut room = used();
        only_its_refusal(over_raw(&call, Part { rows: 502, ..AROUND }, &mut room), nowhere(Refusal::BadTable));
        assert_eq!(room, used());
    }
}

/// Starts of 501 and more, sizes of 0 and of 502 and more, and values that would come out in range if they were added in 32 bits.
#[test]
fn part_refusal_9_by_start_and_size() {
    let bad = nowhere(Refusal::BadSetting);
    for start in [501, 502, 1 << 31, u32::MAX - 1, u32::MAX] {
        refused(&call(), Part { row: start, ..AROUND }, bad);
        refused(&call(), Part { col: start, ..AROUND }, bad);
    }
    for size in [0, 502, 1 << 31, u32::MAX - 500, u32::MAX - 119, u32::MAX] {
        refused(&call(), Part { rows: size, ..AROUND }, bad);
        refused(&call(), Part { cols: size, ..AROUND }, bad);
    }
    refused(&call(), Part { row: u32::MAX, col: u32::MAX, rows: 2, cols: 2 }, bad);
    for part in [Part { row: 500, ..AROUND }, Part { rows: 501, row: 500, ..AROUND }, Part { col: 500, cols: 501, ..AROUND }] {
        assert_ne!(over(&call(), part, &mut used()).err(), Some(bad));
    }
}

#[test]
fn part_refusals_10_to_13() {
    refused(&spoilt(|c| c.logical.confidences.fill(0.0)), AROUND, nowhere(Refusal::NoConfidence));
    refused(&spoilt(|c| c.physical.confidences.fill(2.0f32.powi(-26))), AROUND, nowhere(Refusal::NoConfidence));
    // the square is not one of the part
    let strict = spoilt(|c| c.limit = 0.0);
    refused(&strict, Part { row: 124, rows: 20, ..AROUND }, nowhere(Refusal::NoneWithinLimit));
    refused(&strict, Part { row: 124, rows: 500, ..WHOLE }, nowhere(Refusal::NoneWithinLimit));
    // the physical list's square is none of the part, and it points to its best one there
    let elsewhere = Call { physical: Board::new().window(ELSEWHERE, 12), ..call() };
    assert_eq!(as_counted(&elsewhere, AROUND), Err(Refusal::ListsDisagree));
    assert_eq!(as_counted(&Call { transforms: vec![5], ..elsewhere }, ALONE).map(|found| found.square), Ok(AT));
    refused(&spoilt(|c| c.transforms = vec![5, 5]), AROUND, nowhere(Refusal::NotFarAhead));
}

#[test]
fn a_refusal_after_a_found_part_holds_nothing_of_it() {
    let mut call = call();
    let mut room = used();
    assert!(over(&call, AROUND, &mut room).is_ok());
    only_its_refusal(over_raw(&call, Part { cols: 0, ..AROUND }, &mut room), nowhere(Refusal::BadSetting));
    call.logical.bits[7] = 2;
    only_its_refusal(over_raw(&call, AROUND, &mut room), at(Refusal::BadBit, List::Logical, 7));
}

#[test]
fn numbers_that_the_wrapper_does_not_know() {
    let found = over_raw(&call(), AROUND, &mut used());
    assert_eq!([found.list, found.position], [NOTHING; 2]);
    assert!(part_decoded(found).is_ok());
    for number in [18, 255, u32::MAX] {
        assert_eq!(part_decoded(raw::PartAnswer { refusal: number, ..found }), Err(nowhere(Refusal::Unknown(number))));
    }
    let listed = raw::PartAnswer { refusal: 4, list: 9, position: 6, ..found };
    assert_eq!(part_decoded(listed), Err(at(Refusal::BadCoordinate, List::Unknown(9), 6)));
}

#[test]
fn the_answer_over_a_part_has_the_header_s_fields_in_its_order() {
    assert_eq!(size_of::<raw::PartAnswer>(), 80);
    let fours = [
        offset_of!(raw::PartAnswer, refusal),
        offset_of!(raw::PartAnswer, list),
        offset_of!(raw::PartAnswer, position),
        offset_of!(raw::PartAnswer, transform),
        offset_of!(raw::PartAnswer, row),
        offset_of!(raw::PartAnswer, col),
        offset_of!(raw::PartAnswer, hits),
        offset_of!(raw::PartAnswer, edges),
        offset_of!(raw::PartAnswer, error_rate),
        offset_of!(raw::PartAnswer, runner_up_transform),
        offset_of!(raw::PartAnswer, runner_up_row),
        offset_of!(raw::PartAnswer, runner_up_col),
        offset_of!(raw::PartAnswer, runner_up_hits),
        offset_of!(raw::PartAnswer, margin_hits),
    ];
    assert!(fours.iter().enumerate().all(|(i, at)| *at == 4 * i), "{fours:?}");
    let eights =
        [offset_of!(raw::PartAnswer, weight), offset_of!(raw::PartAnswer, total), offset_of!(raw::PartAnswer, runner_up_weight)];
    assert_eq!(eights, [56, 64, 72]);
}
