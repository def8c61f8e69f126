//! The five functions as another crate calls them, with the types that it sees.

use samburext::{
    decode_exact, decode_hard, decode_soft, locate, match_stats, pole_length, Decoded, Edge, EdgeList, EdgePlace, ExactDecoded,
    ExactRoom, Likelihoods, List, Located, Patterns, Refusal, Refused, Room, SoftDecoded, Square, UNITS,
};

/// Two tables in which no two windows are alike, from a small generator, the horizontal one of a length.
fn tables(length: usize) -> (Vec<u8>, Vec<u8>) {
    let mut state = 2024u32;
    let mut next = |_| {
        state = state.wrapping_mul(1664525).wrapping_add(1013904223);
        (state >> 24) as u8 % 8
    };
    ((0..length).map(&mut next).collect(), (0..167).map(&mut next).collect())
}

/// What an upright camera at (row, col) sees of 10 by 10 squares: the lookup of transform 0 is one row up for a horizontal edge and one column back for
/// a vertical one.
fn seen(h: &[u8], v: &[u8], row: usize, col: usize) -> EdgeList {
    let mut list = EdgeList::new();
    for r in 0..10 {
        for c in 0..10 {
            let across = h[(row + r + h.len() - 1) % h.len()] >> ((col + c) % 3) & 1;
            let down = v[(col + c + 166) % 167] >> ((row + r) % 3) & 1;
            for (orientation, bit) in [(0, across), (1, down)] {
                list.push(Edge { row: r as i32, col: c as i32, orientation, bit, confidence: 0.5 });
            }
        }
    }
    list
}

#[test]
fn found_and_refused() {
    let (h, v) = tables(167);
    let patterns = Patterns { horizontal: &h, vertical: &v };
    let list = seen(&h, &v, 311, 58);
    let likelihoods = Likelihoods { matches: vec![-0.25; 200], mismatches: vec![-1.5; 200] };
    let mut room = Room::new();
    let square = Square { transform: 0, row: 311, col: 58 };

    let hard: Decoded = decode_hard(&list, &list, &[0, 1, 2, 3], patterns, 0.25, &mut room).expect("hard decode finds it");
    assert_eq!((hard.square, hard.hits, hard.edges), (square, 200, 200));
    let next = match_stats(&list, hard.runner_up, patterns).expect("the runner-up is on the board");
    assert_eq!((hard.runner_up_hits, hard.margin_hits), (next.hits, 200 - next.hits));
    let exact: ExactDecoded =
        decode_exact(&list, &list, &[0, 1, 2, 3], patterns, 0.25, &mut ExactRoom::new()).expect("exact decode finds it");
    assert_eq!((exact.square, exact.hits, exact.runner_up_hits), (square, 200, hard.runner_up_hits));
    // each confidence is one half
    assert_eq!((exact.weight, exact.total), (100 * UNITS, 100 * UNITS));
    assert_eq!(exact.runner_up_weight, u64::from(exact.runner_up_hits) * UNITS / 2);
    let found: Located = locate(&list, &[0, 1, 2, 3], patterns, 0.25).expect("locate finds it");
    assert_eq!((found.square, found.hits, found.runner_up_hits), (square, 200, hard.runner_up_hits));
    let soft: SoftDecoded =
        decode_soft(&list, &list, &likelihoods, &[0, 1, 2, 3], patterns, 0.25, 0.02, &mut room).expect("soft decode finds it");
    assert_eq!((soft.square, soft.best_score), (square, -50.0));
    assert_eq!((soft.runner_up, soft.runner_up_hits), (hard.runner_up, hard.runner_up_hits));
    // each hit counts -0.25 and each miss -1.5, so the second by likelihood has as many hits as the runner-up
    assert_ne!(soft.second, square);
    assert_eq!(match_stats(&list, soft.second, patterns).expect("the second is on the board").hits, next.hits);
    assert_eq!(soft.second_score, -50.0 - 1.25 * (200 - next.hits) as f32);
    assert_eq!(soft.margin, (soft.best_score - soft.second_score) / 200.0);
    let fit = match_stats(&list, square, patterns).expect("the square is on the board");
    assert_eq!((fit.edges, fit.hits), (200, 200));

    let refused: Refused = decode_hard(&list, &list, &[], patterns, 0.25, &mut room).unwrap_err();
    assert_eq!((refused.reason, refused.number(), refused.place), (Refusal::BadTransform, 7, None));
    let words: Box<dyn std::error::Error> =
        Box::new(decode_soft(&list, &list, &likelihoods, &[0], patterns, 0.25, -1.0, &mut room).unwrap_err());
    assert_eq!(words.to_string(), "refused (9): the error limit, the soft margin or the given origin is out of range");
    let off = match_stats(&list, Square { row: 501, ..square }, patterns);
    assert_eq!(off, Err(Refused { reason: Refusal::BadSetting, place: None }));

    let mut spoilt = list.clone();
    spoilt.orientations[12] = 7;
    let refused = decode_hard(&list, &spoilt, &[0], patterns, 0.25, &mut room).unwrap_err();
    assert_eq!(
        refused,
        Refused { reason: Refusal::BadOrientation, place: Some(EdgePlace { list: List::Physical, position: 12 }) }
    );
    assert_eq!(refused.to_string(), "refused (16): an orientation is not 0 or 1: physical list, edge 13 (counting from 1)");
    if let Some(place) = refused.place {
        assert_eq!(spoilt.orientations[place.position], 7);
    }
}

/// A pole, with no number of its room in sight.
#[test]
fn a_pole() {
    let (h, v) = tables(100);
    assert!(pole_length(h.len()) && !pole_length(99));
    let patterns = Patterns { horizontal: &h, vertical: &v };
    let mut room = Room::new();
    let square = Square { transform: 0, row: 295, col: 58 }; // the window runs over the seam, where row 299 meets row 0
    let list = seen(&h, &v, 295, 58);
    let likelihoods = Likelihoods { matches: vec![-0.25; 200], mismatches: vec![-1.5; 200] };
    let hard = decode_hard(&list, &list, &[0, 1, 2, 3], patterns, 0.25, &mut room).expect("hard decode finds it");
    let soft =
        decode_soft(&list, &list, &likelihoods, &[0, 1, 2, 3], patterns, 0.25, 0.02, &mut room).expect("soft decode finds it");
    assert_eq!((hard.square, soft.square), (square, square));
    assert_eq!(match_stats(&list, square, patterns).map(|fit| fit.hits), Ok(200));
    let refused = decode_hard(&list, &list, &[0], Patterns { horizontal: &h[1..], ..patterns }, 0.25, &mut room).unwrap_err();
    assert_eq!(refused.reason, Refusal::BadTable);
}
