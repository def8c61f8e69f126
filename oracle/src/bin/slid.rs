//! slid fresh COUNT SEED FILE: COUNT fresh views, each slid by rows and columns (request C-21), with the Rust's answers to the slid ones, in the form that `replay` reads. The Rust's own answers
//! to a view and to the slid view must slide: one list, hard selection and then the gate; the program ends with a message at the first that do not.

use oracle::file::{self, Call, Words};
use oracle::{cases, Case, Random, Selected, Square, MATRICES};

/// How far coordinates may be from 0.
const FAR: i32 = 1_000_000;

/// What C-21 says is the same of two views, or slides with them: the refusal, or square, hits and runner-up hits.
type Outcome = Result<(Square, u32, u32), u32>;

/// The gate on a selection: more hits ahead than misses.
fn gated(selection: Result<Selected, u32>) -> Outcome {
    let s = selection?;
    let ahead = s.hits.saturating_sub(s.runner_hits);
    if ahead > s.edges - s.hits {
        Ok((s.square, s.hits, s.runner_hits))
    } else {
        Err(13)
    }
}

/// The outcome of a view that is slid `down` rows and `right` columns: the origin moves by the transformed shift, negated, modulo 501.
fn slid_outcome(outcome: Outcome, down: i32, right: i32) -> Outcome {
    let (at, hits, runner_hits) = outcome?;
    let [[a, b], [c, d]] = MATRICES[at.transform as usize];
    let (col, row) = (a * right + b * down, c * right + d * down);
    let origin = Square { transform: at.transform, row: (at.row - row).rem_euclid(501), col: (at.col - col).rem_euclid(501) };
    Ok((origin, hits, runner_hits))
}

/// Every edge of both lists, moved; none where one would leave the range.
fn slide(case: &Case, down: i32, right: i32) -> Option<Case> {
    let mut slid = case.clone();
    for e in slid.logical.iter_mut().chain(slid.physical.iter_mut()) {
        e.row += down;
        e.col += right;
        if e.row.abs() > FAR || e.col.abs() > FAR {
            return None;
        }
    }
    Some(slid)
}

/// A shift: mostly small or past a seam, now and then far.
fn shift(r: &mut Random) -> i32 {
    match r.below(4) {
        0 => r.below(9) as i32 - 4,
        1 => [250, 251, 500, 501, 502, -250, -251, -500, -501, -502, 167, -167][r.below(12) as usize],
        2 => r.below(2003) as i32 - 1001,
        _ => r.below(1_800_001) as i32 - 900_000,
    }
}

/// A view, slid, and the two outcomes held together.
fn slid_view(r: &mut Random) -> Option<(usize, Call, Words)> {
    let squares = cases::squares(r);
    let (case, at) = cases::placed_view(r, squares, true);
    if case.logical.is_empty() || case.physical.is_empty() {
        return None;
    }
    let (down, right) = (shift(r), shift(r));
    let slid = slide(&case, down, right)?;
    let outcome = gated(oracle::selection(&case));
    let other = gated(oracle::selection(&slid));
    assert_eq!(
        other,
        slid_outcome(outcome, down, right),
        "the Rust's answers do not slide by {down}, {right}: {outcome:?}\n{case:?}"
    );
    let call = Call::of(file::SELECTION, &slid, &oracle::likelihoods(&slid), &at);
    Some((slid.map, call, oracle::answer(file::SELECTION, &slid, &at)))
}

fn main() {
    let words: Vec<String> = std::env::args().collect();
    assert!(words.len() == 5 && words[1] == "fresh", "slid fresh COUNT SEED FILE");
    let count: usize = words[2].parse().expect("a count");
    let mut r = Random(words[3].parse().expect("a seed"));
    let mut made: Vec<(usize, Call, Words)> = Vec::new();
    while made.len() < count {
        made.extend(slid_view(&mut r));
    }
    oracle::write(made, &words[4]).expect("the file");
}
