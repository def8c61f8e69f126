//! within stored FILE: lists tested against an error limit at one placing (request C-18), with the answers that are counted (src/count.rs), in the form that `replay` reads; on the flat
//! board and on poles.
//!
//! within fresh COUNT SEED FILE: COUNT fresh ones.

use oracle::count::Board;
use oracle::file::{self, Call, File, Words};
use oracle::{cases, patterns, poles, Case, Edge, Random, Square};

/// How many calls are stored.
const STORED: usize = 300;

/// A limit: the rate of some number of misses, one of its two neighbours, or any; now and then 0 or 1.
fn limit(r: &mut Random, n: usize, misses: usize) -> f32 {
    let near = (misses + r.below(5) as usize).saturating_sub(2).min(n);
    let rate = if n == 0 { 1.0 } else { near as f32 / n as f32 };
    match r.below(8) {
        0 => 0.0,
        1 => 1.0,
        2 => r.unit(),
        3 if rate > 0.0 => f32::from_bits(rate.to_bits() - 1),
        4 if rate < 1.0 => f32::from_bits(rate.to_bits() + 1),
        _ => rate,
    }
}

/// One field of an edge, or several, out of range.
fn spoil(r: &mut Random, e: &mut Edge) {
    let which = 1 + r.below(31);
    let far = [1_000_001, -1_000_001, i32::MAX, i32::MIN];
    if which & 1 != 0 {
        e.row = far[r.below(4) as usize];
    }
    if which & 2 != 0 {
        e.col = far[r.below(4) as usize];
    }
    if which & 4 != 0 {
        e.orientation = 2 + r.below(254) as u8;
    }
    if which & 8 != 0 {
        e.bit = 2 + r.below(254) as u8;
    }
    if which & 16 != 0 {
        e.confidence = [f32::NAN, -0.5, 1.0000001, f32::INFINITY][r.below(4) as usize];
    }
}

/// The board and the list of a call: a view, a hostile list or few edges, at the placing where it was cut or at another.
fn seen(i: usize, r: &mut Random) -> (Board, Case, Square) {
    let squares = 1 + r.below(8) as i32;
    let flat = |case: &Case| {
        let (h, v) = patterns(case.map);
        Board { h, v }
    };
    match i % 7 {
        0 => {
            let case = cases::hostile(r);
            (flat(&case), case, cases::placing(r))
        }
        1..=3 => {
            let (case, at) = cases::placed_view(r, squares.max(4), true);
            (flat(&case), case, at)
        }
        _ => {
            let length = poles::length(r);
            let board = poles::board(r, length);
            let (case, at) = poles::view(r, &board, squares.max(4));
            (board, case, at)
        }
    }
}

/// Call i, with its board.
fn made(i: usize, r: &mut Random) -> (Board, Call, Words) {
    let (board, mut case, mut at) = seen(i, r);
    if r.once_in(4) {
        (at.row, at.col) = (r.below(board.rows() as u64) as i32, r.below(501) as i32);
    }
    let edges = &mut case.physical;
    if r.once_in(6) {
        edges.truncate(r.below(6) as usize);
    }
    let wrong = r.below(10);
    for e in edges.iter_mut() {
        e.bit = board.true_bit(e, &at) ^ u8::from(r.below(20) < wrong);
    }
    let misses = edges.iter().filter(|e| board.true_bit(e, &at) != e.bit).count();
    case.limit = limit(r, edges.len(), misses);
    if !edges.is_empty() && r.once_in(3) {
        for _ in 0..1 + r.below(3) {
            let place = r.below(edges.len() as u64) as usize;
            spoil(r, &mut edges[place]);
        }
    }
    let (mut call, mut answer) = poles::counted(file::WITHIN, &board, &case, &at);
    if r.once_in(12) {
        answer = refuse(r, &board, &mut call);
    }
    (board, call, answer)
}

/// One or two faults of the call itself, which come before every edge: of 2, 7 and 9 the first.
fn refuse(r: &mut Random, board: &Board, call: &mut Call) -> Words {
    let mut number = 0;
    for _ in 0..1 + r.below(2) {
        let one = [2, 7, 9, 9, 9][r.below(5) as usize];
        match (one, r.below(3)) {
            (2, k) => [&mut call.physical.cols, &mut call.physical.bits, &mut call.physical.confidences][k as usize].push(0),
            (7, k) => call.at[0] = [8, 9, 255][k as usize],
            (_, 0) => call.limit = [f32::NAN, -0.25, 1.0000001][r.below(3) as usize].to_bits(),
            (_, 1) => call.at[1] = board.rows() as u32 + r.below(3) as u32,
            _ => call.at[2] = 501 + r.below(3) as u32,
        }
        number = if number == 0 { one } else { number.min(one) };
    }
    file::refused(number)
}

fn main() {
    let words: Vec<String> = std::env::args().collect();
    let (count, seed, path) = match words.iter().map(String::as_str).collect::<Vec<_>>()[1..] {
        ["stored", path] => (STORED, 28, path.to_string()),
        ["fresh", count, seed, path] => (count.parse().expect("a count"), seed.parse().expect("a seed"), path.to_string()),
        _ => panic!("within stored FILE, or within fresh COUNT SEED FILE"),
    };
    let mut r = Random(seed);
    let mut file = File::default();
    let mut before = None;
    for (board, call, answer) in (0..count).map(|i| made(i, &mut r)) {
        let tables = Some((board.h, board.v));
        if tables != before {
            let (h, v) = tables.as_ref().expect("tables");
            file.tables(h, v);
            before = tables;
        }
        file.call(&call, &answer);
    }
    file.write(&path).expect("the file");
}
