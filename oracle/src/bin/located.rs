//! located stored FILE: lists located without tables (request C-16), in the form that `replay` reads. On the flat board placing, hits, runner-up's hits and refusals are the Rust's, by its
//! selection and then the gate, and the runner-up's place is counted (src/count.rs); on poles all is counted.
//!
//! located fresh COUNT SEED FILE: COUNT fresh ones.
//!
//! located timed KIND SQUARES COUNT FILE: COUNT times the same call with a window of that many squares over the four rotations, to be timed: `hard` with the window as both lists, `selection`,
//! `located`, or `read`, which is refused for its limit after it was read and checked.

use oracle::cases;
use oracle::file::{self, Call, File, Words};
use oracle::{answer, patterns, poles, true_bit, Case, Edge, Random, Square};

/// How many calls are stored.
const STORED: usize = 300;

/// The tables of a call, the call and its answer.
type Made = ((Vec<u8>, Vec<u8>), Call, Words);

/// No placing is asked for.
const NOWHERE: Square = Square { transform: 0, row: 0, col: 0 };

/// A call on the flat board; none where its list is empty.
fn flat(case: &Case) -> Option<Made> {
    let call = || Call::of(file::LOCATED, case, &[], &NOWHERE);
    (!case.logical.is_empty()).then(|| (patterns(case.map), call(), answer(file::LOCATED, case, &NOWHERE)))
}

/// A call on a pole; none where its list is empty.
fn pole(r: &mut Random, squares: i32) -> Option<Made> {
    let length = poles::length(r);
    let board = if r.once_in(3) { poles::board(r, length) } else { poles::good_board(r, length) };
    let case = poles::view(r, &board, squares).0;
    let counted = || poles::counted(file::LOCATED, &board, &case, &NOWHERE);
    (!case.logical.is_empty()).then(|| {
        let (call, answer) = counted();
        ((board.h.clone(), board.v.clone()), call, answer)
    })
}

/// Call i: every kind of view comes in turn.
fn made(i: usize, r: &mut Random) -> Option<Made> {
    let squares = 4 + r.below(5) as i32;
    match i % 9 {
        0 => flat(&cases::hostile(r)),
        1 => flat(&cases::refused(r)),
        2 => flat(&cases::near_tie(r)),
        3..=5 => flat(&cases::view(r, squares, true)),
        _ => pole(r, squares),
    }
}

/// The window of the benchmark: one bit in twenty wrong, a window of 7 clean.
fn window(squares: i32) -> Case {
    let at = Square { transform: 2, row: 123, col: 456 };
    let mut r = Random(1);
    let mut case = cases::near_tie(&mut r);
    let wrong = |r: &mut Random| u8::from(squares > 7 && r.once_in(20));
    let place = |i: i32| Edge { row: i / 2 / squares, col: i / 2 % squares, orientation: (i % 2) as u8, bit: 0, confidence: 1.0 };
    let edges = (0..2 * squares * squares).map(place);
    case.logical = edges.map(|e| Edge { bit: true_bit(0, &e, &at) ^ wrong(&mut r), ..e }).collect();
    (case.map, case.physical, case.transforms, case.limit) = (0, case.logical.clone(), vec![0, 1, 2, 3], 0.3);
    case
}

/// So many calls of a window.
fn timed(kind: &str, squares: i32, count: usize) -> File {
    let mut case = window(squares);
    let kind = match kind {
        "hard" => file::HARD,
        "selection" => file::SELECTION,
        _ => {
            case.limit = if kind == "read" { 2.0 } else { case.limit };
            file::LOCATED
        }
    };
    let (h, v) = patterns(0);
    let answer = if case.limit > 1.0 { file::refused(9) } else { answer(kind, &case, &NOWHERE) };
    let mut file = File::default();
    file.tables(&h, &v);
    (0..count).for_each(|_| file.call(&Call::of(kind, &case, &[], &NOWHERE), &answer));
    file
}

fn main() {
    let words: Vec<String> = std::env::args().collect();
    if let ["timed", kind, squares, count, path] = words.iter().map(String::as_str).collect::<Vec<_>>()[1..] {
        let file = timed(kind, squares.parse().expect("squares"), count.parse().expect("a count"));
        return file.write(path).expect("the file");
    }
    let (count, seed, path) = match words.iter().map(String::as_str).collect::<Vec<_>>()[1..] {
        ["stored", path] => (STORED, 26, path.to_string()),
        ["fresh", count, seed, path] => (count.parse().expect("a count"), seed.parse().expect("a seed"), path.to_string()),
        _ => panic!("located stored FILE, located fresh COUNT SEED FILE, or located timed KIND SQUARES COUNT FILE"),
    };
    let mut r = Random(seed);
    let mut file = File::default();
    let mut before = None;
    for (tables, call, answer) in (0..).filter_map(|i| made(i, &mut r)).take(count) {
        if before.as_ref() != Some(&tables) {
            file.tables(&tables.0, &tables.1);
            before = Some(tables);
        }
        file.call(&call, &answer);
    }
    file.write(&path).expect("the file");
}
