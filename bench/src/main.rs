//! The same cases through the static library and through the given Rust, from one driver. Exact decode, which the given Rust has not, is beside its hard decode.
//!
//! `bench` prints a table of times: the least of several runs, and the ratio ours / Rust. `bench list` prints the cases' names;
//! `bench run NAME ours|rust N` makes N calls and prints nothing, for a tool that counts instructions.
//!
//! Lists, tables and likelihoods are made before the clock starts, for both. The room lent to our library is never cleared by this
//! driver: each call gets it as the call before left it. The Rust allocates its tables anew in every call, so they come zeroed.

#[cfg(debug_assertions)]
compile_error!("the comparison is of release builds: cargo run --release");

use oracle::{Case, Edge, Found, Likelihood, Random, Ready, Soft, Square};
use samburext::{
    decode_exact, decode_hard, decode_soft, Decoded, EdgeList, ExactDecoded, ExactRoom, Likelihoods, Patterns, Refused, Room,
    SoftDecoded,
};
use std::hint::black_box;

const RUNS: usize = 25;
const AT: Square = Square { transform: 2, row: 123, col: 456 };

/// Which of our decoders: the Rust's side of `Exact` is its hard decode.
#[derive(Clone, Copy, PartialEq)]
enum Mode {
    Hard,
    Soft,
    Exact,
}

/// What our decoders found: the Rust's ten fields, or an exact answer.
#[derive(Debug)]
enum Ours {
    Ten(Found),
    Exact(ExactDecoded),
}

/// One case for both sides.
struct Bench {
    name: String,
    mode: Mode,
    case: Case,
    ready: Ready,
    logical: EdgeList,
    physical: EdgeList,
    likelihoods: Likelihoods,
    horizontal: Vec<u8>,
    vertical: Vec<u8>,
    room: Room,
    exact_room: ExactRoom,
}

/// The edges of a window as a camera at AT sees them, one bit in twenty wrong; a window of 7 squares is clean.
fn window(squares: i32, seed: u64) -> Vec<Edge> {
    let mut random = Random(seed);
    let mut edges = Vec::new();
    for row in 0..squares {
        for col in 0..squares {
            for orientation in 0..2 {
                let confidence = 0.5 + random.unit() / 2.0;
                let edge = Edge { row, col, orientation, bit: 0, confidence };
                let wrong = u8::from(squares > 7 && random.once_in(20));
                edges.push(Edge { bit: oracle::true_bit(0, &edge, &AT) ^ wrong, ..edge });
            }
        }
    }
    edges
}

fn columns(edges: &[Edge]) -> EdgeList {
    let mut list = EdgeList::new();
    for e in edges {
        list.push(samburext::Edge { row: e.row, col: e.col, orientation: e.orientation, bit: e.bit, confidence: e.confidence });
    }
    list
}

fn square(s: samburext::Square) -> Square {
    Square { transform: s.transform, row: s.row as i32, col: s.col as i32 }
}

/// The ten fields that the Rust has, of a hard answer: crates/ten_fields/specs/TenFields.antt, `ten_of_hard`.
fn ten_of_hard(d: Decoded) -> Found {
    Found {
        square: square(d.square),
        hits: d.hits,
        edges: d.edges,
        weighted: d.weighted_score,
        rate: d.error_rate,
        mean: d.mean_confidence,
        best: d.best_score,
        next: d.runner_up_hits as f32,
        margin: d.margin_hits as f32,
        runner: square(d.runner_up),
    }
}

/// The same of a soft answer: `ten_of_soft`. The Rust has no place for the second.
fn ten_of_soft(d: SoftDecoded) -> Found {
    Found {
        square: square(d.square),
        hits: d.hits,
        edges: d.edges,
        weighted: d.weighted_score,
        rate: d.error_rate,
        mean: d.mean_confidence,
        best: d.best_score,
        next: d.runner_up_hits as f32,
        margin: d.margin,
        runner: square(d.runner_up),
    }
}

/// Whether both sides found the same: every field of the ten, or of an exact answer what counts edges, which hard decode has too.
fn same(ours: &Ours, rust: &Found) -> bool {
    match ours {
        Ours::Ten(found) => found == rust,
        Ours::Exact(d) => {
            let counted = (d.hits, d.edges, d.runner_up_hits as f32, d.margin_hits as f32);
            square(d.square) == rust.square
                && counted == (rust.hits, rust.edges, rust.next, rust.margin)
                && d.error_rate == rust.rate
        }
    }
}

impl Bench {
    fn new(what: &str, logical: Vec<Edge>, physical: Vec<Edge>, transforms: u8, mode: Mode, limit: f32) -> Bench {
        let knobs = Soft { likelihood: Likelihood::Sigmoid, kappa: 12.0, floor: -6.0, margin: 0.02 };
        let case = Case { map: 0, logical, physical, transforms: (0..transforms).collect(), limit, soft: knobs };
        let (matches, mismatches) = oracle::likelihoods(&case).into_iter().unzip();
        let (horizontal, vertical) = oracle::patterns(0);
        Bench {
            name: format!("{}-{}-{}", ["hard", "soft", "exact"][mode as usize], what, transforms),
            mode,
            ready: Ready::new(&case),
            logical: columns(&case.logical),
            physical: columns(&case.physical),
            case,
            likelihoods: Likelihoods { matches, mismatches },
            horizontal,
            vertical,
            room: Room::new(),
            exact_room: ExactRoom::new(),
        }
    }

    fn ours(&mut self) -> Result<Ours, Refused> {
        let patterns = Patterns { horizontal: &self.horizontal, vertical: &self.vertical };
        let (limit, transforms) = (self.case.limit, &self.case.transforms);
        let (logical, physical) = (&self.logical, &self.physical);
        match self.mode {
            Mode::Hard => {
                decode_hard(logical, physical, transforms, patterns, limit, &mut self.room).map(|d| Ours::Ten(ten_of_hard(d)))
            }
            Mode::Soft => {
                let margin = self.case.soft.margin;
                decode_soft(logical, physical, &self.likelihoods, transforms, patterns, limit, margin, &mut self.room)
                    .map(|d| Ours::Ten(ten_of_soft(d)))
            }
            Mode::Exact => decode_exact(logical, physical, transforms, patterns, limit, &mut self.exact_room).map(Ours::Exact),
        }
    }

    fn rust(&self) -> Option<Found> {
        if self.mode == Mode::Soft {
            self.ready.soft()
        } else {
            self.ready.hard()
        }
    }
}

/// Every case: windows of 7 to 64 squares with 4 and 8 transforms, hard, soft and exact, and one edge alone, which the Rust and our hard decode scan directly.
fn all() -> Vec<Bench> {
    let mut list = Vec::new();
    for mode in [Mode::Hard, Mode::Soft, Mode::Exact] {
        for squares in [7, 12, 24, 48, 64] {
            for transforms in [4, 8] {
                let edges = window(squares, squares as u64);
                list.push(Bench::new(&squares.to_string(), edges.clone(), edges, transforms, mode, 0.3));
            }
        }
    }
    for mode in [Mode::Hard, Mode::Exact] {
        for transforms in [4, 8] {
            let edges = window(1, 1)[..1].to_vec();
            list.push(Bench::new("one", edges.clone(), edges, transforms, mode, 1.0));
        }
    }
    list
}

/// C's `struct timespec` on 64-bit Linux.
#[repr(C)]
struct Timespec {
    seconds: i64,
    nanoseconds: i64,
}

extern "C" {
    fn clock_gettime(clock: i32, time: *mut Timespec) -> i32;
}

/// The processor time that this thread has used, in microseconds: on a busy machine the time that it waited does not count.
fn used() -> f64 {
    const THREAD: i32 = 3;
    let mut time = Timespec { seconds: 0, nanoseconds: 0 };
    let failed = unsafe { clock_gettime(THREAD, &mut time) };
    assert_eq!(failed, 0, "the clock of this thread");
    time.seconds as f64 * 1e6 + time.nanoseconds as f64 / 1e3
}

/// The time of one call in one run of so many, in microseconds.
fn run_of<A, F: FnMut() -> A>(calls: u32, mut call: F) -> f64 {
    let began = used();
    for _ in 0..calls {
        black_box(call());
    }
    (used() - began) / f64::from(calls)
}

/// How many calls last some milliseconds.
fn calls_of<A, F: FnMut() -> A>(call: F) -> u32 {
    (2000.0 / run_of(1, call)).clamp(1.0, 1000.0) as u32
}

/// The least times of one call, ours and the Rust's. The runs of both alternate, so that a busy machine is as hard on one as on the other.
fn least(bench: &mut Bench) -> (f64, f64) {
    let (our_calls, rust_calls) = (calls_of(|| bench.ours()), calls_of(|| bench.rust()));
    let (mut ours, mut rust) = (f64::INFINITY, f64::INFINITY);
    for _ in 0..RUNS {
        ours = ours.min(run_of(our_calls, || bench.ours()));
        rust = rust.min(run_of(rust_calls, || bench.rust()));
    }
    (ours, rust)
}

fn table() {
    println!("least of {RUNS} runs, processor time; both built for release; our room is not cleared between calls, the Rust's tables are allocated zeroed");
    println!("| case | answer | ours, µs | Rust, µs | ours / Rust |");
    println!("|---|---|---|---|---|");
    for mut bench in all() {
        let answer = match (bench.ours(), bench.rust()) {
            (Ok(ours), Some(rust)) if same(&ours, &rust) => "found".to_string(),
            // 1 to 9, 16 and 17 are refused before any work is done, which the Rust never does
            (Err(refused), None) if (10..16).contains(&refused.number()) => format!("refused, {}", refused.number()),
            (ours, rust) => panic!("{}: the answers differ: {ours:?} and {rust:?}", bench.name),
        };
        let (own, given) = least(&mut bench);
        println!("| {} | {} | {:.0} | {:.0} | {:.2} |", bench.name, answer, own, given, own / given);
    }
}

fn run(name: &str, side: &str, calls: u32) {
    let mut bench = all().into_iter().find(|b| b.name == name).expect("a case that `bench list` prints");
    for _ in 0..calls {
        match side {
            "ours" => drop(black_box(bench.ours())),
            "rust" => drop(black_box(bench.rust())),
            _ => panic!("ours or rust"),
        }
    }
}

fn main() {
    let words: Vec<String> = std::env::args().skip(1).collect();
    match words.iter().map(String::as_str).collect::<Vec<_>>()[..] {
        [] => table(),
        ["list"] => all().iter().for_each(|b| println!("{}", b.name)),
        ["run", name, side, calls] => run(name, side, calls.parse().expect("a number of calls")),
        _ => eprintln!("bench | bench list | bench run NAME ours|rust N"),
    }
}
