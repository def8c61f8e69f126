//! What the benchmarks share: windows of the board, and the time of a call.

#[cfg(debug_assertions)]
compile_error!("the comparison is of release builds: cargo run --release");

use oracle::{Edge, Random, Square};
use samburext::EdgeList;
use std::hint::black_box;

/// The least of so many runs is told.
pub const RUNS: usize = 25;
/// Where a window is cut.
pub const AT: Square = Square { transform: 2, row: 123, col: 456 };

/// The edges of a window as a camera at AT sees them, one bit in twenty wrong; a window of 7 squares is clean.
pub fn window(squares: i32, seed: u64) -> Vec<Edge> {
    let mut random = Random(seed);
    let mut edges = Vec::new();
    for row in 0..squares {
        for col in 0..squares {
            for orientation in 0..2 {
                let confidence = 0.5 + random.unit() / 2.0;
                let edge = Edge { row, col, orientation, bit: 0, confidence };
                let wrong = u8::from(squares > 7 && random.once_in(20));
                edges.push(Edge { bit: oracle::true_bit(0, &edge, &AT) ^ wrong, ..edge });
            }
        }
    }
    edges
}

/// The library's columns of a list.
pub fn columns(edges: &[Edge]) -> EdgeList {
    let mut list = EdgeList::new();
    for e in edges {
        list.push(samburext::Edge { row: e.row, col: e.col, orientation: e.orientation, bit: e.bit, confidence: e.confidence });
    }
    list
}

/// C's `struct timespec` on 64-bit Linux.
#[repr(C)]
struct Timespec {
    seconds: i64,
    nanoseconds: i64,
}

extern "C" {
    fn clock_gettime(clock: i32, time: *mut Timespec) -> i32;
}

/// The processor time that this thread has used, in microseconds: on a busy machine the time that it waited does not count.
fn used() -> f64 {
    const THREAD: i32 = 3;
    let mut time = Timespec { seconds: 0, nanoseconds: 0 };
    let failed = unsafe { clock_gettime(THREAD, &mut time) };
    assert_eq!(failed, 0, "the clock of this thread");
    time.seconds as f64 * 1e6 + time.nanoseconds as f64 / 1e3
}

/// The time of one call in one run of so many, in microseconds.
pub fn run_of<A, F: FnMut() -> A>(calls: u32, mut call: F) -> f64 {
    let began = used();
    for _ in 0..calls {
        black_box(call());
    }
    (used() - began) / f64::from(calls)
}

/// How many calls last some milliseconds.
pub fn calls_of<A, F: FnMut() -> A>(call: F) -> u32 {
    (2000.0 / run_of(1, call)).clamp(1.0, 1000.0) as u32
}
