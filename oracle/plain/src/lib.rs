//! What goes into the Rust and what comes out of it, in plain numbers: no type of the given files shows here, so that every
//! pair of maps (each of them a compilation of its own) speaks the same language.

/// One edge of a list, as document 01 names its fields.
#[derive(Clone, Copy, Debug, PartialEq)]
pub struct Edge {
    pub row: i32,
    pub col: i32,
    /// 0 horizontal, 1 vertical.
    pub orientation: u8,
    pub bit: u8,
    pub confidence: f32,
}

/// How the two log likelihoods of a physical edge are made from its confidence, in place of the Rust's `log_sigmoid`.
#[derive(Clone, Copy, Debug, PartialEq)]
pub enum Likelihood {
    /// ln(1 / (1 + exp(-x))), as the Rust's documentation describes it.
    Sigmoid,
    /// A number from -scale to scale that looks random, from the bits of x and a seed.
    Scattered { seed: u32, scale: f32 },
    /// What `list_likelihoods` was told of that edge.
    Listed,
}

/// The knobs of the soft scorer.
#[derive(Clone, Copy, Debug, PartialEq)]
pub struct Soft {
    pub likelihood: Likelihood,
    pub kappa: f32,
    pub floor: f32,
    pub margin: f32,
}

/// One call: both lists, the transforms in search order, the limit, and which pair of maps.
#[derive(Clone, Debug, PartialEq)]
pub struct Case {
    pub map: usize,
    pub logical: Vec<Edge>,
    pub physical: Vec<Edge>,
    pub transforms: Vec<u8>,
    pub limit: f32,
    pub soft: Soft,
}

/// A transform by document 01's number, with an origin.
#[derive(Clone, Copy, Debug, PartialEq)]
pub struct Square {
    pub transform: u32,
    pub row: i32,
    pub col: i32,
}

/// What a found answer of the Rust holds: document 01's ten fields. `next` is the runner-up's score, which is its hits; the margin is in hits after hard
/// decode, and a log likelihood per edge after soft decode.
#[derive(Clone, Copy, Debug, PartialEq)]
pub struct Found {
    pub square: Square,
    pub hits: u32,
    pub edges: u32,
    pub weighted: f32,
    pub rate: f32,
    pub mean: f32,
    pub best: f32,
    pub next: f32,
    pub margin: f32,
    pub runner: Square,
}

/// A selection on one list before the gate.
#[derive(Clone, Copy, Debug, PartialEq)]
pub struct Selected {
    pub square: Square,
    pub hits: u32,
    pub edges: u32,
    pub weighted: f32,
    pub rate: f32,
    pub mean: f32,
    pub runner_hits: u32,
    pub runner: Square,
}

/// How a list fits one placing.
#[derive(Clone, Copy, Debug, PartialEq)]
pub struct Stats {
    pub edges: u32,
    pub hits: u32,
    pub rate: f32,
    pub mean: f32,
}

/// The cells of a list's class tables under one transform, horizontal then vertical, each side row by row: how many edges hit, their confidences added, and
/// the log likelihoods of hits and misses as whole numbers of 2^-24.
#[derive(Clone, Debug, PartialEq)]
pub struct Cells {
    pub counts: Vec<u32>,
    pub weights: Vec<f32>,
    pub sums: Vec<i64>,
}

/// Refusal 13 or 15, where the Rust's own steps do not tell which.
pub const EITHER: u32 = 1315;

/// Document 01's matrices, by number.
pub const MATRICES: [[[i32; 2]; 2]; 8] = [
    [[1, 0], [0, 1]],
    [[0, -1], [1, 0]],
    [[-1, 0], [0, -1]],
    [[0, 1], [-1, 0]],
    [[-1, 0], [0, 1]],
    [[0, 1], [1, 0]],
    [[1, 0], [0, -1]],
    [[0, -1], [-1, 0]],
];

/// Random numbers (splitmix64), the same on every machine.
#[derive(Clone, Copy, Debug)]
pub struct Random(pub u64);

impl Random {
    pub fn next(&mut self) -> u64 {
        self.0 = self.0.wrapping_add(0x9e37_79b9_7f4a_7c15);
        let mut z = self.0;
        z = (z ^ (z >> 30)).wrapping_mul(0xbf58_476d_1ce4_e5b9);
        z = (z ^ (z >> 27)).wrapping_mul(0x94d0_49bb_1331_11eb);
        z ^ (z >> 31)
    }

    /// A number below n.
    pub fn below(&mut self, n: u64) -> u64 {
        self.next() % n
    }

    /// A number from 0 to 1, a multiple of 2^-24.
    pub fn unit(&mut self) -> f32 {
        self.below((1 << 24) + 1) as f32 / (1 << 24) as f32
    }

    /// True once in n times.
    pub fn once_in(&mut self, n: u64) -> bool {
        self.below(n) == 0
    }
}

pub mod maps;

/// What f answers, with no message of a panic inside it. Messages of other panics come through.
pub fn quietly<A>(f: impl FnOnce() -> A) -> A {
    static ONE_AT_A_TIME: std::sync::Mutex<()> = std::sync::Mutex::new(());
    let held = ONE_AT_A_TIME.lock();
    let aloud = std::panic::take_hook();
    std::panic::set_hook(Box::new(|_| ()));
    let answer = f();
    std::panic::set_hook(aloud);
    drop(held);
    answer
}
