//! Stands in for calib_targets_core: what the decode module takes from it. Coordinates and transforms are the given lattice file's;
//! `log_sigmoid` is ours, and a likelihood can be scattered instead, so that soft decode meets every kind of likelihood.

#![allow(unexpected_cfgs)]

include!(concat!(env!("OUT_DIR"), "/lattice.rs"));

pub use lattice::{Coord, GridTransform, LatticeKind};
use plain::{Likelihood, Random};
use std::cell::{Cell, RefCell};

/// An alignment is a transform with a translation: the decode module passes one as the other.
pub type GridAlignment = GridTransform;

thread_local! {
    static LIKELIHOOD: Cell<Likelihood> = const { Cell::new(Likelihood::Sigmoid) };
    static LISTED: RefCell<Vec<f32>> = RefCell::default();
    static TURN: Cell<usize> = const { Cell::new(0) };
}

/// The likelihoods of a physical list's edges, match then mismatch, for `Likelihood::Listed`. The given soft decode asks for the two of each edge in the
/// list's order, and again from the first edge on for each transform; so they are given in turn, and edges of one confidence may differ in them.
pub fn list_likelihoods(pairs: &[(f32, f32)]) {
    LISTED.with(|listed| *listed.borrow_mut() = pairs.iter().flat_map(|&(a, b)| [a, b]).collect());
}

/// What `log_sigmoid` gives on this thread from now on; the turn is the first edge's.
pub fn set_likelihood(l: Likelihood) {
    LIKELIHOOD.with(|cell| cell.set(l));
    TURN.with(|turn| turn.set(0));
}

/// The logarithm of 1 / (1 + exp(-x)), or what `set_likelihood` put in its place.
pub fn log_sigmoid(x: f32) -> f32 {
    match LIKELIHOOD.with(Cell::get) {
        Likelihood::Sigmoid if x >= 0.0 => -(-x).exp().ln_1p(),
        Likelihood::Sigmoid => x - x.exp().ln_1p(),
        Likelihood::Scattered { seed, scale } => {
            let mut r = Random((seed as u64) << 32 | x.to_bits() as u64);
            (r.unit() * 2.0 - 1.0) * scale
        }
        Likelihood::Listed => LISTED.with(|listed| {
            let turn = TURN.with(|turn| turn.replace(turn.get() + 1));
            let listed = listed.borrow();
            listed[turn % listed.len()]
        }),
    }
}
