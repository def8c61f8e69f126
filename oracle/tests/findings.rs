//! What the given Rust does with the smallest inputs on which it and Samburext differ, or on which its comments say something else than
//! its code. docs/DIFFERENCES.md lists each of them under the test's name. Release builds only: debug builds stop at some of them.

#[cfg(debug_assertions)]
compile_error!("the findings are those of a release build: cargo test --release");

use oracle::{Case, Edge, Likelihood, Soft, Square};
use std::panic::catch_unwind;

const EDGE: Edge = Edge { row: 0, col: 0, orientation: 0, bit: 0, confidence: 1.0 };
const SOFT: Soft = Soft { likelihood: Likelihood::Sigmoid, kappa: 12.0, floor: -6.0, margin: 0.0 };
const AT: Square = Square { transform: 0, row: 17, col: 400 };

fn case(edges: &[Edge]) -> Case {
    Case { map: 0, logical: edges.to_vec(), physical: edges.to_vec(), transforms: vec![0], limit: 1.0, soft: SOFT }
}

/// A clean window at a placing.
fn window(squares: i32, at: &Square) -> Vec<Edge> {
    let mut edges = Vec::new();
    for row in 0..squares {
        for col in 0..squares {
            for orientation in 0..2 {
                let e = Edge { row, col, orientation, ..EDGE };
                edges.push(Edge { bit: oracle::true_bit(0, &e, at), ..e });
            }
        }
    }
    edges
}

#[test]
fn a_confidence_that_is_no_number_panics() {
    assert!(catch_unwind(|| oracle::hard(&case(&[Edge { confidence: f32::NAN, ..EDGE }]))).is_err());
}

#[test]
fn a_confidence_out_of_range_is_taken() {
    for confidence in [-0.5, 1.5] {
        let mut edges = window(8, &AT);
        edges[0].confidence = confidence;
        assert!(oracle::hard(&case(&edges)).is_ok());
    }
}

#[test]
fn a_bit_of_two_is_0_to_the_tables_1_to_the_votes_and_neither_to_statistics() {
    let two = Edge { bit: 2, ..EDGE };
    assert_eq!(oracle::selection(&case(&[two])), oracle::selection(&case(&[EDGE])));
    assert_eq!(oracle::votes(&[two])[0].bit, 1);
    for row in 0..501 {
        assert_eq!(oracle::stats(&case(&[two]), &Square { row, ..AT }).hits, 0);
    }
}

#[test]
fn a_limit_that_is_no_number_lets_everything_pass() {
    let mut c = case(&window(8, &AT));
    c.logical[0].bit ^= 1;
    let free = oracle::hard(&c);
    assert!(free.is_ok());
    c.limit = f32::NAN;
    assert_eq!(oracle::hard(&c), free);
    c.limit = 2.0;
    assert_eq!(oracle::hard(&c), free);
    c.limit = -1.0;
    assert_eq!(oracle::hard(&c), Err(11));
}

#[test]
fn a_margin_that_is_no_number_lets_everything_pass() {
    let mut c = case(&window(8, &AT));
    c.soft.margin = 1e9;
    assert_eq!(oracle::soft(&c), Err(14));
    for margin in [f32::NAN, -1.0] {
        c.soft.margin = margin;
        assert!(oracle::soft(&c).is_ok());
    }
}

#[test]
fn a_likelihood_beyond_65536_is_taken() {
    let mut c = case(&window(8, &AT));
    c.soft = Soft { kappa: 1e6, floor: f32::NEG_INFINITY, ..SOFT };
    let (_, mismatch) = oracle::likelihoods(&c)[0];
    assert!(mismatch.is_finite() && mismatch < -65536.0);
    assert_eq!(oracle::soft(&c).map(|f| f.square), Ok(AT));
}

#[test]
fn no_transforms_and_empty_lists_are_not_told_from_a_miss() {
    let mut c = case(&window(8, &AT));
    c.transforms.clear();
    assert_eq!(oracle::hard(&c), Err(11));
    assert_eq!(oracle::hard(&case(&[])), Err(10));
}

#[test]
fn nine_transforms_and_9000_edges_are_taken() {
    let mut c = case(&window(8, &AT));
    c.transforms = vec![0, 1, 2, 3, 1, 2, 3, 1, 2];
    assert!(oracle::hard(&c).is_ok());
    let mut many = window(68, &AT);
    many.truncate(9000);
    assert!(oracle::hard(&case(&many)).is_ok());
}

#[test]
fn statistics_take_an_origin_off_the_board() {
    let c = case(&window(4, &AT));
    let off = Square { row: AT.row - 501, col: AT.col + 1002, ..AT };
    assert_eq!(oracle::stats(&c, &off), oracle::stats(&c, &AT));
}

/// Two infinite likelihoods of one group: each becomes the smallest i64, and their sum wraps to 0, which is no miss at all.
#[test]
fn infinite_likelihoods_wrap() {
    let mut c = case(&window(8, &AT));
    c.soft = Soft { kappa: f32::INFINITY, floor: f32::NEG_INFINITY, ..SOFT };
    assert_eq!(oracle::likelihoods(&c)[0], (0.0, f32::NEG_INFINITY));
    assert_ne!(oracle::soft(&c).map(|f| f.square), Ok(AT));
}

/// A tie inside the winner's transform: the place of the runner-up is another origin of the same hits, or the winner's own.
#[test]
fn a_tied_runner_up_may_be_the_winner_itself() {
    let one = oracle::selection(&case(&[EDGE])).expect("one edge is selected");
    assert_eq!(one.runner_hits, one.hits);
    assert_ne!(one.runner, one.square);
    // two windows in one place, the second read with half the confidence: both origins have the same hits, and only one the most weight
    let mut edges = window(6, &AT);
    edges.extend(window(6, &Square { row: 300, ..AT }).iter().map(|e| Edge { confidence: 0.5, ..*e }));
    let two = oracle::selection(&case(&edges)).expect("two windows are selected");
    assert_eq!(two.runner_hits, two.hits);
    assert_eq!(two.runner, two.square);
}

/// A single edge: "returns `None` only when neither side offers any competitor .. e.g. a single observation". It never does.
#[test]
fn a_single_edge_has_a_runner_up() {
    assert!(oracle::selection(&case(&[EDGE])).is_ok());
    assert_eq!(oracle::hard(&case(&[EDGE])), Err(13));
}

/// "Under hard-weighted scoring this is `f32::INFINITY`", "`None` under hard-weighted": it is the margin in hits, and the runner-up's hits.
#[test]
fn a_hard_answer_has_a_margin_and_a_runner_up() {
    let f = oracle::hard(&case(&window(8, &AT))).expect("a clean window is found");
    assert_eq!(f.margin, f.hits as f32 - f.next);
}

/// "The uniqueness proof stays on the physical dots": it is asked of the logical list. The physical list here would not pass.
#[test]
fn the_gate_is_asked_of_the_logical_list() {
    let mut c = case(&window(12, &AT));
    let mut r = oracle::Random(1);
    c.physical.iter_mut().for_each(|e| e.bit ^= u8::from(r.once_in(8)));
    let mut both = c.clone();
    both.logical = both.physical.clone();
    assert!(oracle::hard(&c).is_ok());
    assert_eq!(oracle::hard(&both), Err(13));
    assert!(oracle::soft(&c).is_ok());
    assert_eq!(oracle::soft(&both), Err(13));
}

/// "The original scan visits origins in order and keeps the FIRST candidate at the maximum": below 1,025 optimal pairs an earlier origin
/// with as many hits, whose two weights round to the same sum, is passed over, because its horizontal cell alone weighs less.
#[test]
fn below_1025_pairs_a_tie_by_rounding_is_not_seen() {
    let vertical: Vec<Edge> = window(6, &AT).into_iter().filter(|e| e.orientation == 1 && e.row < 3).collect();
    let lighter = f32::from_bits(0.5f32.to_bits() - 1);
    assert_eq!(18.0 + lighter, 18.0 + 0.5);
    let passed_over = |bit: u8| {
        let mut edges = vertical.clone();
        edges.push(Edge { bit, confidence: 0.5, ..EDGE });
        edges.push(Edge { bit: 1 - bit, confidence: lighter, ..EDGE });
        let c = case(&edges);
        let s = oracle::selection(&c).expect("it is selected");
        (0..s.square.row).any(|row| oracle::stats(&c, &Square { row, ..s.square }).hits == s.hits)
    };
    assert_eq!(vertical.len(), 18);
    assert!(passed_over(0) || passed_over(1));
}
