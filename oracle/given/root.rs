// The root of the crate that the given files think they stand in.

mod board {
    //! Stands in for the module `board`: the master's size, as the given files' documentation states it.
    pub const MASTER_ROWS: u32 = 501;
    pub const MASTER_COLS: u32 = 501;
}

mod code_maps;

/// A link of the given documentation.
pub struct PuzzleBoardSymmetryMode;

mod detector {
    pub(crate) mod consensus;
    pub(crate) mod decode;
}

use calib_targets_core::{GridTransform, LatticeKind};
use code_maps::{EdgeOrientation, PuzzleBoardObservedEdge};
use detector::consensus::EdgeConsensus;
use detector::decode::{BoardRect, DecodeOutcome, HardRunnerUp, SoftLlConfig};
use plain::{Case, Cells, Edge, Found, Selected, Soft, Square, Stats, EITHER, MATRICES};

fn edge(e: &Edge) -> PuzzleBoardObservedEdge {
    PuzzleBoardObservedEdge {
        row: e.row,
        col: e.col,
        orientation: match e.orientation {
            0 => EdgeOrientation::Horizontal,
            _ => EdgeOrientation::Vertical,
        },
        bit: e.bit,
        confidence: e.confidence,
    }
}

fn plain_edge(e: &PuzzleBoardObservedEdge) -> Edge {
    Edge {
        row: e.row,
        col: e.col,
        orientation: match e.orientation {
            EdgeOrientation::Horizontal => 0,
            EdgeOrientation::Vertical => 1,
        },
        bit: e.bit,
        confidence: e.confidence,
    }
}

fn list(edges: &[Edge]) -> Vec<PuzzleBoardObservedEdge> {
    edges.iter().map(edge).collect()
}

fn transform(t: u8) -> GridTransform {
    GridTransform::new(LatticeKind::Square, MATRICES[t as usize], [0, 0])
}

/// Document 01's number of a transform: its matrix tells.
fn number(t: GridTransform) -> u32 {
    MATRICES.iter().position(|&m| m == t.matrix()).expect("one of the eight") as u32
}

fn runner(r: &HardRunnerUp) -> Square {
    Square { transform: number(r.transform), row: r.master_row, col: r.master_col }
}

fn winner(d: &DecodeOutcome) -> Square {
    assert_eq!(d.alignment.translation(), [d.master_origin_col, d.master_origin_row]);
    Square { transform: number(d.alignment), row: d.master_origin_row, col: d.master_origin_col }
}

fn found(d: &DecodeOutcome) -> Found {
    Found {
        square: winner(d),
        hits: d.edges_matched as u32,
        edges: d.edges_observed as u32,
        weighted: d.weighted_score,
        rate: d.bit_error_rate,
        mean: d.mean_confidence,
        best: d.score_best,
        next: d.score_runner_up.expect("a found answer has a runner-up"),
        margin: d.score_margin,
        runner: Square {
            transform: number(d.runner_up_transform.expect("a runner-up has a transform")),
            row: d.runner_up_origin_row.expect("a runner-up has a row"),
            col: d.runner_up_origin_col.expect("a runner-up has a column"),
        },
    }
}

fn config(s: &Soft) -> SoftLlConfig {
    SoftLlConfig { kappa: s.kappa, per_bit_floor: s.floor, alignment_min_margin: s.margin }
}

/// A case in the given files' own types, ready to be decoded again and again.
pub struct Ready {
    logical: Vec<PuzzleBoardObservedEdge>,
    physical: Vec<PuzzleBoardObservedEdge>,
    transforms: Vec<GridTransform>,
    limit: f32,
    soft: Soft,
}

impl Ready {
    pub fn new(case: &Case) -> Self {
        Self {
            logical: list(&case.logical),
            physical: list(&case.physical),
            transforms: case.transforms.iter().map(|&t| transform(t)).collect(),
            limit: case.limit,
            soft: case.soft,
        }
    }

    /// The given hard decode.
    pub fn hard(&self) -> Option<Found> {
        detector::decode::decode(&self.logical, &self.physical, &self.transforms, self.limit).map(|d| found(&d))
    }

    /// The given soft decode.
    pub fn soft(&self) -> Option<Found> {
        self.soft_with(&self.logical, self.limit)
    }

    fn soft_with(&self, logical: &[PuzzleBoardObservedEdge], limit: f32) -> Option<Found> {
        calib_targets_core::set_likelihood(self.soft.likelihood);
        let cfg = config(&self.soft);
        detector::decode::decode_soft(&self.physical, logical, &self.transforms, &cfg, limit).map(|d| found(&d))
    }

    /// The two likelihoods of each physical edge, as soft decode makes them.
    pub fn likelihoods(&self) -> Vec<(f32, f32)> {
        calib_targets_core::set_likelihood(self.soft.likelihood);
        let cfg = config(&self.soft);
        self.physical.iter().map(|e| BoardRect::likelihoods(e.confidence, &cfg)).collect()
    }

    /// The given hard decode, and where it refuses, the number of the step that refused.
    pub fn hard_answer(&self) -> Result<Found, u32> {
        match (self.hard(), self.hard_steps()) {
            (Some(f), Ok(())) => Ok(f),
            (None, Err(number)) => Err(number),
            (decoded, steps) => panic!("the steps say {steps:?} and the decoder {decoded:?}"),
        }
    }

    fn hard_steps(&self) -> Result<(), u32> {
        let (w, next) = selected(&self.logical, &self.transforms, self.limit)?;
        let (p, _) = selected(&self.physical, &self.transforms, 1.0)?;
        if winner(&w) != winner(&p) {
            return Err(12);
        }
        if !BoardRect::gate(self.logical.len(), w.edges_matched as u32, next.matched) {
            return Err(13);
        }
        Ok(())
    }

    /// The given soft decode, and where it refuses, the number of the step that refused.
    pub fn soft_answer(&self) -> Result<Found, u32> {
        self.soft().ok_or_else(|| self.soft_number())
    }

    fn soft_number(&self) -> u32 {
        if total(&self.physical) <= 0.0 {
            return 10;
        }
        if !self.passes_margin() {
            return 14;
        }
        let (w, next) = match selected(&self.logical, &self.transforms, self.limit) {
            Ok(s) => s,
            Err(number) => return number,
        };
        if BoardRect::gate(self.logical.len(), w.edges_matched as u32, next.matched) {
            return 15;
        }
        self.soft_winner_is(&winner(&w))
    }

    /// Whether soft decode goes past its margin. A logical list of one edge without a number for its confidence makes the step after
    /// the margin panic, and it is reached exactly if the margin was passed.
    fn passes_margin(&self) -> bool {
        let poison = [PuzzleBoardObservedEdge {
            row: 0,
            col: 0,
            orientation: EdgeOrientation::Horizontal,
            bit: 0,
            confidence: f32::NAN,
        }];
        plain::quietly(|| std::panic::catch_unwind(|| self.soft_with(&poison, 1.0)).is_err())
    }

    /// 13 if the soft winner is the placing w, which the gate does not let pass, and 15 if it is another. A clean window at w in place
    /// of the logical list is passed exactly if the soft winner is w. Where no window tells w apart (degenerate maps), either. A
    /// transform that is listed again can't win, since first place goes to strictly greater scores, and is left out here: its twin
    /// would keep every window from passing.
    fn soft_winner_is(&self, w: &Square) -> u32 {
        let mut once: Vec<GridTransform> = Vec::new();
        for &t in &self.transforms {
            if !once.contains(&t) {
                once.push(t);
            }
        }
        let t = transform(w.transform as u8).with_translation([w.col, w.row]);
        for squares in [12, 40] {
            let window = clean_window(&t, squares);
            let told = match selected(&window, &once, 1.0) {
                Ok((s, next)) => {
                    winner(&s) == *w && BoardRect::gate(window.len(), s.edges_matched as u32, next.matched)
                }
                Err(_) => false,
            };
            if told {
                calib_targets_core::set_likelihood(self.soft.likelihood);
                let cfg = SoftLlConfig { alignment_min_margin: f32::NEG_INFINITY, ..config(&self.soft) };
                let same = detector::decode::decode_soft(&self.physical, &window, &once, &cfg, 1.0).is_some();
                return if same { 13 } else { 15 };
            }
        }
        EITHER
    }

    /// Selection on the logical list before the gate.
    pub fn selection(&self) -> Result<Selected, u32> {
        let (w, next) = selected(&self.logical, &self.transforms, self.limit)?;
        Ok(Selected {
            square: winner(&w),
            hits: w.edges_matched as u32,
            edges: w.edges_observed as u32,
            weighted: w.weighted_score,
            rate: w.bit_error_rate,
            mean: w.mean_confidence,
            runner_hits: next.matched,
            runner: runner(&next),
        })
    }

    /// The cells of the physical list's class tables under a transform, over a pole's horizontal table.
    pub fn cells(&self, h: &[u8], t: u8) -> Cells {
        calib_targets_core::set_likelihood(self.soft.likelihood);
        BoardRect::tables(h, &self.physical, &transform(t), &config(&self.soft))
    }

    /// The same over both of the map's own tables.
    pub fn flat_cells(&self, t: u8) -> Cells {
        calib_targets_core::set_likelihood(self.soft.likelihood);
        BoardRect::flat_tables(&self.physical, &transform(t), &config(&self.soft))
    }

    /// Match statistics of the physical list.
    pub fn stats(&self, at: &Square) -> Stats {
        let t = transform(at.transform as u8).with_translation([at.col, at.row]);
        let s = detector::decode::match_stats(&self.physical, &t);
        Stats { edges: s.observed as u32, hits: s.matched as u32, rate: s.bit_error_rate, mean: s.mean_confidence }
    }
}

/// The sum that the given decoders take of a list's confidences before they look at it.
fn total(edges: &[PuzzleBoardObservedEdge]) -> f32 {
    edges.iter().map(|e| e.confidence).sum()
}

/// Selection on one list before the gate; where the given step says nothing, 10 if the list has no confidence, else 11.
fn selected(
    edges: &[PuzzleBoardObservedEdge],
    transforms: &[GridTransform],
    limit: f32,
) -> Result<(DecodeOutcome, HardRunnerUp), u32> {
    match BoardRect::selection(edges, transforms, limit) {
        Some((w, hits, next)) => {
            assert_eq!(hits as usize, w.edges_matched);
            Ok((w, next.expect("a winner has a runner-up")))
        }
        None if total(edges) <= 0.0 => Err(10),
        None => Err(11),
    }
}

/// All edges of a window of that many squares, with the bits that make them hits at the placing.
fn clean_window(t: &GridTransform, squares: i32) -> Vec<PuzzleBoardObservedEdge> {
    let mut out = Vec::new();
    for row in 0..squares {
        for col in 0..squares {
            for orientation in 0..2 {
                let e = Edge { row, col, orientation, bit: 0, confidence: 1.0 };
                out.push(edge(&Edge { bit: bit_at(&e, t), ..e }));
            }
        }
    }
    out
}

/// The bit that makes an edge a hit, whatever its own is, by the given match statistics of that edge alone with bit 0.
fn bit_at(e: &Edge, t: &GridTransform) -> u8 {
    u8::from(detector::decode::match_stats(&[edge(&Edge { bit: 0, ..*e })], t).matched == 0)
}

/// The bit that makes an edge a hit at a placing.
pub fn true_bit(e: &Edge, at: &Square) -> u8 {
    bit_at(e, &transform(at.transform as u8).with_translation([at.col, at.row]))
}

/// The likelihoods that `Likelihood::Listed` gives from now on, edge by edge of the physical list.
pub fn list_likelihoods(pairs: &[(f32, f32)]) {
    calib_targets_core::list_likelihoods(pairs);
}

/// The voted classes of a list, as the given consensus hands them to the decoders.
pub fn votes(edges: &[Edge]) -> Vec<Edge> {
    EdgeConsensus::build(&list(edges)).class_observations().iter().map(plain_edge).collect()
}

/// The two maps as pattern tables, horizontal then vertical, read bit by bit through the given files.
pub fn patterns() -> (Vec<u8>, Vec<u8>) {
    let pack = |bit: &dyn Fn(i32, i32) -> u8, i: i32| (0..3).fold(0, |p, j| p | bit(i, j) << j);
    (
        (0..167).map(|i| pack(&|i, j| code_maps::horizontal_edge_bit(i, j), i)).collect(),
        (0..167).map(|i| pack(&|i, j| code_maps::vertical_edge_bit(j, i), i)).collect(),
    )
}

/// Whether every cyclic 3 by 3 window of each map is distinct, by the given test.
pub fn windows_differ() -> bool {
    code_maps::verify_cyclic_window_unique(code_maps::map_a(), 3, 3).is_ok()
        && code_maps::verify_cyclic_window_unique(code_maps::map_b(), 3, 3).is_ok()
}
