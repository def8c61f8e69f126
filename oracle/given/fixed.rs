//! Stands in for the module `fixed`, which is not in the given text. It stands where that module stands, among the decode module's
//! own, and so it can call the steps that the decoders keep to themselves: `BoardRect` hands them out. Nothing here decides
//! anything; each function calls a step of the given files and hands back what it said.

use super::tables::{transform_observations, ClassRange, ClassTables};
use super::{CodeGeometry, DecodeOutcome, HardRunnerUp, SoftLlConfig};
use crate::code_maps::PuzzleBoardObservedEdge;
use calib_targets_core::GridTransform;
use plain::Cells;

pub(crate) fn decode_fixed_board() {}
pub(crate) fn decode_fixed_board_soft() {}
pub(crate) fn decode_fixed_hard() {}
pub(crate) fn decode_fixed_soft() {}

pub(crate) struct BoardRect;

impl BoardRect {
    /// Selection on one list before the gate.
    pub(crate) fn selection(
        list: &[PuzzleBoardObservedEdge],
        transforms: &[GridTransform],
        limit: f32,
    ) -> Option<(DecodeOutcome, u32, Option<HardRunnerUp>)> {
        super::hard::decode_with_runner_up(list, transforms, limit)
    }

    /// The gate.
    pub(crate) fn gate(edges: usize, best: u32, next: u32) -> bool {
        super::passes_uniqueness_gate(edges, best, next)
    }

    /// An edge's two likelihoods.
    pub(crate) fn likelihoods(confidence: f32, cfg: &SoftLlConfig) -> (f32, f32) {
        super::ll_pair(confidence, cfg.kappa, cfg.per_bit_floor)
    }

    /// The class tables of a list under one transform, every class, over a pole's horizontal patterns and the map's vertical ones.
    pub(crate) fn tables(
        h: &[u8],
        list: &[PuzzleBoardObservedEdge],
        transform: &GridTransform,
        cfg: &SoftLlConfig,
    ) -> Cells {
        Self::built(&CodeGeometry::pole(h), list, transform, cfg)
    }

    /// The same over both of the map's own tables.
    pub(crate) fn flat_tables(list: &[PuzzleBoardObservedEdge], transform: &GridTransform, cfg: &SoftLlConfig) -> Cells {
        Self::built(&CodeGeometry::master(), list, transform, cfg)
    }

    fn built(
        geometry: &CodeGeometry<'_>,
        list: &[PuzzleBoardObservedEdge],
        transform: &GridTransform,
        cfg: &SoftLlConfig,
    ) -> Cells {
        let mut tables = ClassTables::new(geometry, true);
        let transformed = transform_observations(list, transform);
        tables.build(geometry, &transformed, &ClassRange::full(geometry), Some(cfg));
        Cells {
            counts: [tables.h_count, tables.v_count].concat(),
            weights: [tables.h_weight, tables.v_weight].concat(),
            sums: [tables.h_ll, tables.v_ll].concat(),
        }
    }
}
