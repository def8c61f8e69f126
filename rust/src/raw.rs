//! The functions as the static library has them; include/samburext.h says what each parameter is.
//!
//! A caller of these sees to it that each pointer is not null, is aligned and reaches as far as its length says, and that what
//! is written overlaps nothing else. The functions of this crate do so.

/// The answer of hard decode. On a refusal every field but `refusal`, `list` and `position` is 0xFFFFFFFF or NaN; these two are
/// 0xFFFFFFFF where the refusal is about no edge, and in a found answer.
#[repr(C)]
#[derive(Clone, Copy, Debug)]
pub struct Answer {
    pub refusal: u32,
    pub list: u32,
    pub position: u32,
    pub transform: u32,
    pub row: u32,
    pub col: u32,
    pub hits: u32,
    pub edges: u32,
    pub weighted_score: f32,
    pub error_rate: f32,
    pub mean_confidence: f32,
    pub best_score: f32,
    pub runner_up_transform: u32,
    pub runner_up_row: u32,
    pub runner_up_col: u32,
    pub runner_up_hits: u32,
    pub margin_hits: u32,
}

/// The answer of exact decode, with the same in its fields on a refusal, and 0xFFFFFFFFFFFFFFFF in its weights.
#[repr(C)]
#[derive(Clone, Copy, Debug)]
pub struct ExactAnswer {
    pub refusal: u32,
    pub list: u32,
    pub position: u32,
    pub transform: u32,
    pub row: u32,
    pub col: u32,
    pub hits: u32,
    pub edges: u32,
    pub error_rate: f32,
    pub runner_up_transform: u32,
    pub runner_up_row: u32,
    pub runner_up_col: u32,
    pub runner_up_hits: u32,
    pub margin_hits: u32,
    pub weight: u64,
    pub total: u64,
    pub runner_up_weight: u64,
}

/// The answer of soft decode, with the same in its fields on a refusal.
#[repr(C)]
#[derive(Clone, Copy, Debug)]
pub struct SoftAnswer {
    pub refusal: u32,
    pub list: u32,
    pub position: u32,
    pub transform: u32,
    pub row: u32,
    pub col: u32,
    pub hits: u32,
    pub edges: u32,
    pub weighted_score: f32,
    pub error_rate: f32,
    pub mean_confidence: f32,
    pub best_score: f32,
    pub second_transform: u32,
    pub second_row: u32,
    pub second_col: u32,
    pub second_score: f32,
    pub margin: f32,
    pub runner_up_transform: u32,
    pub runner_up_row: u32,
    pub runner_up_col: u32,
    pub runner_up_hits: u32,
}

/// The answer of locate, with the same in its fields on a refusal.
#[repr(C)]
#[derive(Clone, Copy, Debug)]
pub struct Located {
    pub refusal: u32,
    pub list: u32,
    pub position: u32,
    pub transform: u32,
    pub row: u32,
    pub col: u32,
    pub hits: u32,
    pub runner_up_transform: u32,
    pub runner_up_row: u32,
    pub runner_up_col: u32,
    pub runner_up_hits: u32,
}

/// The answer of match statistics, with the same in its fields on a refusal.
#[repr(C)]
#[derive(Clone, Copy, Debug)]
pub struct Stats {
    pub refusal: u32,
    pub list: u32,
    pub position: u32,
    pub edges: u32,
    pub hits: u32,
    pub error_rate: f32,
    pub mean_confidence: f32,
}

extern "C" {
    /// Hard decode: the logical list's five columns, the physical list's, transforms, tables, error limit, and two rooms.
    pub fn samburext_decode_hard_3(
        logical_rows: *const i32,
        logical_rows_length: usize,
        logical_columns: *const i32,
        logical_columns_length: usize,
        logical_orientations: *const u8,
        logical_orientations_length: usize,
        logical_bits: *const u8,
        logical_bits_length: usize,
        logical_confidences: *const f32,
        logical_confidences_length: usize,
        physical_rows: *const i32,
        physical_rows_length: usize,
        physical_columns: *const i32,
        physical_columns_length: usize,
        physical_orientations: *const u8,
        physical_orientations_length: usize,
        physical_bits: *const u8,
        physical_bits_length: usize,
        physical_confidences: *const f32,
        physical_confidences_length: usize,
        transforms: *const u8,
        transforms_length: usize,
        horizontal: *const u8,
        horizontal_length: usize,
        vertical: *const u8,
        vertical_length: usize,
        error_limit: f32,
        counts: *mut u32,
        counts_length: usize,
        weights: *mut f32,
        weights_length: usize,
    ) -> Answer;

    /// Exact decode: the same, with a room of u64 in place of that of f32.
    pub fn samburext_decode_exact_3(
        logical_rows: *const i32,
        logical_rows_length: usize,
        logical_columns: *const i32,
        logical_columns_length: usize,
        logical_orientations: *const u8,
        logical_orientations_length: usize,
        logical_bits: *const u8,
        logical_bits_length: usize,
        logical_confidences: *const f32,
        logical_confidences_length: usize,
        physical_rows: *const i32,
        physical_rows_length: usize,
        physical_columns: *const i32,
        physical_columns_length: usize,
        physical_orientations: *const u8,
        physical_orientations_length: usize,
        physical_bits: *const u8,
        physical_bits_length: usize,
        physical_confidences: *const f32,
        physical_confidences_length: usize,
        transforms: *const u8,
        transforms_length: usize,
        horizontal: *const u8,
        horizontal_length: usize,
        vertical: *const u8,
        vertical_length: usize,
        error_limit: f32,
        counts: *mut u32,
        counts_length: usize,
        units: *mut u64,
        units_length: usize,
    ) -> ExactAnswer;

    /// Soft decode: the logical list's five columns, the physical list's five with its likelihoods, transforms, tables, error
    /// limit, soft margin, and three rooms.
    pub fn samburext_decode_soft_3(
        logical_rows: *const i32,
        logical_rows_length: usize,
        logical_columns: *const i32,
        logical_columns_length: usize,
        logical_orientations: *const u8,
        logical_orientations_length: usize,
        logical_bits: *const u8,
        logical_bits_length: usize,
        logical_confidences: *const f32,
        logical_confidences_length: usize,
        physical_rows: *const i32,
        physical_rows_length: usize,
        physical_columns: *const i32,
        physical_columns_length: usize,
        physical_orientations: *const u8,
        physical_orientations_length: usize,
        physical_bits: *const u8,
        physical_bits_length: usize,
        physical_confidences: *const f32,
        physical_confidences_length: usize,
        match_likelihoods: *const f32,
        match_likelihoods_length: usize,
        mismatch_likelihoods: *const f32,
        mismatch_likelihoods_length: usize,
        transforms: *const u8,
        transforms_length: usize,
        horizontal: *const u8,
        horizontal_length: usize,
        vertical: *const u8,
        vertical_length: usize,
        error_limit: f32,
        soft_margin: f32,
        counts: *mut u32,
        counts_length: usize,
        weights: *mut f32,
        weights_length: usize,
        sums: *mut i64,
        sums_length: usize,
    ) -> SoftAnswer;

    /// Locate: the list's five columns, transforms, tables and error limit.
    pub fn samburext_locate_3(
        rows: *const i32,
        rows_length: usize,
        columns: *const i32,
        columns_length: usize,
        orientations: *const u8,
        orientations_length: usize,
        bits: *const u8,
        bits_length: usize,
        confidences: *const f32,
        confidences_length: usize,
        transforms: *const u8,
        transforms_length: usize,
        horizontal: *const u8,
        horizontal_length: usize,
        vertical: *const u8,
        vertical_length: usize,
        error_limit: f32,
    ) -> Located;

    /// Match statistics: the list's five columns, a transform, an origin, and the tables.
    pub fn samburext_match_stats_2(
        rows: *const i32,
        rows_length: usize,
        columns: *const i32,
        columns_length: usize,
        orientations: *const u8,
        orientations_length: usize,
        bits: *const u8,
        bits_length: usize,
        confidences: *const f32,
        confidences_length: usize,
        transform: u32,
        row: u32,
        column: u32,
        horizontal: *const u8,
        horizontal_length: usize,
        vertical: *const u8,
        vertical_length: usize,
    ) -> Stats;
}
