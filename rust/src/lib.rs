//! Samburext for Rust programs: which square of a PuzzleBoard a camera faces, or a refusal; the flat board has 501 by 501 squares, one
//! wrapped round a pole 3L rows of 501. A safe wrapper over the proved static library: a found square is an `Ok`, a refusal an `Err`,
//! so no program can go on with a square that was not found.

mod raw;
mod refusal;
#[cfg(test)]
mod tests;

pub use refusal::{EdgePlace, List, Refusal, Refused};

/// The length of the flat board's two pattern tables, and of every vertical one.
pub const FLAT_LENGTH: usize = 167;

/// The units of weight in a confidence of 1, in exact decode.
pub const UNITS: u64 = 1 << 24;

/// The least lengths of the slices of room on the flat board.
pub const ROOM_COUNTS: usize = tables_for(FLAT_LENGTH);
pub const ROOM_WEIGHTS: usize = tables_for(FLAT_LENGTH);
pub const ROOM_UNITS: usize = tables_for(FLAT_LENGTH);
pub const ROOM_SUMS: usize = sums_for(FLAT_LENGTH);

/// Whether a horizontal pattern table may have this length L: 4 to 500, and no multiple of 3. The flat board's has 167.
pub const fn pole_length(length: usize) -> bool {
    length >= 4 && length <= 500 && length % 3 != 0
}

// The pole length by which room is asked for: for a bad length, which is refused, the smallest.
const fn asked_length(length: usize) -> usize {
    if pole_length(length) {
        length
    } else {
        4
    }
}

/// The least length of the room's counts, weights and units where the horizontal table has length L: 9L + 1,503. Where L is no pole length, that of
/// the smallest pole: the call is then refused all the same.
pub const fn tables_for(length: usize) -> usize {
    9 * asked_length(length) + 1503
}

/// The same of the room's sums: 15L + 2,505.
pub const fn sums_for(length: usize) -> usize {
    15 * asked_length(length) + 2505
}

/// One observed edge.
#[derive(Clone, Copy, Debug, PartialEq)]
pub struct Edge {
    /// From -1,000,000 to 1,000,000, as the column.
    pub row: i32,
    pub col: i32,
    /// 0 horizontal, 1 vertical.
    pub orientation: u8,
    /// 0 or 1.
    pub bit: u8,
    /// From 0 to 1.
    pub confidence: f32,
}

/// An edge list as five columns. They are public, so that columns read from elsewhere can be moved in; where their lengths
/// differ the list is refused.
#[derive(Clone, Debug, Default, PartialEq)]
pub struct EdgeList {
    pub rows: Vec<i32>,
    pub cols: Vec<i32>,
    pub orientations: Vec<u8>,
    pub bits: Vec<u8>,
    pub confidences: Vec<f32>,
}

impl EdgeList {
    /// A list without edges.
    pub fn new() -> EdgeList {
        EdgeList::default()
    }

    /// One edge more, at the end.
    pub fn push(&mut self, edge: Edge) {
        self.rows.push(edge.row);
        self.cols.push(edge.col);
        self.orientations.push(edge.orientation);
        self.bits.push(edge.bit);
        self.confidences.push(edge.confidence);
    }

    /// The number of edges: the length of the column of rows.
    pub fn len(&self) -> usize {
        self.rows.len()
    }

    pub fn is_empty(&self) -> bool {
        self.rows.is_empty()
    }
}

/// The log likelihoods of each physical edge: that its bit is the board's, and that it is not.
#[derive(Clone, Debug, Default, PartialEq)]
pub struct Likelihoods {
    pub matches: Vec<f32>,
    pub mismatches: Vec<f32>,
}

/// The two pattern tables of a board, each byte 0 to 7. A target wrapped round a pole has a horizontal table of its own length.
#[derive(Clone, Copy, Debug)]
pub struct Patterns<'a> {
    /// L bytes, of a pole length L: 4 to 500, and no multiple of 3; 167 on the flat board. An origin's rows go from 0 to 3L - 1, and
    /// after the last comes row 0 again (the seam).
    pub horizontal: &'a [u8],
    /// 167 bytes on every board; an origin's columns go from 0 to 500.
    pub vertical: &'a [u8],
}

/// The room that hard and soft decode work in, to be kept and lent again, for any board. What it holds has no influence on an answer. A call makes it
/// longer where it is too short for the call's horizontal table, and never shorter.
#[derive(Clone, Debug, PartialEq)]
pub struct Room {
    pub counts: Vec<u32>,
    pub weights: Vec<f32>,
    pub sums: Vec<i64>,
}

impl Room {
    /// Room for hard and soft decode on the flat board.
    pub fn new() -> Room {
        Room { counts: vec![0; ROOM_COUNTS], weights: vec![0.0; ROOM_WEIGHTS], sums: vec![0; ROOM_SUMS] }
    }

    // The room that the tables of a call need, where the horizontal one has this length.
    fn grow_tables(&mut self, length: usize) {
        let least = tables_for(length);
        self.counts.resize(least.max(self.counts.len()), 0);
        self.weights.resize(least.max(self.weights.len()), 0.0);
    }

    // The room that the sums of a call need.
    fn grow_sums(&mut self, length: usize) {
        self.sums.resize(sums_for(length).max(self.sums.len()), 0);
    }
}

impl Default for Room {
    fn default() -> Room {
        Room::new()
    }
}

/// The room that exact decode works in, to be kept and lent again as a `Room` is.
#[derive(Clone, Debug, PartialEq)]
pub struct ExactRoom {
    pub counts: Vec<u32>,
    pub units: Vec<u64>,
}

impl ExactRoom {
    /// Room for exact decode on the flat board.
    pub fn new() -> ExactRoom {
        ExactRoom { counts: vec![0; ROOM_COUNTS], units: vec![0; ROOM_UNITS] }
    }

    // The room that a call needs, where the horizontal table has this length.
    fn grow(&mut self, length: usize) {
        let least = tables_for(length);
        self.counts.resize(least.max(self.counts.len()), 0);
        self.units.resize(least.max(self.units.len()), 0);
    }
}

impl Default for ExactRoom {
    fn default() -> ExactRoom {
        ExactRoom::new()
    }
}

/// A transform by number, with an origin on the board: a row from 0 to 3L - 1 where the horizontal pattern table has length L (500 on the flat
/// board), and a column from 0 to 500.
#[derive(Clone, Copy, Debug, PartialEq, Eq)]
pub struct Square {
    pub transform: u32,
    pub row: u32,
    pub col: u32,
}

/// What a found hard answer holds, all of it of the logical list. Whatever counts edges is a whole number.
#[derive(Clone, Copy, Debug, PartialEq)]
pub struct Decoded {
    pub square: Square,
    pub hits: u32,
    pub edges: u32,
    /// The confidence of the hits over all confidence.
    pub weighted_score: f32,
    pub error_rate: f32,
    pub mean_confidence: f32,
    /// The weighted score again.
    pub best_score: f32,
    /// The best competitor by hits.
    pub runner_up: Square,
    pub runner_up_hits: u32,
    /// Hits ahead of the runner-up.
    pub margin_hits: u32,
}

/// What a found exact answer holds, all of it of the logical list. Weights are whole numbers of units, of which a confidence of 1 has `UNITS`: each
/// confidence counts as the nearest whole number of them, a half as the one above, and these are added without rounding.
#[derive(Clone, Copy, Debug, PartialEq)]
pub struct ExactDecoded {
    pub square: Square,
    pub hits: u32,
    pub edges: u32,
    /// The units of the hits.
    pub weight: u64,
    /// The units of all edges.
    pub total: u64,
    pub error_rate: f32,
    /// The best competitor by hits.
    pub runner_up: Square,
    pub runner_up_hits: u32,
    /// The units of the runner-up's hits. They may be more than `weight`, since hits come first.
    pub runner_up_weight: u64,
    /// Hits ahead of the runner-up.
    pub margin_hits: u32,
}

/// What a found soft answer holds. Each score and the margin is a log likelihood, each `_hits` a count of edges; to subtract one from the
/// other gives nothing. The second by likelihood and the runner-up by hits may be two squares.
#[derive(Clone, Copy, Debug, PartialEq)]
pub struct SoftDecoded {
    pub square: Square,
    /// Of the physical list, as `edges`, `error_rate` and `mean_confidence`.
    pub hits: u32,
    pub edges: u32,
    /// Log likelihood per edge: `best_score / edges`.
    pub weighted_score: f32,
    pub error_rate: f32,
    pub mean_confidence: f32,
    /// Log likelihood: the total of the physical edges at the square.
    pub best_score: f32,
    /// The best other placing by log likelihood on the physical list.
    pub second: Square,
    /// Log likelihood: the total of the physical edges at the second.
    pub second_score: f32,
    /// Log likelihood per edge: `(best_score - second_score) / edges`.
    pub margin: f32,
    /// The best competitor by hits on the logical list.
    pub runner_up: Square,
    /// The runner-up's hits on the logical list.
    pub runner_up_hits: u32,
}

/// What locate finds on one list, by hits alone.
#[derive(Clone, Copy, Debug, PartialEq)]
pub struct Located {
    pub square: Square,
    pub hits: u32,
    /// Of the other placings with most hits the first by place in the transforms, row and column.
    pub runner_up: Square,
    pub runner_up_hits: u32,
}

/// How a list fits one known square.
#[derive(Clone, Copy, Debug, PartialEq)]
pub struct MatchStats {
    pub edges: u32,
    pub hits: u32,
    pub error_rate: f32,
    pub mean_confidence: f32,
}

// What the struct of hard decode says.
fn decoded(answer: raw::Answer) -> Result<Decoded, Refused> {
    match Refused::from_numbers(answer.refusal, answer.list, answer.position) {
        Some(refused) => Err(refused),
        None => Ok(Decoded {
            square: Square { transform: answer.transform, row: answer.row, col: answer.col },
            hits: answer.hits,
            edges: answer.edges,
            weighted_score: answer.weighted_score,
            error_rate: answer.error_rate,
            mean_confidence: answer.mean_confidence,
            best_score: answer.best_score,
            runner_up: Square { transform: answer.runner_up_transform, row: answer.runner_up_row, col: answer.runner_up_col },
            runner_up_hits: answer.runner_up_hits,
            margin_hits: answer.margin_hits,
        }),
    }
}

// What the struct of exact decode says.
fn exact_decoded(answer: raw::ExactAnswer) -> Result<ExactDecoded, Refused> {
    match Refused::from_numbers(answer.refusal, answer.list, answer.position) {
        Some(refused) => Err(refused),
        None => Ok(ExactDecoded {
            square: Square { transform: answer.transform, row: answer.row, col: answer.col },
            hits: answer.hits,
            edges: answer.edges,
            weight: answer.weight,
            total: answer.total,
            error_rate: answer.error_rate,
            runner_up: Square { transform: answer.runner_up_transform, row: answer.runner_up_row, col: answer.runner_up_col },
            runner_up_hits: answer.runner_up_hits,
            runner_up_weight: answer.runner_up_weight,
            margin_hits: answer.margin_hits,
        }),
    }
}

// What the struct of locate says.
fn located(answer: raw::Located) -> Result<Located, Refused> {
    match Refused::from_numbers(answer.refusal, answer.list, answer.position) {
        Some(refused) => Err(refused),
        None => Ok(Located {
            square: Square { transform: answer.transform, row: answer.row, col: answer.col },
            hits: answer.hits,
            runner_up: Square { transform: answer.runner_up_transform, row: answer.runner_up_row, col: answer.runner_up_col },
            runner_up_hits: answer.runner_up_hits,
        }),
    }
}

// What the struct of soft decode says.
fn soft_decoded(answer: raw::SoftAnswer) -> Result<SoftDecoded, Refused> {
    match Refused::from_numbers(answer.refusal, answer.list, answer.position) {
        Some(refused) => Err(refused),
        None => Ok(SoftDecoded {
            square: Square { transform: answer.transform, row: answer.row, col: answer.col },
            hits: answer.hits,
            edges: answer.edges,
            weighted_score: answer.weighted_score,
            error_rate: answer.error_rate,
            mean_confidence: answer.mean_confidence,
            best_score: answer.best_score,
            second: Square { transform: answer.second_transform, row: answer.second_row, col: answer.second_col },
            second_score: answer.second_score,
            margin: answer.margin,
            runner_up: Square { transform: answer.runner_up_transform, row: answer.runner_up_row, col: answer.runner_up_col },
            runner_up_hits: answer.runner_up_hits,
        }),
    }
}

// What the struct of match statistics says.
fn counted(stats: raw::Stats) -> Result<MatchStats, Refused> {
    match Refused::from_numbers(stats.refusal, stats.list, stats.position) {
        Some(refused) => Err(refused),
        None => Ok(MatchStats {
            edges: stats.edges,
            hits: stats.hits,
            error_rate: stats.error_rate,
            mean_confidence: stats.mean_confidence,
        }),
    }
}

/// Hard decode: the square by the hits of the logical list, within the error limit; the physical list must agree. The room is made as long as
/// the board needs it.
pub fn decode_hard(
    logical: &EdgeList,
    physical: &EdgeList,
    transforms: &[u8],
    patterns: Patterns,
    error_limit: f32,
    room: &mut Room,
) -> Result<Decoded, Refused> {
    room.grow_tables(patterns.horizontal.len());
    decoded(decode_hard_raw(logical, physical, transforms, patterns, error_limit, room))
}

// The same in room as it is, with the answer as the library gives it: on a refusal every field but `refusal`, `list` and `position` is
// 0xFFFFFFFF or NaN.
fn decode_hard_raw(
    logical: &EdgeList,
    physical: &EdgeList,
    transforms: &[u8],
    patterns: Patterns,
    error_limit: f32,
    room: &mut Room,
) -> raw::Answer {
    // Every pointer is a slice's with its length, and the room is lent to this call alone.
    unsafe {
        raw::samburext_decode_hard_3(
            logical.rows.as_ptr(),
            logical.rows.len(),
            logical.cols.as_ptr(),
            logical.cols.len(),
            logical.orientations.as_ptr(),
            logical.orientations.len(),
            logical.bits.as_ptr(),
            logical.bits.len(),
            logical.confidences.as_ptr(),
            logical.confidences.len(),
            physical.rows.as_ptr(),
            physical.rows.len(),
            physical.cols.as_ptr(),
            physical.cols.len(),
            physical.orientations.as_ptr(),
            physical.orientations.len(),
            physical.bits.as_ptr(),
            physical.bits.len(),
            physical.confidences.as_ptr(),
            physical.confidences.len(),
            transforms.as_ptr(),
            transforms.len(),
            patterns.horizontal.as_ptr(),
            patterns.horizontal.len(),
            patterns.vertical.as_ptr(),
            patterns.vertical.len(),
            error_limit,
            room.counts.as_mut_ptr(),
            room.counts.len(),
            room.weights.as_mut_ptr(),
            room.weights.len(),
        )
    }
}

/// Exact decode: the square by the hits of the logical list, within the error limit, and where hits are equal by weights that add without rounding; the
/// physical list must agree. It is refused as hard decode is, but `NoConfidence` is given where all confidences of a list are below 2^-25, and
/// `ListsDisagree` goes by the physical list's best square by these weights. The room is made as long as the board needs it.
pub fn decode_exact(
    logical: &EdgeList,
    physical: &EdgeList,
    transforms: &[u8],
    patterns: Patterns,
    error_limit: f32,
    room: &mut ExactRoom,
) -> Result<ExactDecoded, Refused> {
    room.grow(patterns.horizontal.len());
    exact_decoded(decode_exact_raw(logical, physical, transforms, patterns, error_limit, room))
}

// The same in room as it is, with the answer as the library gives it.
fn decode_exact_raw(
    logical: &EdgeList,
    physical: &EdgeList,
    transforms: &[u8],
    patterns: Patterns,
    error_limit: f32,
    room: &mut ExactRoom,
) -> raw::ExactAnswer {
    // As above.
    unsafe {
        raw::samburext_decode_exact_3(
            logical.rows.as_ptr(),
            logical.rows.len(),
            logical.cols.as_ptr(),
            logical.cols.len(),
            logical.orientations.as_ptr(),
            logical.orientations.len(),
            logical.bits.as_ptr(),
            logical.bits.len(),
            logical.confidences.as_ptr(),
            logical.confidences.len(),
            physical.rows.as_ptr(),
            physical.rows.len(),
            physical.cols.as_ptr(),
            physical.cols.len(),
            physical.orientations.as_ptr(),
            physical.orientations.len(),
            physical.bits.as_ptr(),
            physical.bits.len(),
            physical.confidences.as_ptr(),
            physical.confidences.len(),
            transforms.as_ptr(),
            transforms.len(),
            patterns.horizontal.as_ptr(),
            patterns.horizontal.len(),
            patterns.vertical.as_ptr(),
            patterns.vertical.len(),
            error_limit,
            room.counts.as_mut_ptr(),
            room.counts.len(),
            room.units.as_mut_ptr(),
            room.units.len(),
        )
    }
}

/// Locate: the square by the hits of one list, without room, where there is no space for tables; it takes longer than hard decode. The square is the
/// placing within the error limit that is ahead of every other by more hits than it has misses. It is refused as hard decode of the list with itself
/// is, but never for its room, or finds the same square, hits and runner-up hits; its runner-up may be another square with as many hits.
pub fn locate(list: &EdgeList, transforms: &[u8], patterns: Patterns, error_limit: f32) -> Result<Located, Refused> {
    located(locate_raw(list, transforms, patterns, error_limit))
}

// The same with the answer as the library gives it.
fn locate_raw(list: &EdgeList, transforms: &[u8], patterns: Patterns, error_limit: f32) -> raw::Located {
    // As above, and nothing is written.
    unsafe {
        raw::samburext_locate_3(
            list.rows.as_ptr(),
            list.rows.len(),
            list.cols.as_ptr(),
            list.cols.len(),
            list.orientations.as_ptr(),
            list.orientations.len(),
            list.bits.as_ptr(),
            list.bits.len(),
            list.confidences.as_ptr(),
            list.confidences.len(),
            transforms.as_ptr(),
            transforms.len(),
            patterns.horizontal.as_ptr(),
            patterns.horizontal.len(),
            patterns.vertical.as_ptr(),
            patterns.vertical.len(),
            error_limit,
        )
    }
}

/// Soft decode: the square by the likelihoods of the physical list; the hits of the logical list must confirm it. The room is made as long as
/// the board needs it.
#[allow(clippy::too_many_arguments)]
pub fn decode_soft(
    logical: &EdgeList,
    physical: &EdgeList,
    likelihoods: &Likelihoods,
    transforms: &[u8],
    patterns: Patterns,
    error_limit: f32,
    soft_margin: f32,
    room: &mut Room,
) -> Result<SoftDecoded, Refused> {
    room.grow_tables(patterns.horizontal.len());
    room.grow_sums(patterns.horizontal.len());
    soft_decoded(decode_soft_raw(logical, physical, likelihoods, transforms, patterns, error_limit, soft_margin, room))
}

// The same in room as it is, with the answer as the library gives it.
#[allow(clippy::too_many_arguments)]
fn decode_soft_raw(
    logical: &EdgeList,
    physical: &EdgeList,
    likelihoods: &Likelihoods,
    transforms: &[u8],
    patterns: Patterns,
    error_limit: f32,
    soft_margin: f32,
    room: &mut Room,
) -> raw::SoftAnswer {
    // As above.
    unsafe {
        raw::samburext_decode_soft_3(
            logical.rows.as_ptr(),
            logical.rows.len(),
            logical.cols.as_ptr(),
            logical.cols.len(),
            logical.orientations.as_ptr(),
            logical.orientations.len(),
            logical.bits.as_ptr(),
            logical.bits.len(),
            logical.confidences.as_ptr(),
            logical.confidences.len(),
            physical.rows.as_ptr(),
            physical.rows.len(),
            physical.cols.as_ptr(),
            physical.cols.len(),
            physical.orientations.as_ptr(),
            physical.orientations.len(),
            physical.bits.as_ptr(),
            physical.bits.len(),
            physical.confidences.as_ptr(),
            physical.confidences.len(),
            likelihoods.matches.as_ptr(),
            likelihoods.matches.len(),
            likelihoods.mismatches.as_ptr(),
            likelihoods.mismatches.len(),
            transforms.as_ptr(),
            transforms.len(),
            patterns.horizontal.as_ptr(),
            patterns.horizontal.len(),
            patterns.vertical.as_ptr(),
            patterns.vertical.len(),
            error_limit,
            soft_margin,
            room.counts.as_mut_ptr(),
            room.counts.len(),
            room.weights.as_mut_ptr(),
            room.weights.len(),
            room.sums.as_mut_ptr(),
            room.sums.len(),
        )
    }
}

/// Match statistics: how one list fits a known square.
pub fn match_stats(list: &EdgeList, square: Square, patterns: Patterns) -> Result<MatchStats, Refused> {
    counted(match_stats_raw(list, square, patterns))
}

// The same, with the answer as the library gives it.
fn match_stats_raw(list: &EdgeList, square: Square, patterns: Patterns) -> raw::Stats {
    // Every pointer is a slice's with its length; nothing is written.
    unsafe {
        raw::samburext_match_stats_2(
            list.rows.as_ptr(),
            list.rows.len(),
            list.cols.as_ptr(),
            list.cols.len(),
            list.orientations.as_ptr(),
            list.orientations.len(),
            list.bits.as_ptr(),
            list.bits.len(),
            list.confidences.as_ptr(),
            list.confidences.len(),
            square.transform,
            square.row,
            square.col,
            patterns.horizontal.as_ptr(),
            patterns.horizontal.len(),
            patterns.vertical.as_ptr(),
            patterns.vertical.len(),
        )
    }
}
