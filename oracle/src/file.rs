//! The file of cases and answers that the program `replay` reads: little-endian u32 words, i32 and f32 as their bits.
//!
//! First the number of entries. Then each entry: its kind and what it holds.
//! - 0: two pattern tables, horizontal then vertical, each a length and its entries, for all calls that follow.
//! - 1 hard decode, 2 soft decode, 3 match statistics of the physical list, 4 hard selection on the logical list before the gate, 5 the exact mode of
//!   request C-15, 6 the logical list located without tables (request C-16): a call (see `Call`), then the answer's 17 words.
//!
//! A file of cells, which the program `poletables` reads, is of such words too. First the number of entries. Then each: two pattern tables, the columns of a list, its
//! likelihoods of a match and of a mismatch (each a length and its entries), a transform, and the cells of its class tables, horizontal then vertical: all
//! counts, all weights, and all sums. A sum is two words, of which the higher has the sign as its highest bit.

use crate::count::{ExactFound, Located};
use crate::{Case, Cells, Edge, Found, Selected, Square, Stats};

pub const TABLES: u32 = 0;
pub const HARD: u32 = 1;
pub const SOFT: u32 = 2;
pub const STATS: u32 = 3;
pub const SELECTION: u32 = 4;
pub const EXACT: u32 = 5;
pub const LOCATED: u32 = 6;

/// What no answer holds: it stands in every place that a refusal, or a kind of call, leaves empty.
pub const EMPTY: u32 = u32::MAX;

/// The lists by number, as the C header has them: match statistics have the only one, and selection before the gate the logical one.
pub const LOGICAL: u32 = 1;
pub const PHYSICAL: u32 = 2;
pub const ONLY: u32 = 3;

/// The answer's words: 0 or the refusal's number, transform, row, column, hits, edges, weighted score, rate, mean, best score,
/// runner-up's score (its hits as f32; before the gate as a whole number), margin (in hits, as f32, for hard decode), the runner-up's transform, row and
/// column, and the list and the position (from 0) of the edge that a refusal is about. A found answer's are document 01's ten fields; the program `replay`
/// derives them from our hard and soft answers, which say hits by whole numbers. Words 6 to 11, 15 and 16 of a found answer of the exact mode are others (`exact`).
pub type Words = [u32; 17];

fn square(words: &mut Words, at: usize, s: &Square) {
    words[at] = s.transform;
    words[at + 1] = s.row as u32;
    words[at + 2] = s.col as u32;
}

pub fn refused(number: u32) -> Words {
    let mut words = [EMPTY; 17];
    words[0] = number;
    words
}

/// A refusal that is about an edge.
pub fn refused_at(number: u32, list: u32, position: u32) -> Words {
    let mut words = refused(number);
    words[15] = list;
    words[16] = position;
    words
}

/// The early refusals in the order in which they are given. The Rust has none of them.
pub const EARLY: [u32; 11] = [1, 2, 3, 4, 16, 17, 5, 6, 7, 8, 9];

pub fn found(f: &Found) -> Words {
    let mut words = refused(0);
    square(&mut words, 1, &f.square);
    words[4] = f.hits;
    words[5] = f.edges;
    for (i, x) in [f.weighted, f.rate, f.mean, f.best, f.next, f.margin].iter().enumerate() {
        words[6 + i] = x.to_bits();
    }
    square(&mut words, 12, &f.runner);
    words
}

pub fn selected(s: &Selected) -> Words {
    let mut words = refused(0);
    square(&mut words, 1, &s.square);
    words[4] = s.hits;
    words[5] = s.edges;
    for (i, x) in [s.weighted, s.rate, s.mean].iter().enumerate() {
        words[6 + i] = x.to_bits();
    }
    words[10] = s.runner_hits;
    square(&mut words, 12, &s.runner);
    if s.runner_hits == s.hits && s.runner.transform == s.square.transform {
        // a tie inside the winner's transform: "its place never shows, for the gate refuses"
        words[13..15].fill(EMPTY);
    }
    words
}

/// A found answer of the exact mode: from word 6 on its weight and the list's units (each two words, the lower one first), the rate and the runner-up's hits; in the last two words the
/// runner-up's weight, since a found answer is about no edge.
pub fn exact(f: &ExactFound) -> Words {
    let mut words = refused(0);
    square(&mut words, 1, &f.square);
    words[4] = f.hits;
    words[5] = f.edges;
    for (at, units) in [(6, f.weight), (8, f.total), (15, f.runner_weight)] {
        words[at] = units as u32;
        words[at + 1] = (units >> 32) as u32;
    }
    words[10] = f.rate.to_bits();
    words[11] = f.runner_hits;
    square(&mut words, 12, &f.runner);
    words
}

/// What is located: the placing, its hits, and the runner-up's hits (a whole number) and place.
pub fn located(l: &Located) -> Words {
    let mut words = refused(0);
    square(&mut words, 1, &l.square);
    words[4] = l.hits;
    words[10] = l.runner_hits;
    square(&mut words, 12, &l.runner);
    words
}

pub fn counted(s: &Stats) -> Words {
    let mut words = refused(0);
    words[4] = s.hits;
    words[5] = s.edges;
    words[7] = s.rate.to_bits();
    words[8] = s.mean.to_bits();
    words
}

/// The columns of one list; their lengths differ only where a refusal is asked for.
#[derive(Clone, Debug, Default)]
pub struct Columns {
    pub rows: Vec<u32>,
    pub cols: Vec<u32>,
    pub orientations: Vec<u32>,
    pub bits: Vec<u32>,
    pub confidences: Vec<u32>,
}

impl Columns {
    pub fn of(edges: &[Edge]) -> Self {
        Self {
            rows: edges.iter().map(|e| e.row as u32).collect(),
            cols: edges.iter().map(|e| e.col as u32).collect(),
            orientations: edges.iter().map(|e| e.orientation as u32).collect(),
            bits: edges.iter().map(|e| e.bit as u32).collect(),
            confidences: edges.iter().map(|e| e.confidence.to_bits()).collect(),
        }
    }

    /// The edges, of columns of equal length.
    pub fn edges(&self) -> Vec<Edge> {
        let edge = |i: usize| Edge {
            row: self.rows[i] as i32,
            col: self.cols[i] as i32,
            orientation: self.orientations[i] as u8,
            bit: self.bits[i] as u8,
            confidence: f32::from_bits(self.confidences[i]),
        };
        (0..self.rows.len()).map(edge).collect()
    }
}

/// One call as the file holds it: lengths of the lent room (u32, f32 or in the exact mode u64, i64), the logical list, the physical list, its likelihoods,
/// transforms, limit, margin, and the placing for match statistics.
#[derive(Clone, Debug)]
pub struct Call {
    pub kind: u32,
    pub room: [u32; 3],
    pub logical: Columns,
    pub physical: Columns,
    pub matches: Vec<u32>,
    pub mismatches: Vec<u32>,
    pub transforms: Vec<u32>,
    pub limit: u32,
    pub margin: u32,
    pub at: [u32; 3],
}

/// Room that is long enough, with four places of surplus.
pub const ROOM: [u32; 3] = [3010, 3010, 5014];

impl Call {
    /// A call of the Rust's case; lists that the kind does not take are left empty.
    pub fn of(kind: u32, case: &Case, likelihoods: &[(f32, f32)], at: &Square) -> Self {
        let list = |used: bool, edges: &[Edge]| if used { Columns::of(edges) } else { Columns::default() };
        let column = |f: fn(&(f32, f32)) -> f32| {
            let used = if kind == SOFT { likelihoods } else { &[] };
            used.iter().map(|p| f(p).to_bits()).collect::<Vec<u32>>()
        };
        Self {
            kind,
            room: ROOM,
            logical: list(kind != STATS, &case.logical),
            physical: list(kind != SELECTION && kind != LOCATED, &case.physical),
            matches: column(|p| p.0),
            mismatches: column(|p| p.1),
            transforms: case.transforms.iter().map(|&t| t as u32).collect(),
            limit: case.limit.to_bits(),
            margin: case.soft.margin.to_bits(),
            at: [at.transform, at.row as u32, at.col as u32],
        }
    }
}

/// An entry of a file.
pub enum Entry {
    Tables(Vec<u8>, Vec<u8>),
    Call(Call, Words),
}

/// A file that is read, word by word.
struct Reader {
    words: Vec<u32>,
    at: usize,
}

impl Reader {
    fn word(&mut self) -> u32 {
        self.at += 1;
        self.words[self.at - 1]
    }

    fn some<const N: usize>(&mut self) -> [u32; N] {
        std::array::from_fn(|_| self.word())
    }

    fn column(&mut self) -> Vec<u32> {
        let n = self.word();
        (0..n).map(|_| self.word()).collect()
    }

    fn table(&mut self) -> Vec<u8> {
        self.column().iter().map(|&p| p as u8).collect()
    }

    fn list(&mut self) -> Columns {
        let [rows, cols, orientations, bits, confidences] = std::array::from_fn(|_| self.column());
        Columns { rows, cols, orientations, bits, confidences }
    }

    fn entry(&mut self) -> Entry {
        let kind = self.word();
        if kind == TABLES {
            return Entry::Tables(self.table(), self.table());
        }
        let (room, logical, physical) = (self.some(), self.list(), self.list());
        let [matches, mismatches, transforms] = std::array::from_fn(|_| self.column());
        let (limit, margin, at) = (self.word(), self.word(), self.some());
        let call = Call { kind, room, logical, physical, matches, mismatches, transforms, limit, margin, at };
        Entry::Call(call, self.some())
    }
}

/// The entries of a file.
pub fn read(path: &str) -> std::io::Result<Vec<Entry>> {
    let bytes = std::fs::read(path)?;
    let words = bytes.chunks_exact(4).map(|b| u32::from_le_bytes([b[0], b[1], b[2], b[3]])).collect();
    let mut reader = Reader { words, at: 0 };
    let n = reader.word();
    Ok((0..n).map(|_| reader.entry()).collect())
}

/// A file being made.
#[derive(Default)]
pub struct File {
    entries: u32,
    words: Vec<u32>,
}

impl File {
    fn column(&mut self, column: &[u32]) {
        self.words.push(column.len() as u32);
        self.words.extend(column);
    }

    fn list(&mut self, list: &Columns) {
        for column in [&list.rows, &list.cols, &list.orientations, &list.bits, &list.confidences] {
            self.column(column);
        }
    }

    fn patterns(&mut self, h: &[u8], v: &[u8]) {
        for table in [h, v] {
            let entries: Vec<u32> = table.iter().map(|&p| p as u32).collect();
            self.column(&entries);
        }
    }

    pub fn tables(&mut self, h: &[u8], v: &[u8]) {
        self.entries += 1;
        self.words.push(TABLES);
        self.patterns(h, v);
    }

    /// An entry of a file of cells.
    pub fn cells(&mut self, h: &[u8], v: &[u8], edges: &[Edge], likelihoods: &[(f32, f32)], transform: u8, cells: &Cells) {
        self.entries += 1;
        self.patterns(h, v);
        self.list(&Columns::of(edges));
        for likelihood in [|p: &(f32, f32)| p.0.to_bits(), |p: &(f32, f32)| p.1.to_bits()] {
            let column: Vec<u32> = likelihoods.iter().map(likelihood).collect();
            self.column(&column);
        }
        self.words.push(transform as u32);
        self.words.extend(&cells.counts);
        self.words.extend(cells.weights.iter().map(|w| w.to_bits()));
        for &sum in &cells.sums {
            let size = sum.unsigned_abs();
            self.words.extend([u32::from(sum < 0) << 31 | (size >> 32) as u32, size as u32]);
        }
    }

    pub fn call(&mut self, call: &Call, answer: &Words) {
        self.entries += 1;
        self.words.push(call.kind);
        self.words.extend(call.room);
        for list in [&call.logical, &call.physical] {
            self.list(list);
        }
        for column in [&call.matches, &call.mismatches, &call.transforms] {
            self.column(column);
        }
        self.words.extend([call.limit, call.margin]);
        self.words.extend(call.at);
        self.words.extend(answer);
    }

    pub fn write(&self, path: &str) -> std::io::Result<()> {
        let mut bytes = self.entries.to_le_bytes().to_vec();
        for word in &self.words {
            bytes.extend(word.to_le_bytes());
        }
        std::fs::write(path, bytes)
    }
}
