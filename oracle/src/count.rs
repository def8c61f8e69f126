//! What document 01 says of a call on a board of any pole length, as request C-13 has it, and request C-15 of a call of the exact mode, worked out by counting: hits, likelihoods
//! and units edge by edge at every placing, that is, at every listed transform and each of 3L by 501 origins. No class table is built, and nothing of the given files or of the
//! library is used. What ties in hits leave to weights goes by document 01's order of rounding (`weights`), and in the exact mode by the units of the hits, added up.

use crate::file;
use crate::{Edge, Found, Selected, Soft, Square, Stats, MATRICES};

/// The two pattern tables: L horizontal patterns, and 167 vertical ones.
#[derive(Clone, Debug)]
pub struct Board {
    pub h: Vec<u8>,
    pub v: Vec<u8>,
}

/// Where an edge is looked up, relative to the origin.
struct Looked {
    horizontal: bool,
    row: i64,
    col: i64,
}

/// "Map both ends. Equal rows: the result is horizontal, its anchor the end of smaller column, lookup (anchor row - 1, anchor column). Otherwise vertical, anchor the
/// end of smaller row, lookup (anchor row, anchor column - 1)."
fn looked(e: &Edge, transform: u8) -> Looked {
    let m = MATRICES[transform as usize];
    let mapped = |col: i32, row: i32| {
        let (col, row) = (i64::from(col), i64::from(row));
        let by = |line: [i32; 2]| i64::from(line[0]) * col + i64::from(line[1]) * row;
        (by(m[0]), by(m[1]))
    };
    let (col, row) = mapped(e.col, e.row);
    let (far_col, far_row) = if e.orientation == 0 { mapped(e.col + 1, e.row) } else { mapped(e.col, e.row + 1) };
    if row == far_row {
        Looked { horizontal: true, row: row - 1, col: col.min(far_col) }
    } else {
        Looked { horizontal: false, row: row.min(far_row), col: col - 1 }
    }
}

/// The remainder, never negative.
fn residue(x: i64, n: usize) -> usize {
    x.rem_euclid(n as i64) as usize
}

impl Board {
    /// Rows of origins: 3L. Columns: 501.
    pub fn rows(&self) -> usize {
        3 * self.h.len()
    }

    pub fn cols(&self) -> usize {
        3 * self.v.len()
    }

    /// The bit that an edge is predicted to have at an origin.
    fn predicted(&self, at: &Looked, row: usize, col: usize) -> u8 {
        let (row, col) = (at.row + row as i64, at.col + col as i64);
        if at.horizontal {
            self.h[residue(row, self.h.len())] >> residue(col, 3) & 1
        } else {
            self.v[residue(col, self.v.len())] >> residue(row, 3) & 1
        }
    }

    /// The bit that makes an edge a hit at a placing.
    pub fn true_bit(&self, e: &Edge, at: &Square) -> u8 {
        self.predicted(&looked(e, at.transform as u8), at.row as usize, at.col as usize)
    }

    /// What an edge adds at the origins, line by line, by whether it is a hit. Looked up horizontally, it reads the same bit of a pattern at every third column, and the same pattern at every
    /// L-th row; else at every 167th column and every third row. So a line is as long as the columns are told apart, and there are as many as the rows are.
    fn lines(&self, e: &Edge, transform: u8, adds: [i64; 2]) -> Vec<Vec<i64>> {
        let at = looked(e, transform);
        let (rows, cols) = if at.horizontal { (self.h.len(), 3) } else { (3, self.v.len()) };
        let adds = |row: usize, col: usize| adds[usize::from(self.predicted(&at, row, col) == e.bit)];
        (0..rows).map(|row| (0..cols).map(|col| adds(row, col)).collect()).collect()
    }

    /// At every origin, row by row, the sum over the list of what an edge adds, by its position and whether it is a hit.
    fn at_every_origin(&self, edges: &[Edge], transform: u8, add: impl Fn(usize, bool) -> i64) -> Vec<i64> {
        let cols = self.cols();
        let lines = edges.iter().enumerate().map(|(i, e)| self.lines(e, transform, [add(i, false), add(i, true)]));
        let lines: Vec<Vec<Vec<i64>>> = lines.collect();
        let mut sums = vec![0; self.rows() * cols];
        for (row, sums) in sums.chunks_mut(cols).enumerate() {
            for edge in &lines {
                let line = &edge[row % edge.len()];
                for (sum, x) in sums.iter_mut().zip(line.repeat(cols / line.len())) {
                    *sum += x;
                }
            }
        }
        sums
    }

    /// The weights of one side's classes: "Each edge's confidence is added, in list order, to its group (long residue, short residue, bit), from 0. Per family of six groups, in
    /// the order short·2+bit, non-empty groups are added into an 8 by 3 table of terms, one row a pattern, from 0, at each short class s where the pattern's bit (s + short)
    /// mod 3 is the group's bit. Families are added to cells by rising long residue, from 0." By long class, then short class.
    fn weights(&self, edges: &[Edge], transform: u8, horizontal: bool) -> Vec<[f32; 3]> {
        let table = if horizontal { &self.h } else { &self.v };
        let n = table.len();
        let mut groups = vec![[None; 6]; n];
        for e in edges {
            let at = looked(e, transform);
            if at.horizontal == horizontal {
                let (long, short) = if horizontal { (at.row, at.col) } else { (at.col, at.row) };
                let group = &mut groups[residue(long, n)][residue(short, 3) * 2 + e.bit as usize];
                *group = Some(group.unwrap_or(0.0f32) + e.confidence);
            }
        }
        let mut cells = vec![[0.0; 3]; n];
        for (family, six) in groups.iter().enumerate().filter(|f| f.1.iter().any(Option::is_some)) {
            let term = |pattern: u8, s: usize| {
                let held = six.iter().enumerate().filter_map(|(slot, group)| group.map(|weight| (slot, weight)));
                held.filter(|&(slot, _)| usize::from(pattern >> ((s + slot / 2) % 3) & 1) == slot % 2)
                    .fold(0.0, |sum, (_, weight)| sum + weight)
            };
            let terms: [[f32; 3]; 8] = std::array::from_fn(|pattern| std::array::from_fn(|s| term(pattern as u8, s)));
            for (long, cell) in cells.iter_mut().enumerate() {
                let row = terms[table[(long + family) % n] as usize];
                (0..3).for_each(|s| cell[s] += row[s]);
            }
        }
        cells
    }
}

/// An origin: its row and its column.
type Origin = (usize, usize);

/// One list under one transform, by hits: those of every origin, the most, how many origins have them, and which of these is best by its weights.
struct Ranked<'a> {
    board: &'a Board,
    hits: Vec<i64>,
    most: i64,
    tied: usize,
    best: Origin,
}

/// The same with document 01's weights, which are rounded: those of each side's classes, and how many of the origins with the most hits also have the largest on each side.
struct Placed<'a> {
    ranked: Ranked<'a>,
    horizontal: Vec<[f32; 3]>,
    vertical: Vec<[f32; 3]>,
    optimal: usize,
}

/// The same with request C-15's weights: at every origin the units of the edges that are its hits.
struct Weighed<'a> {
    ranked: Ranked<'a>,
    units: Vec<i64>,
}

/// All origins of a board, row by row.
fn origins(board: &Board) -> impl Iterator<Item = Origin> + '_ {
    (0..board.rows()).flat_map(|row| (0..board.cols()).map(move |col| (row, col)))
}

/// The value at an origin.
fn at(board: &Board, values: &[i64], (row, col): Origin) -> i64 {
    values[row * board.cols() + col]
}

/// The origin that has the horizontal class of one and the vertical class of another.
fn joined(board: &Board, horizontal: Origin, vertical: Origin) -> Origin {
    let one = |n: usize, holds: &dyn Fn(usize) -> bool| (0..n).find(|&x| holds(x)).expect("L is no multiple of 3");
    let (l, m) = (board.h.len(), board.v.len());
    (
        one(3 * l, &|r| r % l == horizontal.0 % l && r % 3 == vertical.0 % 3),
        one(3 * m, &|c| c % 3 == horizontal.1 % 3 && c % m == vertical.1 % m),
    )
}

/// "the better of (first second-best horizontal, best vertical) and (best horizontal, first second-best vertical), horizontal on a tie. "First" is by cell position." Of the
/// one best origin of all.
fn second(board: &Board, values: &[i64], best: Origin) -> Origin {
    let (l, m) = (board.h.len(), board.v.len());
    let horizontal = (0..l).flat_map(|a| (0..3).map(move |b| (a, b))).map(|class| joined(board, class, best));
    let vertical = (0..3).flat_map(|a| (0..m).map(move |b| (a, b))).map(|class| joined(board, best, class));
    let first = |side: &mut dyn Iterator<Item = Origin>| {
        let others = side.filter(|&o| o != best);
        others.reduce(|kept, o| if at(board, values, o) > at(board, values, kept) { o } else { kept }).expect("other classes")
    };
    let (h, v) = (first(&mut horizontal.into_iter()), first(&mut vertical.into_iter()));
    if at(board, values, h) >= at(board, values, v) {
        h
    } else {
        v
    }
}

impl<'a> Ranked<'a> {
    /// By hits; of the origins with the most of them, row by row, `best` is chosen.
    fn new(board: &'a Board, edges: &[Edge], transform: u8, best: impl FnOnce(&[Origin]) -> Origin) -> Self {
        let hits = board.at_every_origin(edges, transform, |_, hit| i64::from(hit));
        let most = *hits.iter().max().expect("a board has origins");
        let with_most: Vec<Origin> = origins(board).filter(|&o| at(board, &hits, o) == most).collect();
        Self { board, hits, most, tied: with_most.len(), best: best(&with_most) }
    }

    fn hits_at(&self, o: Origin) -> i64 {
        at(self.board, &self.hits, o)
    }
}

/// The weights of the two classes of an origin.
fn sides(horizontal: &[[f32; 3]], vertical: &[[f32; 3]], (row, col): Origin) -> (f32, f32) {
    (horizontal[row % horizontal.len()][col % 3], vertical[col % vertical.len()][row % 3])
}

impl<'a> Placed<'a> {
    /// "In each table take the largest count, then the largest weight; the classes with both are optimal. [..] its best origin is the row-major first over optimal pairs."
    fn new(board: &'a Board, edges: &[Edge], transform: u8) -> Self {
        let horizontal = board.weights(edges, transform, true);
        let vertical = board.weights(edges, transform, false);
        let mut optimal = 0;
        let ranked = Ranked::new(board, edges, transform, |with_most| {
            let sides = |o: &Origin| sides(&horizontal, &vertical, *o);
            let h = with_most.iter().map(|o| sides(o).0).fold(0.0, f32::max);
            let v = with_most.iter().map(|o| sides(o).1).fold(0.0, f32::max);
            let best: Vec<&Origin> = with_most.iter().filter(|o| sides(o) == (h, v)).collect();
            optimal = best.len();
            *best[0]
        });
        Self { ranked, horizontal, vertical, optimal }
    }

    fn weight_at(&self, o: Origin) -> f32 {
        let (h, v) = sides(&self.horizontal, &self.vertical, o);
        h + v
    }
}

impl<'a> Weighed<'a> {
    /// The best origin has the most hits, then the most weight, and is the row-major first of these.
    fn new(board: &'a Board, edges: &[Edge], transform: u8) -> Self {
        let own: Vec<i64> = edges.iter().map(|e| whole(e.confidence)).collect();
        let units = board.at_every_origin(edges, transform, |i, hit| if hit { own[i] } else { 0 });
        let ranked = Ranked::new(board, edges, transform, |with_most| {
            let heavier = |kept: Origin, o: Origin| if at(board, &units, o) > at(board, &units, kept) { o } else { kept };
            with_most.iter().copied().reduce(heavier).expect("some origin has the most hits")
        });
        Self { ranked, units }
    }

    fn weight_at(&self, o: Origin) -> i64 {
        at(self.ranked.board, &self.units, o)
    }
}

/// A number times 2^24 as "the nearest whole number, halves away from zero": of a likelihood, and of a confidence its units.
fn whole(x: f32) -> i64 {
    (f64::from(x) * f64::from(1 << 24)).round() as i64
}

/// "Rate = misses / edges, one f32 division".
fn rate(edges: usize, hits: i64) -> f32 {
    (edges as i64 - hits) as f32 / edges as f32
}

/// "Mean confidence = weight / hits, 0 for no hits."
fn mean(weight: f32, hits: i64) -> f32 {
    if hits == 0 {
        0.0
    } else {
        weight / hits as f32
    }
}

/// What a selection keeps: a list position, an origin, its hits, weight and score.
#[derive(Clone, Copy)]
struct Candidate {
    listed: usize,
    origin: Origin,
    hits: i64,
    weight: f32,
    score: f32,
}

/// The other placing of most hits; without an origin where it is a tie inside the winner's transform, whose place never shows.
#[derive(Clone, Copy)]
struct Runner {
    listed: usize,
    hits: i64,
    origin: Option<Origin>,
}

/// The list-order sum of confidences.
fn total(edges: &[Edge]) -> f32 {
    edges.iter().fold(0.0, |sum, e| sum + e.confidence)
}

/// The runner-up of a winner at a list position: "inside the winner's transform, if more than one cell pair has the largest counts, hits equal the best (its place never shows,
/// for the gate refuses). Else the better of [..]. Then each other list position, in order, with its best hits and best origin, replaces it only on strictly more hits;
/// transforms over the rate limit take part."
fn runner_up(lists: &[&Ranked], winner: usize) -> Runner {
    let own = lists[winner];
    let mut runner = Runner { listed: winner, hits: own.most, origin: None };
    if own.tied == 1 {
        let origin = second(own.board, &own.hits, own.best);
        runner = Runner { hits: own.hits_at(origin), origin: Some(origin), ..runner };
    }
    for (listed, other) in lists.iter().enumerate() {
        if listed != winner && other.most > runner.hits {
            runner = Runner { listed, hits: other.most, origin: Some(other.best) };
        }
    }
    runner
}

/// Hard selection on one list: the winner with its runner-up, or 10 or 11.
fn select(board: &Board, edges: &[Edge], transforms: &[u8], limit: f32) -> Result<(Candidate, Runner), u32> {
    let total = total(edges);
    if total == 0.0 {
        return Err(10);
    }
    let lists: Vec<Placed> = transforms.iter().map(|&t| Placed::new(board, edges, t)).collect();
    let mut kept: Option<Candidate> = None;
    for (listed, placed) in lists.iter().enumerate() {
        if rate(edges.len(), placed.ranked.most) > limit {
            continue;
        }
        let mut offer = |origin: Origin| {
            let (hits, weight) = (placed.ranked.hits_at(origin), placed.weight_at(origin));
            let c = Candidate { listed, origin, hits, weight, score: weight / total };
            if kept.is_none_or(|k| c.hits > k.hits || c.hits == k.hits && c.score > k.score) {
                kept = Some(c);
            }
        };
        if placed.optimal <= 1024 {
            offer(placed.ranked.best);
        } else {
            origins(board).filter(|&o| rate(edges.len(), placed.ranked.hits_at(o)) <= limit).for_each(&mut offer);
        }
    }
    let winner = kept.ok_or(11u32)?;
    let ranked: Vec<&Ranked> = lists.iter().map(|l| &l.ranked).collect();
    Ok((winner, runner_up(&ranked, winner.listed)))
}

/// What an exact selection comes to: the winner's list position, origin, hits and weight, the list's units, and the runner-up with its weight.
struct Exact {
    listed: usize,
    origin: Origin,
    hits: i64,
    weight: i64,
    total: i64,
    runner: Runner,
    runner_weight: i64,
}

/// Request C-15's selection on one list: 10 where its units add up to 0, 11 where no placing is within the limit, else of all placings the one that "has most hits, then most weight,
/// then the earliest list position, row and column", counted edge by edge at each of them.
fn select_exact(board: &Board, edges: &[Edge], transforms: &[u8], limit: f32) -> Result<Exact, u32> {
    let total = edges.iter().map(|e| whole(e.confidence)).sum();
    if total == 0 {
        return Err(10);
    }
    let lists: Vec<Weighed> = transforms.iter().map(|&t| Weighed::new(board, edges, t)).collect();
    let placings = || (0..lists.len()).flat_map(|listed| origins(board).map(move |o| (listed, o)));
    let counted = |(listed, o): (usize, Origin)| (lists[listed].ranked.hits_at(o), lists[listed].weight_at(o));
    let (listed, origin) = placings().reduce(|kept, p| if counted(p) > counted(kept) { p } else { kept }).expect("a placing");
    let (hits, weight) = counted((listed, origin));
    if rate(edges.len(), hits) > limit {
        return Err(11);
    }
    let ranked: Vec<&Ranked> = lists.iter().map(|l| &l.ranked).collect();
    let runner = runner_up(&ranked, listed);
    // whatever the rule on its place: it is another placing, no third has more hits, and those are its own
    let most_other = placings().filter(|&p| p != (listed, origin)).map(|p| counted(p).0).max();
    assert_eq!(most_other, Some(runner.hits), "the runner-up has the most hits of all others");
    if let Some(o) = runner.origin {
        assert!((runner.listed, o) != (listed, origin) && lists[runner.listed].ranked.hits_at(o) == runner.hits);
    }
    let runner_weight = runner.origin.map_or(0, |o| lists[runner.listed].weight_at(o));
    Ok(Exact { listed, origin, hits, weight, total, runner, runner_weight })
}

/// What a found answer of the exact mode holds.
#[derive(Clone, Copy, Debug, PartialEq)]
pub struct ExactFound {
    pub square: Square,
    pub hits: u32,
    pub edges: u32,
    pub weight: u64,
    pub total: u64,
    pub rate: f32,
    pub runner: Square,
    pub runner_hits: u32,
    pub runner_weight: u64,
}

/// "margin = best minus runner-up hits, not below 0; pass exactly if margin > misses."
pub(crate) fn passes(edges: usize, best: i64, runner: i64) -> bool {
    (best - runner).max(0) > edges as i64 - best
}

/// What request C-16 answers of one list.
#[derive(Clone, Copy, Debug, PartialEq)]
pub struct Located {
    pub square: Square,
    pub hits: u32,
    pub runner: Square,
    pub runner_hits: u32,
}

/// A call: the board, both lists, the likelihoods of the physical one, the transforms, the limit and the soft margin.
pub struct Call<'a> {
    pub board: &'a Board,
    pub logical: &'a [Edge],
    pub physical: &'a [Edge],
    pub likelihoods: &'a [(f32, f32)],
    pub transforms: &'a [u8],
    pub limit: f32,
    pub soft: &'a Soft,
}

impl Call<'_> {
    fn square(&self, listed: usize, (row, col): Origin) -> Square {
        Square { transform: self.transforms[listed].into(), row: row as i32, col: col as i32 }
    }

    /// The runner-up's square; where it never shows, one of no meaning.
    fn runner_square(&self, r: &Runner) -> Square {
        self.square(r.listed, r.origin.unwrap_or((0, 0)))
    }

    /// Hard selection on the logical list before the gate.
    pub fn selection(&self) -> Result<Selected, u32> {
        let (w, next) = select(self.board, self.logical, self.transforms, self.limit)?;
        Ok(Selected {
            square: self.square(w.listed, w.origin),
            hits: w.hits as u32,
            edges: self.logical.len() as u32,
            weighted: w.score,
            rate: rate(self.logical.len(), w.hits),
            mean: mean(w.weight, w.hits),
            runner_hits: next.hits as u32,
            runner: self.runner_square(&next),
        })
    }

    /// Hard decode: "10 logical, 11, 10 physical, 12, 13".
    pub fn hard(&self) -> Result<Found, u32> {
        let Selected { square, hits, edges, weighted, rate, mean, runner_hits, runner } = self.selection()?;
        let (p, _) = select(self.board, self.physical, self.transforms, 1.0)?;
        if square != self.square(p.listed, p.origin) {
            return Err(12);
        }
        if !passes(self.logical.len(), hits.into(), runner_hits.into()) {
            return Err(13);
        }
        let (next, margin) = (runner_hits as f32, (hits - runner_hits) as f32);
        Ok(Found { square, hits, edges, weighted, rate, mean, best: weighted, next, margin, runner })
    }

    /// The exact mode, request C-15: the same steps with its own winners. "10 here when a list's unit sum is 0".
    pub fn exact(&self) -> Result<ExactFound, u32> {
        let w = select_exact(self.board, self.logical, self.transforms, self.limit)?;
        let p = select_exact(self.board, self.physical, self.transforms, 1.0)?;
        let square = self.square(w.listed, w.origin);
        if square != self.square(p.listed, p.origin) {
            return Err(12);
        }
        if !passes(self.logical.len(), w.hits, w.runner.hits) {
            return Err(13);
        }
        Ok(ExactFound {
            square,
            hits: w.hits as u32,
            edges: self.logical.len() as u32,
            weight: w.weight as u64,
            total: w.total as u64,
            rate: rate(self.logical.len(), w.hits),
            runner: self.runner_square(&w.runner),
            runner_hits: w.runner.hits as u32,
            runner_weight: w.runner_weight as u64,
        })
    }

    /// Request C-16, on the logical list: its placing of most hits and, of all others with most hits, "the first by list position, row and column", counted edge by edge at each; or 10, 11 or 13.
    pub fn located(&self) -> Result<Located, u32> {
        let edges = self.logical;
        if total(edges) == 0.0 {
            return Err(10);
        }
        let every = |&t: &u8| self.board.at_every_origin(edges, t, |_, hit| i64::from(hit));
        let hits: Vec<Vec<i64>> = self.transforms.iter().map(every).collect();
        let counted = |p: &(usize, Origin)| at(self.board, &hits[p.0], p.1);
        let first_but = |but: Option<(usize, Origin)>| {
            let placings = (0..hits.len()).flat_map(|listed| origins(self.board).map(move |o| (listed, o)));
            let others = placings.filter(|&p| Some(p) != but);
            others.reduce(|kept, p| if counted(&p) > counted(&kept) { p } else { kept }).expect("a placing")
        };
        let winner = first_but(None);
        let runner = first_but(Some(winner));
        let (most, next) = (counted(&winner), counted(&runner));
        if rate(edges.len(), most) > self.limit {
            return Err(11);
        }
        if !passes(edges.len(), most, next) {
            return Err(13);
        }
        let square = |p: (usize, Origin)| self.square(p.0, p.1);
        Ok(Located { square: square(winner), hits: most as u32, runner: square(runner), runner_hits: next as u32 })
    }

    /// The exact mode's winner on the physical list alone.
    pub fn exact_physical(&self) -> Result<Square, u32> {
        select_exact(self.board, self.physical, self.transforms, 1.0).map(|p| self.square(p.listed, p.origin))
    }

    /// The sums at every origin under one transform.
    fn sums(&self, transform: u8) -> Vec<i64> {
        let pairs: Vec<[i64; 2]> = self.likelihoods.iter().map(|p| [whole(p.1), whole(p.0)]).collect();
        self.board.at_every_origin(self.physical, transform, |i, hit| pairs[i][usize::from(hit)])
    }

    /// Soft decode: "10 physical, 14, 10 logical, 11, 15, 13".
    pub fn soft(&self) -> Result<Found, u32> {
        if total(self.physical) == 0.0 {
            return Err(10);
        }
        let mut places: [Option<(f32, usize, Origin)>; 2] = [None; 2];
        for (listed, &t) in self.transforms.iter().enumerate() {
            let sums = self.sums(t);
            let most = *sums.iter().max().expect("a board has origins");
            let mut first = origins(self.board).filter(|&o| at(self.board, &sums, o) == most);
            let best = first.next().expect("the most is somewhere");
            // which of several that tie is second shows nowhere in these answers
            let next = first.next().unwrap_or_else(|| second(self.board, &sums, best));
            for o in [best, next] {
                let total = (at(self.board, &sums, o) as f64 / f64::from(1 << 24)) as f32;
                let above = |place: Option<(f32, usize, Origin)>| place.is_none_or(|held| total > held.0);
                if above(places[0]) {
                    places = [Some((total, listed, o)), places[0]];
                } else if above(places[1]) {
                    places[1] = Some((total, listed, o));
                }
            }
        }
        let [Some((best, listed, origin)), Some((next_best, ..))] = places else { unreachable!("each transform offers two") };
        let edges = self.physical.len();
        let margin = (best - next_best) / edges as f32;
        if margin < self.soft.margin {
            return Err(14);
        }
        let (w, next) = select(self.board, self.logical, self.transforms, self.limit)?;
        let square = self.square(listed, origin);
        if self.square(w.listed, w.origin) != square {
            return Err(15);
        }
        if !passes(self.logical.len(), w.hits, next.hits) {
            return Err(13);
        }
        let placed = Placed::new(self.board, self.physical, self.transforms[listed]);
        let hits = placed.ranked.hits_at(origin);
        Ok(Found {
            square,
            hits: hits as u32,
            edges: edges as u32,
            weighted: best / edges as f32,
            rate: rate(edges, hits),
            mean: mean(placed.weight_at(origin), hits),
            best,
            next: next.hits as f32,
            margin,
            runner: self.runner_square(&next),
        })
    }

    /// Match statistics of the physical list: "edges, hits, rate, and mean over hits added in list order; no edges: rate 1; no hits: mean 0."
    pub fn stats(&self, at: &Square) -> Stats {
        let hit: Vec<&Edge> = self.physical.iter().filter(|e| self.board.true_bit(e, at) == e.bit).collect();
        let (edges, hits) = (self.physical.len(), hit.len());
        Stats {
            edges: edges as u32,
            hits: hits as u32,
            rate: if edges == 0 { 1.0 } else { rate(edges, hits as i64) },
            mean: mean(hit.iter().fold(0.0, |sum, e| sum + e.confidence), hits as i64),
        }
    }
}

/// The answer to a call of that kind, as the file's words; match statistics at the placing.
pub fn answer(kind: u32, call: &Call, at: &Square) -> file::Words {
    let decoded = |r: Result<Found, u32>| r.map_or_else(file::refused, |f| file::found(&f));
    match kind {
        file::HARD => decoded(call.hard()),
        file::SOFT => decoded(call.soft()),
        file::STATS => file::counted(&call.stats(at)),
        file::LOCATED => call.located().map_or_else(file::refused, |l| file::located(&l)),
        file::EXACT => call.exact().map_or_else(file::refused, |f| file::exact(&f)),
        _ => call.selection().map_or_else(file::refused, |s| file::selected(&s)),
    }
}

#[cfg(test)]
mod tests {
    use super::*;
    use crate::{cases, Case, Random, EITHER};

    /// What is counted of a case on the flat board, and what the given files say of it.
    fn both(kind: u32, case: &Case, at: &Square) -> [file::Words; 2] {
        [crate::counted(kind, case, at), crate::answer(kind, case, at)]
    }

    /// On the flat board the count and the given files say the same, in every word.
    #[test]
    fn the_given_files_say_the_same_of_the_flat_board() {
        let mut r = Random(8);
        let pairs = cases::Pairs::new(&mut r, 4);
        let mut numbers = std::collections::BTreeMap::new();
        for i in 0..150 {
            let mut case = match i % 5 {
                0 => cases::hostile(&mut r),
                1 => cases::refused(&mut r),
                2 => cases::near_tie(&mut r),
                3 if i % 2 == 0 => pairs.case(&mut r, 1023 + i % 4).unwrap_or_else(|| cases::near_tie(&mut r)),
                _ => cases::view(&mut r, 7, true),
            };
            if r.once_in(3) {
                cases::own_likelihoods(&mut r, &mut case);
            }
            let at = cases::placing(&mut r);
            for kind in [file::HARD, file::SOFT, file::STATS, file::SELECTION, file::LOCATED] {
                let [counted, mut given] = both(kind, &case, &at);
                if given[0] == EITHER && [13, 15].contains(&counted[0]) {
                    given[0] = counted[0];
                }
                assert_eq!(counted, given, "case {i}, kind {kind}");
                *numbers.entry((kind, given[0])).or_insert(0) += 1;
            }
        }
        for number in [0, 10, 11, 12, 13] {
            assert!(numbers.contains_key(&(file::HARD, number)), "{numbers:?}");
        }
        for number in [0, 10, 11, 13, 14, 15] {
            assert!(numbers.contains_key(&(file::SOFT, number)), "{numbers:?}");
        }
    }
}
