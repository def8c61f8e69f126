//! Cases with a fixed seed: windows of a board with wrong bits, hostile lists, class pairs around 1,024, long lists.

use crate::count::Board;
use crate::{true_bit, votes, Case, Edge, Likelihood, Random, Soft, Square};

/// One of these.
pub(crate) fn pick<T: Copy>(r: &mut Random, from: &[T]) -> T {
    from[r.below(from.len() as u64) as usize]
}

pub fn placing(r: &mut Random) -> Square {
    Square { transform: r.below(8) as u32, row: r.below(501) as i32, col: r.below(501) as i32 }
}

/// Transform lists in search order: the four rotations, all eight, one alone, any, and one that comes twice. The true one is mostly listed.
/// A light list is mostly of one or two.
pub(crate) fn transforms(r: &mut Random, truth: u32, light: bool) -> Vec<u8> {
    if light && !r.once_in(3) {
        let mut list = vec![truth as u8, r.below(8) as u8];
        list.rotate_left(r.below(2) as usize);
        list.retain(|&t| t == truth as u8 || r.once_in(2));
        return list;
    }
    let mut list: Vec<u8> = match r.below(40) {
        0..=11 => (0..4).collect(),
        12 | 13 => (0..8).collect(),
        14..=23 => vec![truth as u8],
        24..=31 => vec![r.below(8) as u8, r.below(8) as u8],
        32..=36 => (0..1 + r.below(4)).map(|_| r.below(8) as u8).collect(),
        37 => (0..8).rev().collect(),
        _ => vec![truth as u8, r.below(8) as u8, truth as u8],
    };
    if !r.once_in(8) && !list.contains(&(truth as u8)) {
        let at = r.below(list.len() as u64) as usize;
        list[at] = truth as u8;
    }
    list
}

/// A confidence by a style: all 1, any, a few levels, hostile ones (0, -0, 1, subnormal, tiny), small ones.
fn confidence(r: &mut Random, style: u64) -> f32 {
    match style {
        0 => 1.0,
        1 | 2 => r.unit(),
        3 => pick(r, &[0.25, 0.5, 0.75, 1.0]),
        4 => {
            let any = r.unit();
            pick(r, &[0.0, -0.0, 1.0, 1e-45, f32::MIN_POSITIVE, 1e-40, 0.1, any, 1.0 - f32::EPSILON / 2.0])
        }
        _ => r.unit() * 1e-3,
    }
}

/// What the soft scorer is given: mostly the Rust's own numbers, else scattered likelihoods of every size.
pub(crate) fn soft(r: &mut Random) -> Soft {
    let seed = r.next() as u32;
    let scale = pick(r, &[1.0, 0.25, 6.0, 65536.0, 1e-6, 1e-7]);
    let margin = pick(r, &[0.02, 0.02, 0.02, 0.0, 0.0, 0.0, 0.1, 1e-4, 1.0]);
    if r.once_in(6) {
        return Soft { likelihood: Likelihood::Scattered { seed, scale }, kappa: 1.0, floor: -65536.0, margin };
    }
    let (kappa, floor) = pick(r, &[(12.0, -6.0), (12.0, -6.0), (4.0, -20.0), (0.5, -0.5), (100.0, -65536.0)]);
    Soft { likelihood: Likelihood::Sigmoid, kappa, floor, margin }
}

/// The error limit; now and then exactly the rate of some number of misses.
pub(crate) fn limit(r: &mut Random, edges: usize) -> f32 {
    let any = r.unit();
    let rate = r.below(1 + edges as u64 / 4) as f32 / edges.max(1) as f32;
    pick(r, &[0.3, 0.3, 0.3, 0.4, 0.1, 0.0, 1.0, 1.0, rate, any])
}

/// Which maps: mostly a board's, seldom degenerate ones.
fn map(r: &mut Random) -> usize {
    match r.below(40) {
        0..=15 => 0,
        16..=31 => 1,
        32..=35 => 3,
        36 | 37 => 4,
        38 => 2,
        _ => 5,
    }
}

/// How far a window's corner is from the list's zero.
fn corner(r: &mut Random) -> i32 {
    match r.below(12) {
        0 => 999_900,
        1 => -1_000_000,
        2..=4 => r.below(1001) as i32 - 500,
        _ => 0,
    }
}

/// The edges of a window as a camera at the placing sees them.
pub fn window(r: &mut Random, map: usize, at: &Square, squares: i32) -> Vec<Edge> {
    seen(r, squares, |e| true_bit(map, e, at))
}

/// The edges of a window whose true bits these are: some left out, some bits wrong.
pub fn seen(r: &mut Random, squares: i32, bit: impl Fn(&Edge) -> u8) -> Vec<Edge> {
    let style = r.below(6);
    let wrong = pick(r, &[0, 0, 0, 10, 50, 100, 200]);
    let missing = pick(r, &[0, 0, 100, 400]);
    let (row0, col0) = (corner(r), corner(r));
    let mut edges = Vec::new();
    for row in 0..squares {
        for col in 0..squares {
            for orientation in 0..2 {
                if r.below(1000) < missing {
                    continue;
                }
                let e = Edge { row: row0 + row, col: col0 + col, orientation, bit: 0, confidence: confidence(r, style) };
                let flip = u8::from(r.below(1000) < wrong);
                edges.push(Edge { bit: bit(&e) ^ flip, ..e });
            }
        }
    }
    if r.once_in(5) {
        for i in (1..edges.len()).rev() {
            edges.swap(i, r.below(i as u64 + 1) as usize);
        }
    }
    edges
}

/// Window sizes from 4 squares on, mostly small.
pub fn squares(r: &mut Random) -> i32 {
    match r.below(400) {
        0..=59 => 4 + r.below(2) as i32,
        60..=259 => 6 + r.below(3) as i32,
        260..=379 => 8 + r.below(5) as i32,
        380..=398 => 12 + r.below(5) as i32,
        _ => 16 + r.below(33) as i32,
    }
}

/// A window of so many squares, with the logical list by the Rust's own consensus, the physical list itself, or another window.
pub fn view(r: &mut Random, size: i32, light: bool) -> Case {
    placed_view(r, size, light).0
}

/// The same, and where the window was cut.
pub fn placed_view(r: &mut Random, size: i32, light: bool) -> (Case, Square) {
    let map = map(r);
    let at = placing(r);
    let physical = window(r, map, &at, size);
    let logical = match r.below(12) {
        0 => physical.clone(),
        1 => {
            let mut other = placing(r);
            other.transform = at.transform;
            votes(&window(r, map, &other, size))
        }
        _ => votes(&physical),
    };
    let limit = limit(r, logical.len());
    let mut case = Case { map, logical, physical, transforms: transforms(r, at.transform, light), limit, soft: soft(r) };
    if r.once_in(2) {
        // as the pipeline calls it
        case.limit = 0.3;
        case.soft = Soft { likelihood: Likelihood::Sigmoid, kappa: 12.0, floor: -6.0, margin: pick(r, &[0.02, 0.0]) };
    }
    (case, at)
}

/// Five, six or seven transforms: those that are listed, in their order, and others between them, seldom one again.
pub fn five_to_seven(r: &mut Random, list: &mut Vec<u8>) {
    let length = 5 + r.below(3) as usize;
    list.truncate(length);
    while list.len() < length {
        let t = r.below(8) as u8;
        if !list.contains(&t) || r.once_in(8) {
            list.insert(r.below(list.len() as u64 + 1) as usize, t);
        }
    }
}

/// Each physical edge has likelihoods of its own, which its confidence does not tell, and half of the time all have one confidence: near what a
/// reading of that confidence would have, scattered over every size, or at the ends of the range and at halves of a unit.
pub fn own_likelihoods(r: &mut Random, case: &mut Case) {
    if r.once_in(2) {
        let one = pick(r, &[1.0, 0.5, 0.75, 0.3]);
        case.physical.iter_mut().for_each(|e| e.confidence = one);
    }
    let style = r.below(4);
    let scale = pick(r, &[1.0, 6.0, 65536.0, 1e-6, 1e-7]);
    let unit = 1.0 / (1 << 24) as f32;
    let ends = [65536.0, -65536.0, 0.0, -0.0, unit / 2.0, -unit / 2.0, unit / 4.0, -unit / 4.0, 1.5 * unit, -1.5 * unit];
    let likelihood = |r: &mut Random, near: f32| match style {
        0 | 1 => near * (0.5 + r.unit()),
        2 => (r.unit() * 2.0 - 1.0) * scale,
        _ => pick(r, &ends),
    };
    let pairs: Vec<(f32, f32)> = case.physical.iter().map(|_| (likelihood(r, -0.1), likelihood(r, -4.0))).collect();
    crate::list_likelihoods(&pairs);
    case.soft = Soft { likelihood: Likelihood::Listed, kappa: 1.0, floor: f32::NEG_INFINITY, ..case.soft };
}

/// One edge with nothing true about it.
fn any_edge(r: &mut Random, spread: u64, style: u64) -> Edge {
    let far = |r: &mut Random| match r.below(8) {
        0 => pick(r, &[1_000_000, -1_000_000, 999_999, -999_999, -1, 166, 167, 501]),
        _ => r.below(2 * spread + 1) as i32 - spread as i32,
    };
    Edge { row: far(r), col: far(r), orientation: r.below(2) as u8, bit: r.below(2) as u8, confidence: confidence(r, style) }
}

/// Few edges, repeated ones, both bits of one place, far and negative coordinates, hostile confidences, one orientation only.
pub fn hostile(r: &mut Random) -> Case {
    let map = map(r);
    let lists = [0, 1].map(|_| {
        let (spread, style) = (pick(r, &[1, 3, 10, 1_000_000]), r.below(6));
        let most = pick(r, &[3, 8, 60]);
        let mut edges: Vec<Edge> = (0..1 + r.below(most)).map(|_| any_edge(r, spread, style)).collect();
        if r.once_in(3) {
            let turned: Vec<Edge> = edges.iter().map(|e| Edge { bit: 1 - e.bit, ..*e }).collect();
            edges.extend(turned);
        }
        if r.once_in(3) {
            let again = edges.clone();
            edges.extend(again);
        }
        if r.once_in(4) {
            edges.iter_mut().for_each(|e| e.orientation = 0);
        }
        if r.once_in(16) {
            edges.iter_mut().for_each(|e| e.confidence = pick(r, &[0.0, -0.0]));
        }
        edges
    });
    let [logical, mut physical] = lists;
    if r.once_in(2) {
        physical = logical.clone();
    }
    let truth = r.below(8) as u32;
    let limit = limit(r, logical.len());
    Case { map, logical, physical, transforms: transforms(r, truth, false), limit, soft: soft(r) }
}

/// The cells of one side with the most hits, each as an origin of its class, for edges of one orientation under transform 0. The side has so many patterns.
fn optimal(patterns: usize, edges: &[Edge], bit: &impl Fn(&Edge, &Square) -> u8) -> Vec<Square> {
    let mut cells = Vec::new();
    for long in 0..patterns as i32 {
        for short in 0..3 {
            let (row, col) = if edges[0].orientation == 0 { (long, short) } else { (short, long) };
            let at = Square { transform: 0, row, col };
            cells.push((edges.iter().filter(|e| bit(e, &at) == e.bit).count(), at));
        }
    }
    let most = cells.iter().map(|c| c.0).max().unwrap_or(0);
    cells.into_iter().filter(|c| c.0 == most).map(|c| c.1).collect()
}

/// Lists by the number of their optimal cells.
type Sized = Vec<(usize, Vec<Edge>)>;

/// Lists whose optimal class pairs under transform 0 are 1,023 to 1,026 in number.
///
/// A horizontal list ends in an edge that is read both ways: the cells that miss its first reading have as many hits as the optimal ones and
/// 2^-30 less weight, which is lost beside a vertical weight of 1 or more. So a scan over all origins takes the first of more pairs than the
/// optimal ones, and on which side of 1,024 their number lies shows in the winner.
pub struct Pairs {
    map: usize,
    horizontal: Sized,
    vertical: Sized,
}

impl Pairs {
    const LIGHT: f32 = 1.0 / 1024.0;

    pub fn new(r: &mut Random, map: usize) -> Self {
        Self::by(r, map, 167, |e, at| true_bit(map, e, at))
    }

    /// The same on a pole.
    pub fn on(r: &mut Random, board: &Board) -> Self {
        Self::by(r, 0, board.h.len(), |e, at| board.true_bit(e, at))
    }

    /// By the bits of a board with so many horizontal patterns.
    fn by(r: &mut Random, map: usize, patterns: usize, bit: impl Fn(&Edge, &Square) -> u8) -> Self {
        let mut pairs = Self { map, horizontal: Vec::new(), vertical: Vec::new() };
        for i in 0..600 {
            let side = (i % 2) as u8;
            let confidence = if side == 0 { Self::LIGHT } else { 1.0 };
            let edge = |r: &mut Random| Edge { orientation: side, confidence, ..any_edge(r, 4, 0) };
            let mut few: Vec<Edge> = (0..1 + r.below(6)).map(|_| edge(r)).collect();
            let cells = optimal(if side == 0 { patterns } else { 167 }, &few, &bit);
            if side == 1 {
                pairs.vertical.push((cells.len(), few));
                continue;
            }
            let last = edge(r);
            let lighter = Self::LIGHT - Self::LIGHT / (1 << 20) as f32;
            few.extend([last, Edge { bit: 1 - last.bit, confidence: lighter, ..last }]);
            let hit = cells.iter().filter(|at| bit(&last, at) == last.bit).count();
            pairs.horizontal.push((hit, few));
        }
        pairs
    }

    /// A list with `product` optimal pairs, if some two lists have it. The physical list reads the last edge's second bit with half the
    /// confidence, so that nothing ties there.
    pub fn case(&self, r: &mut Random, product: usize) -> Option<Case> {
        let start = r.below(self.horizontal.len() as u64) as usize;
        let (before, after) = self.horizontal.split_at(start);
        for (n, horizontal) in after.iter().chain(before) {
            for (m, vertical) in &self.vertical {
                if n * m != product {
                    continue;
                }
                let logical: Vec<Edge> = horizontal.iter().chain(vertical).copied().collect();
                let mut physical = logical.clone();
                physical[horizontal.len() - 1].confidence /= 2.0;
                let transforms = if r.once_in(2) { vec![0] } else { vec![0, r.below(8) as u8] };
                return Some(Case { map: self.map, logical, physical, transforms, limit: 1.0, soft: soft(r) });
            }
        }
        None
    }
}

/// Cells whose weights differ so little that rounded sums tie: each edge may be seen again with the other bit and the next smaller
/// confidence, beside heavier edges. From 1,025 optimal pairs on the first origin of all that tie wins, below that the first optimal one.
pub fn near_tie(r: &mut Random) -> Case {
    let map = pick(r, &[0, 3, 4, 4]);
    let mut logical = Vec::new();
    let mut physical = Vec::new();
    let few = 1 + r.below(3);
    for i in 0..2 + few {
        let confidence = pick(r, &[1.0, 0.5, 0.3]);
        let e = Edge { orientation: (i % 2) as u8, confidence, ..any_edge(r, 3, 0) };
        for _ in 0..pick(r, &[1, 1, 4, 9]) {
            logical.push(e);
            physical.push(e);
        }
        if r.once_in(2) {
            let turned = Edge { bit: 1 - e.bit, ..e };
            logical.push(Edge { confidence: f32::from_bits(confidence.to_bits() - 1), ..turned });
            physical.push(Edge { confidence: confidence / 2.0, ..turned });
        }
    }
    let transforms = if r.once_in(2) { vec![0] } else { vec![0, r.below(8) as u8] };
    Case { map, logical, physical, transforms, limit: 1.0, soft: soft(r) }
}

/// A list of so many edges: a large window, from its first edge on.
pub fn long(r: &mut Random, edges: usize) -> Case {
    let at = placing(r);
    let mut physical = window(r, 0, &at, 64);
    while physical.len() < edges {
        let again = physical.clone();
        physical.extend(again);
    }
    physical.truncate(edges);
    let logical = if r.once_in(2) { physical.clone() } else { votes(&physical) };
    let limit = limit(r, logical.len());
    Case { map: 0, logical, physical, transforms: transforms(r, at.transform, false), limit, soft: soft(r) }
}

/// A clean view that is found, bent so that one step refuses: 10 and 11 in either list, 12, 13, 14 and 15.
pub fn refused(r: &mut Random) -> Case {
    let mut case = view(r, 4, false);
    case.map = 0;
    let at = placing(r);
    let size = 6 + r.below(5) as i32;
    let clean = |r: &mut Random, at: &Square| {
        let mut edges = window(r, 0, at, size);
        edges.iter_mut().for_each(|e| {
            let (row, col) = (e.row.rem_euclid(size), e.col.rem_euclid(size));
            *e = Edge { row, col, confidence: 0.5 + e.confidence / 2.0, ..*e };
            e.bit = true_bit(0, e, at);
        });
        edges
    };
    let physical = clean(r, &at);
    let other = Square { row: (at.row + 1 + r.below(400) as i32) % 501, ..at };
    case.logical = votes(&physical);
    case.physical = physical;
    case.transforms = vec![at.transform as u8, (at.transform as u8 + 1) % 8];
    case.limit = 0.3;
    case.soft = Soft { likelihood: Likelihood::Sigmoid, kappa: 12.0, floor: -6.0, margin: 0.02 };
    match r.below(7) {
        0 => case.logical.iter_mut().for_each(|e| e.confidence = 0.0),
        1 => case.physical.iter_mut().for_each(|e| e.confidence = -0.0),
        2 => {
            case.logical.iter_mut().step_by(2).for_each(|e| e.bit = 1 - e.bit);
            case.limit = 0.01;
        }
        3 | 4 => case.logical = votes(&clean(r, &other)),
        5 => case.transforms.push(at.transform as u8),
        _ => case.soft.margin = pick(r, &[10.0, 3.0, 65536.0]),
    }
    case
}

#[cfg(test)]
mod tests {
    use super::*;

    /// Five to seven transforms, each length at times, from a list of any length; a list of at most five keeps what it has, in its order.
    #[test]
    fn lists_of_five_to_seven() {
        let mut r = Random(1);
        let mut seen = [0; 9];
        for i in 0..900 {
            let before: Vec<u8> = (0..1 + i % 8).map(|_| r.below(8) as u8).collect();
            let mut list = before.clone();
            five_to_seven(&mut r, &mut list);
            seen[list.len()] += 1;
            assert!(list.iter().all(|&t| t < 8));
            let mut kept = list.iter();
            assert!(before.len() > 5 || before.iter().all(|t| kept.any(|k| k == t)));
        }
        assert!(seen[..5] == [0; 5] && seen[5..8].iter().all(|&n| n > 200) && seen[8] == 0, "{seen:?}");
    }
}
