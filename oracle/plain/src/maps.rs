//! The pairs of maps that the Rust is compiled with. A map is a list of 167 three-bit patterns; the horizontal one is the Rust's
//! `map_b` (row r, column j is bit j of pattern r), the vertical one its `map_a` (row j, column c is bit j of pattern c).

use std::collections::{BTreeMap, BTreeSet};

use crate::Random;

pub type Patterns = [u8; 167];

/// How many pairs there are; `maps/mN` compiles the Rust with pair N.
pub const PAIRS: usize = 6;

/// Pair n, horizontal then vertical: 0 and 1 are boards (every cyclic 3 by 3 window of each map distinct), 2 is all zero, 3 random,
/// 4 random with few ones, 5 the same pattern everywhere in one map and a repeating one in the other.
pub fn pair(n: usize) -> (Patterns, Patterns) {
    match n {
        0 => (board(11), board(12)),
        1 => (board(21), board(22)),
        2 => ([0; 167], [0; 167]),
        3 => (random(31, 1), random(32, 1)),
        4 => (random(41, 3), random(42, 3)),
        _ => ([5; 167], std::array::from_fn(|i| [1, 2, 4, 7, 0][i % 5])),
    }
}

/// Random patterns; each bit is one with chance 2^-rare.
fn random(seed: u64, rare: u32) -> Patterns {
    let mut r = Random(seed);
    std::array::from_fn(|_| {
        let mut pattern = 0;
        for j in 0..3 {
            pattern |= u8::from(r.below(1 << rare) == 0) << j;
        }
        pattern
    })
}

/// Pattern p turned by k places.
fn turned(p: u8, k: usize) -> u8 {
    (0..k).fold(p, |q, _| (q << 1 | q >> 2) & 7)
}

/// The first of the three turns of a list of patterns.
fn class<const N: usize>(list: [u8; N]) -> [u8; N] {
    let turns = [0, 1, 2].map(|k| list.map(|p| turned(p, k)));
    turns.into_iter().min().expect("three turns")
}

/// A cyclic list of 167 patterns in which all 501 windows (three patterns in a row, turned by 0, 1 or 2) differ.
///
/// Windows up to turning are the edges of a graph whose nodes are pairs of patterns up to turning: 168 edges, without the eight
/// windows that a turn does not change. As many edges leave a node as enter it, so there is a closed walk over all edges; without
/// the loop (1, 1, 1) it has 167. It starts at the pair (0, 0), which a turn does not change, and so its ends meet.
pub fn board(seed: u64) -> Patterns {
    let mut list = vec![0u8, 0];
    for edge in closed_walk(&mut Random(seed)) {
        let pair = [list[list.len() - 2], list[list.len() - 1]];
        let k = (0..3).find(|&k| [edge[0], edge[1]].map(|p| turned(p, k)) == pair);
        list.push(turned(edge[2], k.expect("the walk goes on where it is")));
    }
    let patterns: Patterns = list[..167].try_into().expect("167 patterns");
    assert!(list[167..] == [0, 0] && all_windows_differ(&patterns));
    patterns
}

/// The windows that may follow a pair, one of each class, in random order.
fn exits(pair: [u8; 2], r: &mut Random) -> Vec<[u8; 3]> {
    let mut out: Vec<[u8; 3]> = Vec::new();
    for x in 0..8 {
        let window = [pair[0], pair[1], x];
        let turns = window.iter().any(|&p| p != 0 && p != 7);
        if turns && window != [1, 1, 1] && !out.iter().any(|&w| class(w) == class(window)) {
            out.push(window);
        }
    }
    for i in (1..out.len()).rev() {
        out.swap(i, r.below(i as u64 + 1) as usize);
    }
    out
}

/// A closed walk over all edges (Hierholzer), from the pair (0, 0).
fn closed_walk(r: &mut Random) -> Vec<[u8; 3]> {
    let mut left = BTreeMap::new();
    for i in 0..64 {
        left.entry(class([i / 8, i % 8])).or_insert_with_key(|&pair| exits(pair, r));
    }
    let mut stack = vec![(class([0, 0]), None)];
    let mut walk = Vec::new();
    while let Some(&(pair, edge)) = stack.last() {
        match left.get_mut(&pair).expect("every pair has a place").pop() {
            Some(window) => stack.push((class([window[1], window[2]]), Some(window))),
            None => {
                walk.extend(edge);
                stack.pop();
            }
        }
    }
    walk.reverse();
    walk
}

/// Whether all 501 windows of three patterns in a row, turned by 0, 1 and 2, differ.
pub fn all_windows_differ(p: &Patterns) -> bool {
    let mut seen = BTreeSet::new();
    (0..167).all(|i| (0..3).all(|k| seen.insert([0, 1, 2].map(|j| turned(p[(i + j) % 167], k)))))
}

/// A map's bits in the Rust's packing: bit index row * columns + column, eight to a byte, lowest first.
pub fn packed(p: &Patterns, vertical: bool) -> Vec<u8> {
    let mut bytes = vec![0u8; 63];
    for (i, &pattern) in p.iter().enumerate() {
        for j in 0..3 {
            let index = if vertical { j * 167 + i } else { i * 3 + j };
            bytes[index / 8] |= (pattern >> j & 1) << (index % 8);
        }
    }
    bytes
}
