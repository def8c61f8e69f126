//! A board and windows cut from it, by the rules document's words and by none of the library's code.

use crate::{Edge, EdgeList, Patterns, Square};

/// The eight matrices in the order of their numbers; a transform maps (column, row).
const MATRICES: [[[i32; 2]; 2]; 8] = [
    [[1, 0], [0, 1]],
    [[0, -1], [1, 0]],
    [[-1, 0], [0, -1]],
    [[0, 1], [-1, 0]],
    [[-1, 0], [0, 1]],
    [[0, 1], [1, 0]],
    [[1, 0], [0, -1]],
    [[0, -1], [-1, 0]],
];

pub const ALL_TRANSFORMS: [u8; 8] = [0, 1, 2, 3, 4, 5, 6, 7];

pub struct Board {
    pub horizontal: Vec<u8>,
    pub vertical: Vec<u8>,
}

impl Board {
    /// The flat board: two tables of three-bit patterns from a small generator; any windows of some size differ.
    pub fn new() -> Board {
        Board::pole(167)
    }

    /// The same with a horizontal table of another length.
    pub fn pole(length: usize) -> Board {
        let mut state = 12345u32;
        let mut next = || {
            state = state.wrapping_mul(1664525).wrapping_add(1013904223);
            (state >> 24) as u8 % 8
        };
        let horizontal = (0..length).map(|_| next()).collect();
        let vertical = (0..167).map(|_| next()).collect();
        Board { horizontal, vertical }
    }

    pub fn patterns(&self) -> Patterns<'_> {
        Patterns { horizontal: &self.horizontal, vertical: &self.vertical }
    }

    /// The bit that the board predicts for an edge under a transform at an origin.
    pub fn predicted(&self, square: Square, row: i32, col: i32, orientation: u8) -> u8 {
        let m = MATRICES[square.transform as usize];
        let map = |x: i32, y: i32| (m[0][0] * x + m[0][1] * y, m[1][0] * x + m[1][1] * y);
        let a = map(col, row);
        let b = if orientation == 0 { map(col + 1, row) } else { map(col, row + 1) };
        let at = |n: i32, origin: u32, period: usize| (n + origin as i32).rem_euclid(period as i32) as usize;
        if a.1 == b.1 {
            let (r, c) = (a.1 - 1, a.0.min(b.0));
            self.horizontal[at(r, square.row, self.horizontal.len())] >> at(c, square.col, 3) & 1
        } else {
            let (r, c) = (a.1.min(b.1), a.0 - 1);
            self.vertical[at(c, square.col, self.vertical.len())] >> at(r, square.row, 3) & 1
        }
    }

    /// The edges between n by n corners as a clean picture shows them at a square, each with a confidence of its own.
    pub fn window(&self, square: Square, n: i32) -> EdgeList {
        let mut list = EdgeList::new();
        for orientation in 0..2u8 {
            let (rows, cols) = if orientation == 0 { (n, n - 1) } else { (n - 1, n) };
            for row in 0..rows {
                for col in 0..cols {
                    let bit = self.predicted(square, row, col, orientation);
                    let confidence = 0.5 + (row * 7 + col * 3) as f32 % 8.0 / 16.0;
                    list.push(Edge { row, col, orientation, bit, confidence });
                }
            }
        }
        list
    }
}
