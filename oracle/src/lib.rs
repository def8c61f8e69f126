//! The given Rust decoders, unchanged, on cases of plain numbers.
//!
//! `hard`, `soft`, `selection`, `stats` and `votes` run one case with the pair of maps that it names. A refusal is its number
//! (`EITHER` where the Rust's own steps do not tell 13 from 15). `Ready` is for timing: a case of maps 0 in the given files' own types.

pub mod cases;
pub mod count;
pub mod exact;
pub mod file;
pub mod poles;

pub use m0::{list_likelihoods, Ready};
pub use plain::*;

/// Calls the same function of the compilation that has the case's maps.
macro_rules! with_maps {
    ($map:expr, $m:ident => $call:expr) => {
        match $map {
            0 => {
                use m0 as $m;
                $call
            }
            1 => {
                use m1 as $m;
                $call
            }
            2 => {
                use m2 as $m;
                $call
            }
            3 => {
                use m3 as $m;
                $call
            }
            4 => {
                use m4 as $m;
                $call
            }
            _ => {
                use m5 as $m;
                $call
            }
        }
    };
}

/// The answer that is counted, with the case's maps as the board.
fn counted(kind: u32, case: &Case, at: &Square) -> file::Words {
    let (h, v) = patterns(case.map);
    poles::counted(kind, &count::Board { h, v }, case, at).1
}

/// One list located (request C-16): what the Rust selects, then the gate. The runner-up's place, which the Rust has by another rule, is counted.
fn located(case: &Case, at: &Square) -> file::Words {
    match selection(case) {
        Err(number) => file::refused(number),
        Ok(s) if !count::passes(case.logical.len(), s.hits.into(), s.runner_hits.into()) => file::refused(13),
        Ok(s) => {
            let mut words = counted(file::LOCATED, case, at);
            words[..5].copy_from_slice(&[0, s.square.transform, s.square.row as u32, s.square.col as u32, s.hits]);
            words[10] = s.runner_hits;
            words
        }
    }
}

/// The answer to a call of that kind, as the file's words; match statistics at the placing. The exact mode, which the Rust has not, is counted.
pub fn answer(kind: u32, case: &Case, at: &Square) -> file::Words {
    let decoded = |r: Result<Found, u32>| r.map_or_else(file::refused, |f| file::found(&f));
    match kind {
        file::HARD => decoded(hard(case)),
        file::SOFT => decoded(soft(case)),
        file::STATS => file::counted(&stats(case, at)),
        file::EXACT => counted(kind, case, at),
        file::LOCATED => located(case, at),
        _ => selection(case).map_or_else(file::refused, |s| file::selected(&s)),
    }
}

/// Hard decode.
pub fn hard(case: &Case) -> Result<Found, u32> {
    with_maps!(case.map, m => m::Ready::new(case).hard_answer())
}

/// Soft decode.
pub fn soft(case: &Case) -> Result<Found, u32> {
    with_maps!(case.map, m => m::Ready::new(case).soft_answer())
}

/// Hard selection on the logical list before the gate.
pub fn selection(case: &Case) -> Result<Selected, u32> {
    with_maps!(case.map, m => m::Ready::new(case).selection())
}

/// Match statistics of the physical list at a placing.
pub fn stats(case: &Case, at: &Square) -> Stats {
    with_maps!(case.map, m => m::Ready::new(case).stats(at))
}

/// The cells of the physical list's class tables under a transform, over a pole's horizontal table and the vertical one of the case's maps.
pub fn cells(case: &Case, h: &[u8], transform: u8) -> Cells {
    with_maps!(case.map, m => m::Ready::new(case).cells(h, transform))
}

/// The same over both tables of the case's maps: the flat board.
pub fn flat_cells(case: &Case, transform: u8) -> Cells {
    with_maps!(case.map, m => m::Ready::new(case).flat_cells(transform))
}

/// Match and mismatch likelihood of each physical edge.
pub fn likelihoods(case: &Case) -> Vec<(f32, f32)> {
    with_maps!(case.map, m => m::Ready::new(case).likelihoods())
}

/// The voted classes of a list.
pub fn votes(edges: &[Edge]) -> Vec<Edge> {
    m0::votes(edges)
}

/// A file of calls with their answers, each with the number of its maps: by maps, so that each pair of tables stands once.
pub fn write(mut made: Vec<(usize, file::Call, file::Words)>, path: &str) -> std::io::Result<()> {
    made.sort_by_key(|m| m.0);
    let mut file = file::File::default();
    let mut before = usize::MAX;
    for (map, call, answer) in made {
        if map != before {
            let (h, v) = patterns(map);
            file.tables(&h, &v);
            before = map;
        }
        file.call(&call, &answer);
    }
    file.write(path)
}

/// The two pattern tables, horizontal then vertical.
pub fn patterns(map: usize) -> (Vec<u8>, Vec<u8>) {
    with_maps!(map, m => m::patterns())
}

/// The bit that makes an edge a hit at a placing.
pub fn true_bit(map: usize, e: &Edge, at: &Square) -> u8 {
    with_maps!(map, m => m::true_bit(e, at))
}

#[cfg(test)]
mod tests {
    /// The stated property of a board's maps, by the given test, and the patterns as we made them.
    #[test]
    fn maps() {
        assert!(m0::windows_differ() && m1::windows_differ() && !m3::windows_differ());
        for map in 1..plain::maps::PAIRS {
            let (h, v) = plain::maps::pair(map);
            assert_eq!(super::patterns(map), (h.to_vec(), v.to_vec()));
        }
    }

    /// Likelihoods that are listed come to each edge in its turn, for every transform from the first edge on: edges of one confidence may differ in them, and the
    /// score of a clean window is the sum of its match likelihoods.
    #[test]
    fn listed_likelihoods_are_each_edge_s_own() {
        use super::*;
        let at = Square { transform: 2, row: 17, col: 400 };
        let mut physical = Vec::new();
        for place in 0..128u8 {
            let e =
                Edge { row: (place / 16).into(), col: (place / 2 % 8).into(), orientation: place % 2, bit: 0, confidence: 0.75 };
            physical.push(Edge { bit: true_bit(0, &e, &at), ..e });
        }
        let pairs: Vec<(f32, f32)> = (0..128).map(|i| (-(i as f32) / 1024.0, -4.0 - i as f32 / 64.0)).collect();
        list_likelihoods(&pairs);
        let soft = Soft { likelihood: Likelihood::Listed, kappa: 1.0, floor: f32::NEG_INFINITY, margin: 0.0 };
        let case = Case { map: 0, logical: physical.clone(), physical, transforms: vec![0, 1, 2, 3, 4], limit: 0.3, soft };
        assert_eq!(likelihoods(&case), pairs);
        let found = super::soft(&case).expect("a clean window is found");
        assert_eq!((found.square, found.best), (at, -(127.0 * 128.0 / 2.0) / 1024.0));
    }
}
