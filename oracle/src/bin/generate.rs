//! generate KIND COUNT SEED FILE: COUNT fresh cases with the Rust's answers, in the form that `replay` reads.
//!
//! KIND is `fresh` (for a long comparison), `sample` (for the stored sample), `pairs` (class pairs around 1,024 and ties by rounding) or `rare`
//! (what the stored sample has none of; one fresh case in twenty is such a one).

use oracle::cases::{self, Pairs};
use oracle::file::{self, Call, Words};
use oracle::{Case, Random, Square};

fn around_1024(r: &mut Random, pairs: &[Pairs]) -> Option<Case> {
    let pool = &pairs[r.below(pairs.len() as u64) as usize];
    let product = [1023, 1024, 1024, 1025, 1025, 1026][r.below(6) as usize];
    pool.case(r, product)
}

/// Case i: every kind of case comes in turn, so that a short run has them all. The sample has a few large ones in fixed places and is
/// small otherwise, so that it can be stored.
fn case(i: usize, r: &mut Random, pairs: &[Pairs], sample: bool) -> Option<Case> {
    match (i % 20, sample, i) {
        (_, true, 101) => Some(cases::view(r, 48, false)),
        (_, true, 201) => Some(cases::view(r, 24, false)),
        (_, true, 301) => Some(cases::long(r, 8192)),
        (_, false, 7) => {
            let fewer = r.below(2) * r.below(6000);
            Some(cases::long(r, 8192 - fewer as usize))
        }
        (0 | 1, ..) => Some(cases::hostile(r)),
        (2, ..) => Some(cases::refused(r)),
        (3, ..) if i % 40 == 3 => Some(cases::near_tie(r)),
        (4, false, _) if i % 60 == 24 => Some(cases::refused(r)),
        (4, false, _) if i % 60 == 44 => Some(cases::near_tie(r)),
        (4, ..) => around_1024(r, pairs),
        _ => {
            let size = cases::squares(r);
            Some(cases::view(r, if sample { size.min(9) } else { size }, !sample))
        }
    }
}

/// What the stored sample has none of, in turn: lists of five to seven transforms, likelihoods of each edge's own, match statistics where the window was cut
/// and of an empty list. With the kind of call, and the placing for match statistics.
fn rare(turn: usize, r: &mut Random) -> (u32, Case, Square) {
    let size = cases::squares(r);
    let (mut case, at) = cases::placed_view(r, size, true);
    let kind = match turn % 6 {
        0 | 1 => {
            cases::five_to_seven(r, &mut case.transforms);
            [file::HARD, file::SOFT, file::SELECTION][r.below(3) as usize]
        }
        2 | 3 => {
            cases::own_likelihoods(r, &mut case);
            file::SOFT
        }
        4 => file::STATS,
        _ => {
            case.physical.clear();
            file::STATS
        }
    };
    (kind, case, at)
}

/// A soft margin that is exactly the found one, or the next float above it, which is refused.
fn at_the_margin(case: &mut Case, r: &mut Random) {
    if let (true, Ok(f)) = (r.once_in(3), oracle::soft(case)) {
        case.soft.margin = f32::from_bits(f.margin.to_bits() + r.below(2) as u32).min(65536.0);
    }
}

/// The case's maps, its call, and the Rust's answer.
fn answered(kind: u32, case: &Case, at: &Square) -> (usize, Call, Words) {
    let call = Call::of(kind, case, &oracle::likelihoods(case), at);
    (case.map, call, oracle::answer(kind, case, at))
}

fn main() {
    let words: Vec<String> = std::env::args().collect();
    assert_eq!(words.len(), 5, "generate KIND COUNT SEED FILE");
    assert!(["fresh", "sample", "pairs", "rare"].contains(&words[1].as_str()), "KIND is fresh, sample, pairs or rare");
    let sample = words[1] == "sample";
    let count: usize = words[2].parse().expect("a count");
    let seed: u64 = words[3].parse().expect("a seed");
    let mut r = Random(seed);
    let pairs: Vec<Pairs> = [0, 3, 4].iter().map(|&map| Pairs::new(&mut r, map)).collect();
    let mut made: Vec<(usize, Call, Words)> = Vec::new();
    for i in 0.. {
        if made.len() == count {
            break;
        }
        if words[1] == "rare" || words[1] == "fresh" && i % 20 == 19 {
            let turn = if words[1] == "rare" { i } else { i / 20 };
            let (kind, mut case, at) = rare(turn, &mut r);
            if case.logical.is_empty() || case.physical.is_empty() && kind != file::STATS {
                continue;
            }
            if kind == file::SOFT {
                at_the_margin(&mut case, &mut r);
            }
            made.push(answered(kind, &case, &at));
            continue;
        }
        let made_now = match words[1].as_str() {
            "pairs" if i % 4 == 0 => Some(cases::near_tie(&mut r)),
            "pairs" => around_1024(&mut r, &pairs),
            _ => case(i, &mut r, &pairs, sample),
        };
        let Some(mut case) = made_now else { continue };
        if case.logical.is_empty() || case.physical.is_empty() {
            continue;
        }
        let kind = match r.below(20) {
            0..=8 => file::HARD,
            9..=16 => file::SOFT,
            17 => file::STATS,
            _ => file::SELECTION,
        };
        if kind == file::SOFT {
            at_the_margin(&mut case, &mut r);
        }
        let at = cases::placing(&mut r);
        made.push(answered(kind, &case, &at));
    }
    oracle::write(made, &words[4]).expect("the file");
}
