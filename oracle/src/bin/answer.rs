//! answer IN OUT [votes]: reads the cases of a file and writes them again with the Rust's answers; with `votes` also with the logical list
//! that the Rust's consensus votes from the physical one. Calls that are stored with an early refusal (1 to 9, 16 or 17) are no calls of the Rust's,
//! and stay as they are. Calls of the exact mode are no calls of the Rust's either, and are counted on the tables that the file gives. Prints how many answers are not the ones
//! that were stored.

use oracle::count::{self, Board};
use oracle::file::{self, Call, Columns, Entry, File, Words};
use oracle::{Case, Likelihood, Soft, Square};

/// The case that a call has with a pair of maps, and its placing.
fn case_of(map: usize, call: &Call) -> (Case, Square) {
    let margin = f32::from_bits(call.margin);
    let case = Case {
        map,
        logical: call.logical.edges(),
        physical: call.physical.edges(),
        transforms: call.transforms.iter().map(|&t| t as u8).collect(),
        limit: f32::from_bits(call.limit),
        soft: Soft { likelihood: Likelihood::Listed, kappa: 1.0, floor: f32::NEG_INFINITY, margin },
    };
    (case, Square { transform: call.at[0], row: call.at[1] as i32, col: call.at[2] as i32 })
}

/// The Rust's answer to a call with that pair of maps.
fn answer(map: usize, call: &Call) -> Words {
    let pairs = call.matches.iter().zip(&call.mismatches).map(|(&m, &n)| (f32::from_bits(m), f32::from_bits(n)));
    oracle::list_likelihoods(&pairs.collect::<Vec<(f32, f32)>>());
    let (case, at) = case_of(map, call);
    oracle::answer(call.kind, &case, &at)
}

/// What is counted of a call of the exact mode on a board.
fn counted(board: &Board, call: &Call) -> Words {
    let (Case { logical, physical, transforms, limit, soft, .. }, at) = case_of(0, call);
    let asked = count::Call {
        board,
        logical: &logical,
        physical: &physical,
        likelihoods: &[],
        transforms: &transforms,
        limit,
        soft: &soft,
    };
    count::answer(call.kind, &asked, &at)
}

fn main() {
    let words: Vec<String> = std::env::args().collect();
    assert!(words.len() > 2, "answer IN OUT [votes]");
    let mut out = File::default();
    let mut map = None;
    let mut board = Board { h: Vec::new(), v: Vec::new() };
    let (mut calls, mut changed) = (0, 0);
    let votes = words.get(3).is_some_and(|w| w == "votes");
    for entry in file::read(&words[1]).expect("a file of cases") {
        match entry {
            Entry::Tables(h, v) => {
                map = (0..oracle::maps::PAIRS).find(|&n| oracle::patterns(n) == (h.clone(), v.clone()));
                out.tables(&h, &v);
                board = Board { h, v };
            }
            Entry::Call(call, stored) if file::EARLY.contains(&stored[0]) => out.call(&call, &stored),
            Entry::Call(mut call, stored) => {
                if votes {
                    call.logical = Columns::of(&oracle::votes(&call.physical.edges()));
                }
                let words = match call.kind {
                    file::EXACT => counted(&board, &call),
                    _ => answer(map.expect("maps that the Rust was compiled with"), &call),
                };
                calls += 1;
                changed += u32::from(words != stored);
                out.call(&call, &words);
            }
        }
    }
    out.write(&words[2]).expect("the file");
    println!("{changed} of {calls} answers changed");
}
