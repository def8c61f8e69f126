//! poles stored FILE: calls on poles with the answers that document 01 has by the count (src/count.rs), in the form that `replay` reads; for each of the lengths that are
//! tried but the flat board's.
//!
//! poles fresh COUNT SEED FILE: COUNT fresh ones, each with tables of its own.

use oracle::cases::Pairs;
use oracle::count::Board;
use oracle::file::{self, File};
use oracle::{poles, Random};

/// Boards of a length, and calls with each: of views, and around 1,024 class pairs.
const BOARDS: usize = 2;
const CALLS: usize = 8;
const PAIRS: usize = 6;

/// A call whose optimal class pairs are about 1,024 in number, where the board has lists for it: as hard decode or as a selection, by which the winner shows.
fn put_pairs(file: &mut File, r: &mut Random, board: &Board, pairs: &Pairs) -> bool {
    let product = [1023, 1024, 1024, 1025, 1025, 1026][r.below(6) as usize];
    let Some(case) = pairs.case(r, product) else { return false };
    let kind = [file::HARD, file::SELECTION][r.below(2) as usize];
    let (call, answer) = poles::counted(kind, board, &case, &poles::placing(r, board));
    file.call(&call, &answer);
    true
}

fn put(file: &mut File, r: &mut Random, board: &Board, squares: i32) {
    let (case, at) = loop {
        let (case, at) = poles::view(r, board, squares);
        if !case.logical.is_empty() && !case.physical.is_empty() {
            break (case, at);
        }
    };
    let kind = poles::kind(r);
    // match statistics half of the time elsewhere than where the window was cut
    let at = if r.once_in(2) { poles::placing(r, board) } else { at };
    let (mut call, answer) = poles::counted(kind, board, &case, &at);
    if r.once_in(3) {
        call.room = call.room.map(|n| n + 4);
    }
    file.call(&call, &answer);
}

fn main() {
    let words: Vec<String> = std::env::args().collect();
    let mut file = File::default();
    let path = match words.iter().map(String::as_str).collect::<Vec<_>>()[1..] {
        ["stored", path] => {
            let mut r = Random(24);
            for length in poles::LENGTHS.into_iter().filter(|&l| l != 167) {
                for i in 0..BOARDS {
                    let board = if i == 0 { poles::good_board(&mut r, length) } else { poles::board(&mut r, length) };
                    file.tables(&board.h, &board.v);
                    for _ in 0..CALLS {
                        let squares = [4, 6, 7, 8][r.below(4) as usize];
                        put(&mut file, &mut r, &board, squares);
                    }
                    let pairs = Pairs::on(&mut r, &board);
                    for _ in 0..PAIRS {
                        put_pairs(&mut file, &mut r, &board, &pairs);
                    }
                }
            }
            path.to_string()
        }
        ["fresh", count, seed, path] => {
            let mut r = Random(seed.parse().expect("a seed"));
            for i in 0..count.parse().expect("a count") {
                let length = poles::length(&mut r);
                let board = poles::board(&mut r, length);
                file.tables(&board.h, &board.v);
                let squares = 3 + r.below(8) as i32;
                let pairs = (i % 8 == 0).then(|| Pairs::on(&mut r, &board));
                if !pairs.is_some_and(|pairs| put_pairs(&mut file, &mut r, &board, &pairs)) {
                    put(&mut file, &mut r, &board, squares);
                }
            }
            path.to_string()
        }
        _ => panic!("poles stored FILE, or poles fresh COUNT SEED FILE"),
    };
    file.write(&path).expect("the file");
}
