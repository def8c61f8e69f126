//! exact stored FILE: calls of the exact mode (request C-15) with the answers that are counted (src/count.rs), in the form that `replay` reads; for the flat board and for poles.
//!
//! exact fresh COUNT SEED FILE: COUNT fresh ones.

use oracle::exact::{case, Pool};
use oracle::file::{self, File};
use oracle::{poles, Random};

/// How many calls are stored.
const STORED: usize = 300;

/// So many calls, each with its board where that is another than the one before; the room is just enough, and one time in three longer.
fn put(file: &mut File, r: &mut Random, count: usize) {
    let pool = Pool::new(r);
    let mut before = None;
    let made = (0..).filter_map(|i| case(i, r, &pool).map(|made| (i, made))).take(count).collect::<Vec<_>>();
    for (i, (board, case)) in made {
        let tables = Some((board.h.clone(), board.v.clone()));
        if tables != before {
            file.tables(&board.h, &board.v);
            before = tables;
        }
        let at = oracle::Square { transform: 0, row: 0, col: 0 };
        let (mut call, answer) = poles::counted(file::EXACT, &board, &case, &at);
        if i % 3 == 0 {
            call.room = call.room.map(|n| n + 4);
        }
        file.call(&call, &answer);
    }
}

fn main() {
    let words: Vec<String> = std::env::args().collect();
    let mut file = File::default();
    let (count, seed, path) = match words.iter().map(String::as_str).collect::<Vec<_>>()[1..] {
        ["stored", path] => (STORED, 25, path.to_string()),
        ["fresh", count, seed, path] => (count.parse().expect("a count"), seed.parse().expect("a seed"), path.to_string()),
        _ => panic!("exact stored FILE, or exact fresh COUNT SEED FILE"),
    };
    put(&mut file, &mut Random(seed), count);
    file.write(&path).expect("the file");
}
