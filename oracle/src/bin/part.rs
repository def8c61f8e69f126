//! part stored FILE: calls over a part of a flat board (request C-20) with the answers that are counted (src/count.rs), in the form that `replay` reads.
//!
//! part fresh COUNT SEED FILE: COUNT fresh ones.

use oracle::file::File;
use oracle::{part, patterns, Random};

/// How many calls are stored.
const STORED: usize = 300;

/// So many calls, each with its tables where these are others than those before; the room is just enough, and one time in three longer.
fn put(file: &mut File, r: &mut Random, count: usize) {
    let mut before = None;
    let made = (0..).filter_map(|i| part::case(i, r).map(|made| (i, made))).take(count).collect::<Vec<_>>();
    for (i, (case, part)) in made {
        if before != Some(case.map) {
            let (h, v) = patterns(case.map);
            file.tables(&h, &v);
            before = Some(case.map);
        }
        let (mut call, answer) = part::call(&case, &part);
        if i % 3 == 0 {
            call.room = call.room.map(|n| n + 4);
        }
        file.call(&call, &answer);
    }
}

fn main() {
    let words: Vec<String> = std::env::args().collect();
    let mut file = File::default();
    let (count, seed, path) = match words.iter().map(String::as_str).collect::<Vec<_>>()[1..] {
        ["stored", path] => (STORED, 27, path.to_string()),
        ["fresh", count, seed, path] => (count.parse().expect("a count"), seed.parse().expect("a seed"), path.to_string()),
        _ => panic!("part stored FILE, or part fresh COUNT SEED FILE"),
    };
    put(&mut file, &mut Random(seed), count);
    file.write(&path).expect("the file");
}
