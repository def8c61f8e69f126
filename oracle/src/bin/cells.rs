//! cells stored FILE WRONG: lists with the cells of the given files' class tables, for each of the lengths that are tried, in the form that `poletables` reads;
//! and a file whose cells are wrong on purpose, by which `poletables` shows that it reports each kind of cell.
//!
//! cells fresh COUNT SEED FILE: COUNT fresh ones.

use oracle::file::File;
use oracle::{cases, poles, Case, Random};

/// A case of whose physical list the tables are built: windows, hostile lists, cells whose weights differ in the last bit, and half of the time likelihoods of each
/// edge's own. The lists of a stored file are short.
fn case(r: &mut Random, i: usize, stored: bool) -> Case {
    let mut case = match i % 8 {
        0 | 1 => cases::hostile(r),
        2 => cases::near_tie(r),
        3 if !stored && i % 400 == 3 => cases::long(r, 8192),
        _ => {
            let size = if stored { 4 + r.below(2) as i32 } else { cases::squares(r) };
            cases::view(r, size, false)
        }
    };
    if r.once_in(2) && !case.physical.is_empty() {
        cases::own_likelihoods(r, &mut case);
    }
    case
}

/// The case's cells for a pole of that length, under a transform.
fn put(file: &mut File, r: &mut Random, case: &Case, length: usize) {
    let (h, t) = (poles::table(r, length), r.below(8) as u8);
    let likelihoods = oracle::likelihoods(case);
    file.cells(&h, &oracle::patterns(case.map).1, &case.physical, &likelihoods, t, &oracle::cells(case, &h, t));
}

/// One list for the smallest pole: right, then with a cell of each kind and of each side another, then with the next transform's cells, then with a bit turned; and for a
/// table that is no pole's.
fn wrong(file: &mut File, r: &mut Random) {
    let mut case = cases::view(r, 4, false);
    case.map = 0;
    cases::own_likelihoods(r, &mut case);
    let v = oracle::patterns(case.map).1;
    let likelihoods = oracle::likelihoods(&case);
    let h = [1, 6, 3, 4];
    let right = oracle::cells(&case, &h, 1);
    let bent: [fn(&mut oracle::Cells); 7] = [
        |_| (),
        |c| c.counts[0] += 1,
        |c| c.counts[512] += 1,
        |c| c.weights[11] = f32::from_bits(c.weights[11].to_bits() ^ 1),
        |c| c.weights[12] = f32::from_bits(c.weights[12].to_bits() ^ 1),
        |c| c.sums[5] ^= 1,
        |c| c.sums[300] = -c.sums[300],
    ];
    for bend in bent {
        let mut cells = right.clone();
        bend(&mut cells);
        file.cells(&h, &v, &case.physical, &likelihoods, 1, &cells);
    }
    file.cells(&h, &v, &case.physical, &likelihoods, 1, &oracle::cells(&case, &h, 2));
    let mut turned = case.physical.clone();
    turned[3].bit ^= 1;
    file.cells(&h, &v, &turned, &likelihoods, 1, &right);
    file.cells(&h[..3], &v, &case.physical, &likelihoods, 1, &oracle::cells(&case, &h[..3], 1));
}

fn main() {
    let words: Vec<String> = std::env::args().collect();
    let mut file = File::default();
    match words.iter().map(String::as_str).collect::<Vec<_>>()[1..] {
        ["stored", path, also] => {
            let mut r = Random(13);
            for i in 0..5 {
                for length in poles::LENGTHS {
                    // of the longer tables few, since a file holds every cell
                    if i < 2 || length < 100 {
                        let case = case(&mut r, i + length, true);
                        put(&mut file, &mut r, &case, length);
                    }
                }
            }
            file.write(path).expect("the file");
            let mut bent = File::default();
            wrong(&mut bent, &mut r);
            bent.write(also).expect("the file");
        }
        ["fresh", count, seed, path] => {
            let mut r = Random(seed.parse().expect("a seed"));
            for i in 0..count.parse().expect("a count") {
                let case = case(&mut r, i, false);
                let length = poles::length(&mut r);
                put(&mut file, &mut r, &case, length);
            }
            file.write(path).expect("the file");
        }
        _ => panic!("cells stored FILE WRONG, or cells fresh COUNT SEED FILE"),
    }
}
