//! rules FILE WRONG: cases of our own for refusals 1 to 9, 16 and 17, whose answers are document 01's and requests C-11's, C-13's and C-15's and not the Rust's; and a file
//! whose answers are wrong on purpose, by which `replay` shows that it reports every word that differs.
//!
//! rules FILE: further cases of that kind, which are not stored; `oracle/compare` makes and replays them each time.

use oracle::count::Board;
use oracle::file::{self, Call, Columns, File, Words};
use oracle::{poles, Case, Edge, Likelihood, Soft, Square};

const NAN: u32 = 0x7fc0_0000;
const INFINITY: u32 = 0x7f80_0000;
const SIGN: u32 = 0x8000_0000;
const ONE: u32 = 0x3f80_0000;
const TOP: u32 = 0x4780_0000; // 65,536

/// Where the view is cut, and what match statistics are asked of.
const AT: Square = Square { transform: 1, row: 17, col: 400 };

/// A clean view that every kind of call takes: few edges, so that a file of many calls stays small.
fn view(squares: i32) -> Case {
    let mut physical = Vec::new();
    for row in 0..squares {
        for col in 0..squares {
            for orientation in 0..2 {
                let e = Edge { row, col, orientation, bit: 0, confidence: 0.75 };
                physical.push(Edge { bit: oracle::true_bit(0, &e, &AT), ..e });
            }
        }
    }
    let soft = Soft { likelihood: Likelihood::Sigmoid, kappa: 12.0, floor: -6.0, margin: 0.0 };
    Case { map: 0, logical: oracle::votes(&physical), physical, transforms: vec![0, 1], limit: 0.3, soft }
}

fn call(kind: u32, case: &Case) -> Call {
    Call::of(kind, case, &oracle::likelihoods(case), &AT)
}

/// A refusal: its number, and the list and the position of the edge that it is about.
type Refusal = (u32, Option<(u32, u32)>);

/// A way to break a call, its name, and the refusal that document 01 and C-11 give it.
type Fault = (Refusal, &'static str, fn(&mut Call));

/// A refusal's words.
fn refused(refusal: Refusal) -> Words {
    match refusal {
        (number, None) => file::refused(number),
        (number, Some((list, position))) => file::refused_at(number, list, position),
    }
}

/// The place of an early refusal in their order.
fn rank(refusal: Refusal) -> usize {
    file::EARLY.iter().position(|&n| n == refusal.0).expect("an early refusal")
}

/// The number of the physical list: match statistics have no other.
fn physical_of(kind: u32) -> u32 {
    if kind == file::STATS {
        file::ONLY
    } else {
        file::PHYSICAL
    }
}

/// The place of a bad likelihood: they belong to the physical list.
fn unlikely(position: u32) -> Option<(u32, u32)> {
    Some((file::PHYSICAL, position))
}

fn short(column: &mut Vec<u32>) {
    column.pop();
}

/// Faults of a list, for whichever list the kind takes, by the list's number.
macro_rules! list_faults {
    ($out:ident, $list:ident, $number:expr) => {
        let at = |position| Some(($number, position));
        $out.extend([
            ((2, None), "rows", (|c: &mut Call| short(&mut c.$list.rows)) as fn(&mut Call)),
            ((2, None), "columns", |c| short(&mut c.$list.cols)),
            ((2, None), "orientations", |c| short(&mut c.$list.orientations)),
            ((2, None), "bits", |c| short(&mut c.$list.bits)),
            ((2, None), "confidences", |c| short(&mut c.$list.confidences)),
            ((2, None), "one more", |c| c.$list.bits.push(0)),
            ((4, at(1)), "row above", |c| c.$list.rows[1] = 1_000_001),
            ((4, at(0)), "row below", |c| c.$list.rows[0] = -1_000_001i32 as u32),
            ((4, at(2)), "column above", |c| c.$list.cols[2] = i32::MAX as u32),
            ((4, at(0)), "column below", |c| c.$list.cols[0] = i32::MIN as u32),
            ((16, at(0)), "orientation 2", |c| c.$list.orientations[0] = 2),
            ((16, at(3)), "orientation 255", |c| c.$list.orientations[3] = 255),
            ((17, at(0)), "bit 2", |c| c.$list.bits[0] = 2),
            ((17, at(1)), "bit 255", |c| c.$list.bits[1] = 255),
            ((5, at(0)), "NaN", |c| c.$list.confidences[0] = NAN),
            ((5, at(1)), "least below 0", |c| c.$list.confidences[1] = SIGN + 1),
            ((5, at(0)), "next above 1", |c| c.$list.confidences[0] = ONE + 1),
            ((5, at(2)), "infinite", |c| c.$list.confidences[2] = INFINITY),
            ((5, at(2)), "minus infinite", |c| c.$list.confidences[2] = SIGN + INFINITY),
        ]);
    };
}

/// Every fault that this kind of call can have.
fn faults(kind: u32) -> Vec<Fault> {
    let mut out: Vec<Fault> = Vec::new();
    if kind != file::STATS {
        list_faults!(out, logical, file::LOGICAL);
        out.extend([
            ((1, None), "u32 room", (|c: &mut Call| c.room[0] = 3005) as fn(&mut Call)),
            ((1, None), "f32 or u64 room", |c| c.room[1] = 3005),
            ((1, None), "no room", |c| c.room = [0; 3]),
            ((3, None), "empty", |c| c.logical = Columns::default()),
            ((7, None), "none", |c| c.transforms.clear()),
            ((7, None), "nine", |c| c.transforms = vec![0; 9]),
            ((7, None), "number 8", |c| c.transforms[1] = 8),
            ((9, None), "limit NaN", |c| c.limit = NAN),
            ((9, None), "limit below 0", |c| c.limit = SIGN + 1),
            ((9, None), "limit above 1", |c| c.limit = ONE + 1),
        ]);
    } else {
        out.extend([
            ((7, None), "number 8", (|c: &mut Call| c.at[0] = 8) as fn(&mut Call)),
            ((9, None), "row 501", |c| c.at[1] = 501),
            ((9, None), "column 501", |c| c.at[2] = 501),
        ]);
    }
    if kind != file::SELECTION {
        list_faults!(out, physical, physical_of(kind));
    }
    if [file::HARD, file::SOFT, file::EXACT].contains(&kind) {
        out.push(((3, None), "empty", |c| {
            c.physical = Columns::default();
            c.matches.clear();
            c.mismatches.clear();
        }));
    }
    if kind == file::SOFT {
        out.extend([
            ((1, None), "i64 room", (|c: &mut Call| c.room[2] = 5009) as fn(&mut Call)),
            ((2, None), "matches", |c| short(&mut c.matches)),
            ((2, None), "mismatches", |c| short(&mut c.mismatches)),
            ((6, unlikely(0)), "match NaN", |c| c.matches[0] = NAN),
            ((6, unlikely(1)), "mismatch NaN", |c| c.mismatches[1] = NAN),
            ((6, unlikely(2)), "infinite", |c| c.matches[2] = INFINITY),
            ((6, unlikely(0)), "minus infinite", |c| c.mismatches[0] = SIGN + INFINITY),
            ((6, unlikely(1)), "next above 65,536", |c| c.matches[1] = TOP + 1),
            ((6, unlikely(1)), "next below -65,536", |c| c.mismatches[1] = SIGN + TOP + 1),
            ((9, None), "margin NaN", |c| c.margin = NAN),
            ((9, None), "margin below 0", |c| c.margin = SIGN + 1),
            ((9, None), "margin above 65,536", |c| c.margin = TOP + 1),
        ]);
    }
    out
}

/// Faults that the stored calls have none of.
fn further_faults(kind: u32) -> Vec<Fault> {
    let mut out: Vec<Fault> = Vec::new();
    if kind == file::STATS {
        out.extend([
            ((7, None), "number 255", (|c: &mut Call| c.at[0] = 255) as fn(&mut Call)),
            ((9, None), "row 65,536", |c| c.at[1] = 65536),
            ((9, None), "row -1", |c| c.at[1] = u32::MAX),
            ((9, None), "column -1", |c| c.at[2] = u32::MAX),
        ]);
    } else {
        out.extend([
            ((7, None), "number 255", (|c: &mut Call| c.transforms[0] = 255) as fn(&mut Call)),
            ((9, None), "limit infinite", |c| c.limit = INFINITY),
            ((9, None), "limit minus infinite", |c| c.limit = SIGN + INFINITY),
            ((9, None), "limit -NaN", |c| c.limit = SIGN + NAN),
        ]);
    }
    if kind == file::SOFT {
        out.extend([
            ((6, unlikely(0)), "match next below -65,536", (|c: &mut Call| c.matches[0] = SIGN + TOP + 1) as fn(&mut Call)),
            ((6, unlikely(0)), "mismatch next above 65,536", |c| c.mismatches[0] = TOP + 1),
            ((6, unlikely(1)), "match minus infinite", |c| c.matches[1] = SIGN + INFINITY),
            ((6, unlikely(1)), "mismatch infinite", |c| c.mismatches[1] = INFINITY),
            ((6, unlikely(2)), "match -NaN", |c| c.matches[2] = SIGN + NAN),
            ((6, unlikely(2)), "mismatch signalling", |c| c.mismatches[2] = INFINITY + 1),
            ((9, None), "margin infinite", |c| c.margin = INFINITY),
            ((9, None), "margin minus infinite", |c| c.margin = SIGN + INFINITY),
        ]);
    }
    out
}

const KINDS: [u32; 5] = [file::HARD, file::SOFT, file::STATS, file::SELECTION, file::EXACT];

/// Each fault alone, then each with the next that comes later in the order of the refusals: the earlier one is given.
fn faulty(file: &mut File, case: &Case) {
    for kind in KINDS {
        let all = faults(kind);
        for (i, (refusal, _, bend)) in all.iter().enumerate() {
            let mut one = call(kind, case);
            bend(&mut one);
            file.call(&one, &refused(*refusal));
            let later = all.iter().cycle().skip(i + 1).take(all.len()).find(|f| rank(f.0) > rank(*refusal) && f.0 .0 != 3);
            if let Some((_, _, also)) = later {
                let mut two = call(kind, case);
                also(&mut two);
                bend(&mut two);
                file.call(&two, &refused(*refusal));
            }
        }
    }
}

/// A way in which one edge of a list is bad, with its number; the list's number says which list of the call.
type Bad = (u32, fn(&mut Call, u32, usize));

fn list_of(call: &mut Call, list: u32) -> &mut Columns {
    if list == file::LOGICAL {
        &mut call.logical
    } else {
        &mut call.physical
    }
}

/// The ways in which an edge is bad, in the order of the refusals.
const BAD: [Bad; 7] = [
    (4, |c, l, i| list_of(c, l).rows[i] = 1_000_001),
    (4, |c, l, i| list_of(c, l).cols[i] = -1_000_001i32 as u32),
    (16, |c, l, i| list_of(c, l).orientations[i] = 2),
    (17, |c, l, i| list_of(c, l).bits[i] = 2),
    (5, |c, l, i| list_of(c, l).confidences[i] = ONE + 1),
    (6, |c, _, i| c.matches[i] = TOP + 1),
    (6, |c, _, i| c.mismatches[i] = SIGN + TOP + 1),
];

/// The lists of a kind of call, and the ways in which an edge of that list can be bad.
fn lists(kind: u32) -> Vec<(u32, &'static [Bad])> {
    match kind {
        file::HARD | file::EXACT => vec![(file::LOGICAL, &BAD[..5]), (file::PHYSICAL, &BAD[..5])],
        file::SOFT => vec![(file::LOGICAL, &BAD[..5]), (file::PHYSICAL, &BAD)],
        file::STATS => vec![(file::ONLY, &BAD[..5])],
        _ => vec![(file::LOGICAL, &BAD[..5])],
    }
}

/// Which edge. Alone at the first, a middle and the last place of each list. Two of one number in one list: the first. One in each list: the logical one, also where
/// it stands later. Two of different numbers, in two lists where there are two: the one that comes first in the order, whichever list and place it stands in.
fn which_edge(file: &mut File, case: &Case) {
    for kind in KINDS {
        for (list, ways) in lists(kind) {
            let last = list_of(&mut call(kind, case), list).rows.len() - 1;
            for (i, (number, bend)) in ways.iter().enumerate() {
                for place in [0, last / 2, last] {
                    let mut one = call(kind, case);
                    bend(&mut one, list, place);
                    file.call(&one, &file::refused_at(*number, list, place as u32));
                }
                // two of one number, by this way and by another that has it
                for (same, also) in ways.iter().filter(|w| w.0 == *number) {
                    let mut two = call(kind, case);
                    also(&mut two, list, last);
                    bend(&mut two, list, 1);
                    file.call(&two, &file::refused_at(*same, list, 1));
                }
                // two numbers
                for (other, others) in lists(kind) {
                    if other == list && lists(kind).len() > 1 {
                        continue;
                    }
                    for (later, also) in others.iter().skip(i + 1).filter(|w| w.0 != *number) {
                        let mut two = call(kind, case);
                        also(&mut two, other, 1);
                        bend(&mut two, list, last);
                        assert!(rank((*later, None)) > rank((*number, None)));
                        file.call(&two, &file::refused_at(*number, list, last as u32));
                    }
                }
            }
        }
    }
    for kind in [file::HARD, file::SOFT, file::EXACT] {
        for (number, bend) in &BAD[..5] {
            let mut two = call(kind, case);
            bend(&mut two, file::PHYSICAL, 1);
            bend(&mut two, file::LOGICAL, 3);
            file.call(&two, &file::refused_at(*number, file::LOGICAL, 3));
        }
    }
}

/// The ends of each range, which are taken: the answer is the Rust's, and of the exact mode the count's.
fn at_the_ends(file: &mut File, case: &Case) {
    let mut soft = call(file::SOFT, case);
    soft.room = [3006, 3006, 5010];
    file.call(&soft, &answer(file::SOFT, case));
    for kind in [file::HARD, file::EXACT] {
        let mut enough = call(kind, case);
        enough.room = [3006, 3006, 0];
        file.call(&enough, &answer(kind, case));
    }
    for (limit, row) in [(0.0, 1_000_000), (-0.0, -1_000_000), (1.0, 1_000_000)] {
        let mut ends = case.clone();
        ends.limit = limit;
        ends.logical[0].row = row;
        ends.physical[1].col = -row;
        ends.physical[2].confidence = -0.0;
        ends.soft = Soft { kappa: 1e6, floor: -65536.0, margin: limit.abs() * 65536.0, ..ends.soft };
        for kind in KINDS {
            file.call(&call(kind, &ends), &answer(kind, &ends));
        }
    }
    let mut none = case.clone();
    none.physical.clear();
    file.call(&call(file::STATS, &none), &answer(file::STATS, &none));
}

fn answer(kind: u32, case: &Case) -> Words {
    oracle::answer(kind, case, &AT)
}

/// Wrong tables, each for every kind of call.
fn wrong_tables(file: &mut File, case: &Case) {
    let (h, v) = oracle::patterns(0);
    let longer = |t: &[u8]| [t, &[1]].concat();
    let mut eight = v.clone();
    eight[166] = 8;
    for (h, v) in [(&h[..], &v[..166]), (&longer(&h)[..], &v[..]), (&h[..], &eight[..]), (&[][..], &v[..])] {
        file.tables(h, v);
        for kind in KINDS {
            file.call(&call(kind, case), &file::refused(8));
        }
    }
}

/// The ways in which the room of a kind of call can be one place too short, of the places that it needs.
fn one_too_few(kind: u32) -> &'static [usize] {
    match kind {
        file::STATS => &[],
        file::SOFT => &[0, 1, 2],
        _ => &[0, 1],
    }
}

/// Request C-13, tables that are taken: each kind of call in room that is just enough (its answer by the count), in room that is one place too short, and the same with
/// pattern 8 in the table's last place. Match statistics at the last row and column, and at a row and a column past them.
fn pole_tables(file: &mut File, case: &Case) {
    let (flat, v) = oracle::patterns(0);
    for length in [4, 5, 166, 169, 500] {
        let board = Board { h: (0..length).map(|i| flat[i % 167]).collect(), v: v.clone() };
        let last = Square { transform: 1, row: board.rows() as i32 - 1, col: 500 };
        let mut eight = board.h.clone();
        eight[length - 1] = 8;
        file.tables(&board.h, &v);
        for kind in KINDS {
            let (call, answer) = poles::counted(kind, &board, case, &last);
            file.call(&call, &answer);
            for &at in one_too_few(kind) {
                let mut short = call.clone();
                short.room[at] -= 1;
                file.call(&short, &file::refused(1));
            }
        }
        for at in [[1, last.row as u32 + 1, 0], [1, 0, 501]] {
            let mut past = call(file::STATS, case);
            past.at = at;
            file.call(&past, &file::refused(9));
        }
        file.tables(&eight, &v);
        for kind in KINDS {
            let (mut call, _) = poles::counted(kind, &board, case, &last);
            file.call(&call, &file::refused(8));
            if kind != file::STATS {
                call.room[1] -= 1;
                file.call(&call, &file::refused(1));
            }
        }
    }
}

/// Request C-13, lengths that no pole has: refused with 8 in the room of the smallest pole, and with 1 in less.
fn no_poles(file: &mut File, case: &Case) {
    let (flat, v) = oracle::patterns(0);
    for length in [0, 1, 2, 3, 6, 165, 168, 498, 501, 502, 999] {
        let h: Vec<u8> = (0..length).map(|i| flat[i % 167]).collect();
        file.tables(&h, &v);
        for kind in KINDS {
            let mut call = call(kind, case);
            call.room = poles::room(4);
            file.call(&call, &file::refused(8));
            for &at in one_too_few(kind) {
                let mut short = call.clone();
                short.room[at] -= 1;
                file.call(&short, &file::refused(1));
            }
        }
    }
}

/// A list of 8,193 edges is refused with 3.
fn too_long(file: &mut File, case: &Case) {
    let mut long = case.clone();
    long.logical = (0..8193).map(|i| case.physical[i % case.physical.len()]).collect();
    file.call(&call(file::HARD, &long), &file::refused(3));
}

/// Each further fault alone, and beside every other fault: the one that comes first in the order of the refusals is given.
fn further_faulty(file: &mut File, case: &Case) {
    for kind in KINDS {
        for (refusal, _, bend) in further_faults(kind) {
            let mut one = call(kind, case);
            bend(&mut one);
            file.call(&one, &refused(refusal));
            for (other, _, also) in faults(kind) {
                if other.0 != refusal.0 {
                    let mut two = call(kind, case);
                    bend(&mut two);
                    also(&mut two);
                    file.call(&two, &refused(if rank(other) < rank(refusal) { other } else { refusal }));
                }
            }
        }
    }
}

/// Wrong tables that the stored calls have none of, each for every kind of call.
fn further_tables(file: &mut File, case: &Case) {
    let (h, v) = oracle::patterns(0);
    let with = |t: &[u8], at: usize, pattern: u8| {
        let mut t = t.to_vec();
        t[at] = pattern;
        t
    };
    let longer = [&v[..], &[0]].concat();
    let tables = [
        (with(&h, 0, 8), v.clone()),
        (with(&h, 166, 8), v.clone()),
        (with(&h, 83, 255), v.clone()),
        (h.clone(), with(&v, 0, 8)),
        (h.clone(), with(&v, 83, 255)),
        (h.clone(), longer),
        (h.clone(), Vec::new()),
    ];
    for (h, v) in tables {
        file.tables(&h, &v);
        for kind in KINDS {
            file.call(&call(kind, case), &file::refused(8));
        }
    }
}

/// Soft decode of the case with one pair of likelihoods for edges of even place and one for the others, by the Rust.
fn with_likelihoods(case: &Case, even: (f32, f32), odd: (f32, f32)) -> Case {
    let pairs: Vec<(f32, f32)> = (0..case.physical.len()).map(|i| if i % 2 == 0 { even } else { odd }).collect();
    oracle::list_likelihoods(&pairs);
    Case { soft: Soft { likelihood: Likelihood::Listed, kappa: 1.0, floor: f32::NEG_INFINITY, margin: 0.0 }, ..case.clone() }
}

/// Ends of ranges that the stored calls have none of, which are taken: the answer is the Rust's. The corners of the board under every transform; likelihoods
/// of 65,536 in size, of few edges and of 8,192 (a sum of 2^53), and edges of one confidence that differ in them.
fn further_ends(file: &mut File, case: &Case) {
    for transform in 0..8 {
        for (row, col) in [(0, 0), (0, 500), (500, 0), (500, 500)] {
            let at = Square { transform, row, col };
            let call = Call::of(file::STATS, case, &[], &at);
            file.call(&call, &oracle::answer(file::STATS, case, &at));
        }
    }
    let mut long = case.clone();
    long.physical = (0..8192).map(|i| case.physical[i % case.physical.len()]).collect();
    const T: f32 = 65536.0;
    for case in [case, &long] {
        for (even, odd) in [
            ((T, -T), (T, -T)),
            ((-T, T), (-T, T)),
            ((T, T), (T, T)),
            ((-T, -T), (-T, -T)),
            ((T, -T), (-0.125, -2.5)),
            ((-0.125, -2.5), (-0.25, -5.0)),
        ] {
            let case = with_likelihoods(case, even, odd);
            file.call(&call(file::SOFT, &case), &answer(file::SOFT, &case));
        }
    }
}

/// The further calls.
fn further(path: &str) {
    let (h, v) = oracle::patterns(0);
    let mut file = File::default();
    file.tables(&h, &v);
    further_faulty(&mut file, &view(2));
    further_ends(&mut file, &view(6));
    further_tables(&mut file, &view(2));
    file.write(path).expect("the file");
}

/// One call of each decoder that is found: every word of its answer changed in turn, then one bit of its list. Then a refusal about an edge, with another list, with another
/// position and without its place; and one about no edge, with a place.
fn wrong(file: &mut File) {
    let case = view(6);
    for kind in [file::HARD, file::SOFT, file::EXACT] {
        let right = answer(kind, &case);
        assert_eq!(right[0], 0, "a case that is found");
        for i in 0..right.len() {
            let mut words = right;
            words[i] ^= 1;
            file.call(&call(kind, &case), &words);
        }
        let mut turned = call(kind, &case);
        turned.physical.bits[0] ^= 1;
        turned.logical.bits[0] ^= 1;
        file.call(&turned, &right);
    }
    for (kind, list) in
        [(file::HARD, file::LOGICAL), (file::SOFT, file::PHYSICAL), (file::STATS, file::ONLY), (file::EXACT, file::PHYSICAL)]
    {
        let mut bad = call(kind, &case);
        list_of(&mut bad, list).bits[5] = 2;
        file.call(&bad, &file::refused_at(17, list % 3 + 1, 5));
        file.call(&bad, &file::refused_at(17, list, 6));
        file.call(&bad, &file::refused(17));
        let mut table = call(kind, &case);
        (table.transforms, table.at[0]) = (vec![8], 8);
        file.call(&table, &file::refused_at(7, list, 0));
    }
}

fn main() {
    let words: Vec<String> = std::env::args().collect();
    if words.len() == 2 {
        return further(&words[1]);
    }
    assert_eq!(words.len(), 3, "rules RULES WRONG, or rules FURTHER");
    let case = view(2);
    let (h, v) = oracle::patterns(0);
    let mut rules = File::default();
    rules.tables(&h, &v);
    faulty(&mut rules, &case);
    which_edge(&mut rules, &case);
    at_the_ends(&mut rules, &view(6));
    too_long(&mut rules, &case);
    wrong_tables(&mut rules, &case);
    pole_tables(&mut rules, &case);
    no_poles(&mut rules, &case);
    rules.write(&words[1]).expect("the file");
    let mut bent = File::default();
    bent.tables(&h, &v);
    wrong(&mut bent);
    bent.write(&words[2]).expect("the file");
}
