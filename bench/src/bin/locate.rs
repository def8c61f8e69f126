//! One list without tables (request C-16) beside the table engine, both through the static library. Each is asked the same windows, and must find the same square, hits and runner-up hits.
//!
//! The table engine's time is half of hard decode's with the window as both lists, since hard decode selects on two lists; the gate, which comes once, is in both. The room lent to
//! hard decode is never cleared by this driver.

use bench::{calls_of, columns, run_of, window, RUNS};
use samburext::{decode_hard, locate, Decoded, EdgeList, Located, Patterns, Refused, Room};

const TRANSFORMS: [u8; 4] = [0, 1, 2, 3];
const LIMIT: f32 = 0.3;

/// A window on a board, for both engines.
struct Asked {
    list: EdgeList,
    horizontal: Vec<u8>,
    vertical: Vec<u8>,
}

impl Asked {
    fn new(squares: i32) -> Asked {
        let (horizontal, vertical) = oracle::patterns(0);
        Asked { list: columns(&window(squares, squares as u64)), horizontal, vertical }
    }

    fn patterns(&self) -> Patterns<'_> {
        Patterns { horizontal: &self.horizontal, vertical: &self.vertical }
    }

    fn without(&self) -> Result<Located, Refused> {
        locate(&self.list, &TRANSFORMS, self.patterns(), LIMIT)
    }

    fn with(&self, room: &mut Room) -> Result<Decoded, Refused> {
        decode_hard(&self.list, &self.list, &TRANSFORMS, self.patterns(), LIMIT, room)
    }
}

/// The least times of one call, without tables and with them. The runs of both alternate.
fn least(asked: &Asked, room: &mut Room) -> (f64, f64) {
    let (few, many) = (calls_of(|| asked.without()), calls_of(|| asked.with(room)));
    let (mut without, mut with) = (f64::INFINITY, f64::INFINITY);
    for _ in 0..RUNS {
        without = without.min(run_of(few, || asked.without()));
        with = with.min(run_of(many, || asked.with(room)));
    }
    (without, with)
}

fn main() {
    let mut room = Room::new();
    println!("least of {RUNS} runs, processor time; 4 transforms; the table engine is half of hard decode with the window as both lists");
    println!("| window | edges | without tables, µs | hard decode, µs | table engine, µs | without / table engine |");
    println!("|---|---|---|---|---|---|");
    for squares in [7, 12, 24, 48] {
        let asked = Asked::new(squares);
        match (asked.without(), asked.with(&mut room)) {
            (Ok(l), Ok(d)) if (l.square, l.hits, l.runner_up_hits) == (d.square, d.hits, d.runner_up_hits) => {}
            answers => panic!("a window of {squares}: the answers differ: {answers:?}"),
        }
        let (without, with) = least(&asked, &mut room);
        let edges = asked.list.rows.len();
        println!("| {squares} | {edges} | {without:.0} | {with:.0} | {:.0} | {:.1} |", with / 2.0, without / (with / 2.0));
    }
}
