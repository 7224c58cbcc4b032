//! Holds the port of load, called through its static library, against a reading of the paper in
//! Rust, on good sheets and many damaged copies of them.
//!
//! Arguments: the number of damaged copies; or `--self-test`, to see that wrong expectations are
//! noticed; or `--stored LIST FOLDER`, which writes the sheets of LIST to FOLDER/stdin, and the answers
//! that the reading works out for them to FOLDER/stdout.

#![allow(dead_code)]

mod area;
mod damage;
mod good;
mod pair;
mod port;
mod random;
mod reading;
mod stored;

use port::{ENOUGH, Expected, Lent, NO_ANSWER, Port, expected};
use random::Random;
use std::time::{Duration, Instant};

const SEED: u64 = 20_261_115;
const COPIES_OF_EACH: usize = 10;
const WRONG: usize = 5_000;
/// Calls with one sheet, to measure the port's speed.
const CALLS: usize = 200;

fn main() {
    let words: Vec<String> = std::env::args().skip(1).collect();
    match words[0].as_str() {
        "--self-test" => self_test(),
        "--stored" => {
            let list = std::fs::read_to_string(&words[1]).expect("the stored list");
            stored::renewed(&list).write(&words[2]);
        }
        copies => compare(copies.parse().expect("a number of copies")),
    }
}

/// How many sheets there were of each sort.
#[derive(Default)]
struct Tally {
    good: usize,
    damaged: usize,
    loaded: usize,
    refused: [usize; 8],
    /// of those by 6: too many bytes, a node or root too many, and the limits on all together
    sixes: [usize; 3],
    no_answer: usize,
    /// kinds in loaded sheets; a Select with a default comes last
    kinds: [bool; reading::KINDS.len() + 1],
    differ: usize,
    bytes: usize,
    reading: Duration,
}

fn compare(copies: usize) {
    let mut r = Random(SEED);
    let mut port = Port::new();
    let mut tally = Tally::default();
    while tally.damaged < copies {
        let good = good::sheet(&mut r);
        let bytes = good.bytes();
        if tally.hold(&mut port, ENOUGH, &bytes) != 0 {
            tally.report(&bytes, "made to be good, and refused");
        }
        tally.good += 1;
        for _ in 0..COPIES_OF_EACH {
            let (bytes, lent) = damage::copy(&mut r, &good);
            tally.hold(&mut port, lent, &bytes);
            tally.damaged += 1;
        }
    }
    tally.say(&port);
    let met = [&tally.refused[1..], &tally.sixes].concat();
    if tally.differ > 0 || met.contains(&0) || tally.kinds.contains(&false) {
        std::process::exit(1);
    }
}

impl Tally {
    /// One sheet, by the port and by the reading; the number that is expected.
    fn hold(&mut self, port: &mut Port, lent: Lent, sheet: &[u8]) -> u64 {
        let began = Instant::now();
        let given = expected(lent, sheet);
        self.reading += began.elapsed();
        self.bytes += sheet.len();
        match given.number {
            0 => self.loaded += 1,
            NO_ANSWER => self.no_answer += 1,
            number => self.refused[number as usize] += 1,
        }
        for row in given.rows.chunks(reading::WIDTH) {
            self.kinds[(row[0] + row[1]) as usize] = true;
        }
        if given.number == 6 {
            let records = reading::records(sheet).len() as u64;
            let at_end = 1 + usize::from(given.answer[0] == records);
            let long = sheet.len() > reading::BYTES;
            self.sixes[if long { 0 } else { at_end }] += 1;
        }
        if let Some(difference) = port.difference(lent, sheet, &given) {
            self.report(sheet, &format!("{difference}; lent {lent:?}"));
        }
        given.number
    }

    fn report(&mut self, sheet: &[u8], what: &str) {
        self.differ += 1;
        if self.differ <= 10 {
            let shown = &sheet[..sheet.len().min(400)];
            println!("DIFFERS: {what}: {}", shown.escape_ascii());
        }
    }

    fn say(&self, port: &Port) {
        let sheets = self.good + self.damaged;
        let numbers: Vec<String> = (1..8)
            .map(|n| format!("{n}: {}", self.refused[n]))
            .collect();
        println!(
            "{} good sheets, {} damaged copies: {} loaded; refused by {}; no room for an answer {}; kinds met {} of {}; {} differ
of those by 6: too many bytes {}, a node or root too many {}, all roots together {}",
            self.good,
            self.damaged,
            self.loaded,
            numbers.join(", "),
            self.no_answer,
            self.kinds.iter().filter(|met| **met).count(),
            self.kinds.len(),
            self.differ,
            self.sixes[0],
            self.sixes[1],
            self.sixes[2]
        );
        let each = |time: Duration| time.as_secs_f64() * 1e6 / sheets as f64;
        println!(
            "{} bytes a sheet; {:.1} microseconds a sheet in the port, {:.1} in the reading",
            self.bytes / sheets,
            each(port.time),
            each(self.reading)
        );
        speed();
    }
}

/// The port's speed on a sheet of nearly as many bytes as it takes.
fn speed() {
    let mut r = Random(SEED);
    let bytes = loop {
        let bytes = good::sheet(&mut r).bytes();
        if bytes.len() > reading::BYTES - 10 {
            break bytes;
        }
    };
    let mut fastest = Duration::MAX;
    for _ in 0..CALLS {
        let mut port = Port::new();
        assert_eq!(port.call(ENOUGH, &bytes), 0);
        fastest = fastest.min(port.time);
    }
    println!(
        "a sheet of {} bytes, the fastest of {CALLS} calls: {:.2} milliseconds, {:.1} MB/s",
        bytes.len(),
        fastest.as_secs_f64() * 1e3,
        bytes.len() as f64 / fastest.as_secs_f64() / 1e6
    );
}

/// Expectations that are each wrong in one thing: all have to be noticed.
fn self_test() {
    let mut r = Random(SEED);
    let mut port = Port::new();
    let mut noticed = 0;
    for n in 0..WRONG {
        let good = good::sheet(&mut r);
        let (bytes, lent) = if n % 2 == 0 {
            (good.bytes(), ENOUGH)
        } else {
            damage::copy(&mut r, &good)
        };
        let mut given = expected(lent, &bytes);
        assert_eq!(port.difference(lent, &bytes, &given), None, "a true one");
        spoil(&mut r, &mut given);
        noticed += usize::from(port.difference(lent, &bytes, &given).is_some());
    }
    println!("of {WRONG} wrong expectations {noticed} are noticed");
    if noticed != WRONG {
        std::process::exit(1);
    }
}

/// The number, a word of the answer, of the rows or of the roots made another, or one word more
/// or fewer expected.
fn spoil(r: &mut Random, given: &mut Expected) {
    let words = match r.below(4) {
        0 => {
            given.number ^= 1;
            return;
        }
        1 => &mut given.answer,
        2 => &mut given.rows,
        _ => &mut given.roots,
    };
    let i = r.below(words.len() + 1);
    match r.below(3) {
        0 if !words.is_empty() => {
            words.pop();
        }
        1 if i < words.len() => words[i] += 1,
        _ => words.push(r.below(3) as u64),
    }
}
