//! The times of the port and of the source on the same lists, in the same run, how the time of a round grows with the
//! occurrences, and how much stack the port takes.
use crate::arael::E;
use crate::chains;
use crate::clock::Clock;
use crate::cse;
use crate::fits::{self, FITS};
use crate::laid::{self, List};
use crate::large::{self, Family};
use crate::port::{Call, Port};
use crate::random::Random;
use crate::stack;
use crate::tree::{T, size};
use crate::{Given, expected, given, plain_call};
use std::time::{Duration, Instant};

const SEED: u64 = 20_261_117;
const SIZES: [usize; 11] = [50, 100, 200, 300, 400, 500, 600, 700, 800, 900, 1000];
const FAMILIES: [Family; 3] = [Family::Derivatives, Family::Grown, Family::Switches];
/// A list is run until so much time has passed, and at least so often; the fastest run counts.
const TIME: Duration = Duration::from_millis(300);
const LEAST: usize = 5;
/// A list that one of them takes so long for is run less often.
const LONG: Duration = Duration::from_secs(1);
const LEAST_OF_LONG: usize = 2;
/// So many runs of the source tell whether its answer is settled.
const SETTLED: usize = 10;
/// So many random lists are looked at for one to be timed.
const TRIES: usize = 3000;

pub fn run(scoped: bool) {
    println!(
        "{:15} {:>11} {:>6} {:>12} {:>12} {:>13} {:>14} {:>16}",
        "family", "occurrences", "rounds", "port, us", "source, us", "times as fast", "port, us/round", "source, us/round"
    );
    let groups = [random(scoped), realistic(scoped), others(scoped)];
    groups.iter().for_each(|g| g.say(scoped));
}

// ---- lists

/// A list, its expressions with shared nodes, and what the source gives.
struct Asked {
    list: List,
    es: Vec<E>,
    given: Given,
    /// how long the source took, once
    time: Duration,
}

/// A list that the source answers, and always alike.
fn asked(list: List, scoped: bool) -> Option<Asked> {
    let es = laid::expressions(&list, true);
    let began = Clock::start();
    let given = given(&list, &es, scoped);
    let time = began.elapsed();
    let runs = if time < LONG { SETTLED } else { LEAST_OF_LONG };
    let settled = given.number == 0 && crate::agree(&list, &es, &given, runs);
    settled.then_some(Asked { list, es, given, time })
}

fn random(scoped: bool) -> Group {
    let mut group = Group::new("of the benchmark");
    for family in FAMILIES {
        let mut r = Random(SEED);
        let rows = SIZES.iter().filter_map(|most| {
            let asked = chosen(&mut r, family, *most, scoped)?;
            Some(measured(&mut r, &format!("{family:?}"), asked, scoped))
        });
        group.add_family(&format!("{family:?}"), rows.collect());
    }
    group
}

/// A list of about so many occurrences that extraction takes some rounds for and whose answer is settled. None where many tries find none: large
/// tangles are nearly all refused in the scoped form.
fn chosen(r: &mut Random, family: Family, most: usize, scoped: bool) -> Option<Asked> {
    for _ in 0..TRIES {
        let trees: Vec<T> = large::of_family(r, family, most);
        if trees.iter().map(size).sum::<usize>() * 100 < most * 93 {
            continue;
        }
        let list = laid::lay_out(r, &trees);
        if let Some(asked) = asked(list, scoped).filter(|a| a.given.extracted > 2) {
            return Some(asked);
        }
    }
    None
}

/// Fits, in the scoped form with switches too.
fn realistic(scoped: bool) -> Group {
    let mut group = Group::new("of fits");
    let mut r = Random(SEED);
    for switches in [false, true] {
        for fit in FITS.into_iter().filter(|_| scoped || !switches) {
            let name = format!("{fit:?}{}", if switches { "/switches" } else { "" });
            let rows = fits::SIZES.iter().filter_map(|most| {
                let list = laid::as_made(&fits::list(fit, switches, *most));
                timed(&mut r, &name, list, scoped)
            });
            group.add_family(&name, rows.collect());
        }
    }
    group
}

fn others(scoped: bool) -> Group {
    let mut group = Group::new("of other sorts");
    let mut r = Random(SEED);
    for (name, list) in chains::lists() {
        group.rows.extend(timed(&mut r, name, list, scoped));
    }
    group
}

// ---- times

/// Times of one list, in microseconds.
struct Row {
    name: String,
    call: Call,
    occurrences: f64,
    port: f64,
    source: f64,
    rounds: f64,
}

/// The row of a list, unless it is left out.
fn timed(r: &mut Random, name: &str, list: List, scoped: bool) -> Option<Row> {
    let asked = asked(list, scoped);
    if asked.is_none() {
        println!("{name:15} left out: the source refuses it, or hash order decides");
    }
    Some(measured(r, name, asked?, scoped))
}

fn measured(r: &mut Random, name: &str, asked: Asked, scoped: bool) -> Row {
    let mut port = Port::new(scoped);
    let call = plain_call(r, &asked.list, &asked.given);
    let difference = port.difference(&call, &expected(&call, true, &asked.given));
    assert_eq!(difference, None, "the answers are the same: {name}");
    let least = if asked.time.max(port.time) < LONG { LEAST } else { LEAST_OF_LONG };
    let (port_time, source_time) = fastest(
        least,
        || {
            port.time = Duration::ZERO;
            port.extract(&call);
            port.time
        },
        || {
            let began = Clock::start();
            if scoped {
                std::hint::black_box(cse::cse_scoped(&asked.es));
            } else {
                std::hint::black_box(cse::cse(&asked.es));
            }
            began.elapsed()
        },
    );
    let row = Row {
        name: name.to_string(),
        call,
        occurrences: crate::words_of(&asked.list, &asked.es).len() as f64,
        port: port_time,
        source: source_time,
        rounds: (asked.given.extracted + 1) as f64,
    };
    row.say();
    row
}

/// Microseconds of the fastest run of each, the two in turn.
fn fastest(least: usize, mut port: impl FnMut() -> Duration, mut source: impl FnMut() -> Duration) -> (f64, f64) {
    let began = Instant::now();
    let mut best = (Duration::MAX, Duration::MAX);
    let mut runs = 0;
    while runs < least || began.elapsed() < TIME {
        best = (best.0.min(port()), best.1.min(source()));
        runs += 1;
    }
    (best.0.as_secs_f64() * 1e6, best.1.as_secs_f64() * 1e6)
}

impl Row {
    /// How many times as fast as the source the port is.
    fn ratio(&self) -> f64 {
        self.source / self.port
    }

    fn say(&self) {
        println!(
            "{:15} {:>11} {:>6} {:>12.1} {:>12.1} {:>13.2} {:>14.2} {:>16.2}",
            self.name,
            self.occurrences,
            self.rounds,
            self.port,
            self.source,
            self.ratio(),
            self.port / self.rounds,
            self.source / self.rounds
        );
    }
}

// ---- groups

/// Lists of one sort, and for their families that have sizes the powers that a round's time grows by.
struct Group {
    name: &'static str,
    rows: Vec<Row>,
    powers: Vec<String>,
}

impl Group {
    fn new(name: &'static str) -> Group {
        Group {
            name,
            rows: Vec::new(),
            powers: Vec::new(),
        }
    }

    fn add_family(&mut self, name: &str, rows: Vec<Row>) {
        let (port, source) = (power(&rows, |w| w.port), power(&rows, |w| w.source));
        self.powers.push(format!("{name} {port:.2} ({source:.2})"));
        self.rows.extend(rows);
    }

    fn say(&self, scoped: bool) {
        let mut ratios: Vec<f64> = self.rows.iter().map(Row::ratio).collect();
        ratios.sort_by(f64::total_cmp);
        let mean = ratios.iter().map(|q| q.ln()).sum::<f64>() / ratios.len() as f64;
        println!(
            "{} lists {}: {:.2} times as fast as the source by the geometric mean, {:.2} at least, {:.2} at most",
            ratios.len(),
            self.name,
            mean.exp(),
            ratios[0],
            ratios[ratios.len() - 1]
        );
        if !self.powers.is_empty() {
            println!("  a round's time in the port (in the source) grows as occurrences to the power: {}", self.powers.join(", "));
        }
        let (bytes, name) = self.stack(scoped);
        println!("  a call of the port takes at most {} KB of stack ({name})", bytes.div_ceil(1024));
    }

    /// The most stack of a call, and its list. It is measured after all times, since threads may make a process slower.
    fn stack(&self, scoped: bool) -> (usize, &str) {
        let mut port = Port::new(scoped);
        let mut taken = |w: &Row| {
            stack::taken(|| {
                port.extract(&w.call);
            })
        };
        self.rows.iter().map(|w| (taken(w), w.name.as_str())).max().unwrap_or((0, ""))
    }
}

/// The slope of a round's time over the occurrences, both as logarithms, by least squares.
fn power(rows: &[Row], time: impl Fn(&Row) -> f64) -> f64 {
    let points: Vec<(f64, f64)> = rows.iter().map(|w| (w.occurrences.ln(), (time(w) / w.rounds).ln())).collect();
    let n = points.len() as f64;
    let (x, y) = points.iter().fold((0.0, 0.0), |(x, y), p| (x + p.0 / n, y + p.1 / n));
    let above: f64 = points.iter().map(|p| (p.0 - x) * (p.1 - y)).sum();
    let below: f64 = points.iter().map(|p| (p.0 - x) * (p.0 - x)).sum();
    above / below
}
