//! Holds the port's writers of texts, called through their static library, against the source's own
//! `Display`, on random trees and on the source's answers to random lists.
//!
//! Arguments: the number of trees and of answers; or `--self-test`, to see that wrong expectations are noticed; or
//! `--stored FOLDER`, which writes what the program `replay_text` is run on to FOLDER/stdin, and what it has to print to
//! FOLDER/stdout.
#![allow(dead_code)]

mod arael;
mod area;
mod asked;
mod cse;
mod deep;
mod depth;
mod exported;
mod fmt;
mod lists;
mod pair;
mod port;
mod printed;
mod random;
mod rows;
mod stored;
mod tree;
mod trees;
mod words;

// cse.rs and fmt.rs look for these at the top of the crate
pub use arael::{E, Expr, FuncKind, symbol};
pub(crate) use arael::{as_exact_int, expand_func};

use random::Random;
use port::{BROKEN, Call, Expected, NO_ANSWER, Port, Writer};
use std::time::{Duration, Instant};
use rows::Rows;
use words::{BELOW, KINDS, NAMES};

const SEED: u64 = 20_261_115;
const WRONG: usize = 5_000;
/// Of a hundred trees so many are damaged too.
const DAMAGED: usize = 5;
/// One tree, and one answer, in so many stands about as deep as is taken, or far deeper.
const DEEP_ONE_IN: usize = 100;
/// So much is printed of a call that differs.
const SHOWN: usize = 4_000;

fn main() {
    let words: Vec<String> = std::env::args().skip(1).collect();
    asked::hush();
    match words[0].as_str() {
        "--self-test" => self_test(),
        "--stored" => stored::pair().write(&words[1]),
        trees => compare(trees.parse().expect("a number of trees")),
    }
}

// ---- calls

/// A tree's words among others, and what is lent for its text.
struct Placed {
    call: Call,
    /// the places of the tree's first word and after its last
    at: usize,
    next: usize,
    dry: bool,
}

fn placed(r: &mut Random, rows: &Rows, e: &E, length: usize) -> Placed {
    let mut words: Vec<u64> = (0..r.below(4)).map(|_| r.below(5000) as u64).collect();
    let at = words.len();
    words::put(e, &|name| rows.number(name), &mut words);
    let next = words.len();
    words.extend((0..r.below(4)).map(|_| r.below(5000) as u64));
    let to = if r.chance(50) { 0 } else { r.below(40) };
    let out = match r.below(10) {
        0 => r.below(to + length + 1),
        1 => (to + length).saturating_sub(1),
        2 => r.below(to + 1),
        3..=6 => to + length,
        _ => to + length + r.below(30),
    };
    let dry = r.chance(30);
    let call = Call {
        writer: Writer::Text { at, dry },
        rows: rows.words.clone(),
        words,
        to,
        out,
        answer: 2 + r.below(2),
    };
    Placed { call, at, next, dry }
}

/// Bytes past the end are dropped, and a place past the end stays one after it.
fn expected(p: &Placed, text: &str) -> Expected {
    let c = &p.call;
    let end = (c.to + text.len()).min(c.out + 1);
    let fits = c.out.saturating_sub(c.to).min(text.len());
    Expected {
        number: 0,
        bytes: if p.dry { Vec::new() } else { text.as_bytes()[..fits].to_vec() },
        answer: vec![p.next as u64, end as u64],
    }
}

pub fn nothing(number: u64) -> Expected {
    Expected {
        number,
        bytes: Vec::new(),
        answer: Vec::new(),
    }
}

/// One word of the tree made one that no tree of an answer has, or the tree cut off; the number that
/// is to be returned.
fn damage(r: &mut Random, rows: &Rows, p: &mut Placed) -> u64 {
    let i = p.at + r.below(p.next - p.at);
    let c = &mut p.call;
    let w = c.words[i];
    let leaf = w % BELOW <= 1;
    let unnamed = rows.names.iter().position(|n| n.is_none()).unwrap_or(rows.names.len());
    match r.below(7) {
        0 => c.words.truncate(p.next - 1),
        1 => {
            let at = c.words.len() + r.below(3);
            c.writer = Writer::Text { at, dry: p.dry };
        }
        2 => {
            c.answer = r.below(2);
            return NO_ANSWER;
        }
        // a kind that is none
        3 => c.words[i] = w - w % BELOW + KINDS as u64 + r.below(35) as u64,
        // 10^15 and more in magnitude
        4 if leaf => c.words[i] = 1 + BELOW * (1_999_999_999_999_999 + r.below(3) as u64),
        // a symbol that no row names
        5 if leaf => c.words[i] = BELOW * 3 * unnamed as u64,
        _ if leaf => c.words[i] = BELOW * 3 * (rows.names.len() + r.below(5)) as u64,
        // operands that aren't there, at the end of the words
        _ => {
            c.words[i] += BELOW * 20;
            c.words.truncate(p.next);
        }
    }
    BROKEN
}

// ---- what was met

/// Operands from here on count as one place.
const PLACES: usize = 4;

struct Tally {
    trees: usize,
    damaged: usize,
    no_answer: usize,
    too_long: usize,
    dry: usize,
    words: usize,
    bytes: usize,
    deepest: usize,
    longest: usize,
    differ: usize,
    depths: deep::Depths,
    /// how often each kind stands at each place of an operation
    met: Vec<[[usize; KINDS]; PLACES]>,
    source: Duration,
}

impl Tally {
    fn new() -> Tally {
        Tally {
            trees: 0,
            damaged: 0,
            no_answer: 0,
            too_long: 0,
            dry: 0,
            words: 0,
            bytes: 0,
            deepest: 0,
            longest: 0,
            differ: 0,
            depths: deep::Depths::default(),
            met: vec![[[0; KINDS]; PLACES]; KINDS],
            source: Duration::ZERO,
        }
    }

    fn mark(&mut self, e: &E, depth: usize) {
        self.deepest = self.deepest.max(depth);
        if let Expr::Sym(name) = e.as_ref() {
            self.longest = self.longest.max(name.len());
        }
        for (i, c) in cse::children(e).into_iter().enumerate() {
            self.met[words::kind(e)][i.min(PLACES - 1)][words::kind(c)] += 1;
            self.mark(c, depth + 1);
        }
    }

    fn hold(&mut self, port: &mut Port, c: &Call, given: &Expected, text: &str) {
        if let Some(difference) = port.difference(c, given) {
            self.differ += 1;
            if self.differ <= 10 {
                show(&difference, c, given, text);
            }
        }
    }

    /// Kinds that never stood at a place where they may, by their names.
    fn missing(&self) -> Vec<String> {
        let mut missing = Vec::new();
        for parent in 2..KINDS {
            for place in 0..places(parent) {
                for child in 0..KINDS {
                    if self.met[parent][place][child] == 0 {
                        missing.push(format!("{} at {place} of {}", NAMES[child], NAMES[parent]));
                    }
                }
            }
        }
        missing
    }

    fn say(&self, port: &Port) -> bool {
        let missing = self.missing();
        let seats: usize = (2..KINDS).map(|k| places(k) * KINDS).sum();
        println!(
            "{} trees, {} differ; texts too long for what was lent {}, only measured {}; damaged {}, no room for an answer {}; kinds at places of operands met {} of {seats}, nests as deep as {}, names as long as {}; {}",
            self.trees,
            self.differ,
            self.too_long,
            self.dry,
            self.damaged,
            self.no_answer,
            seats - missing.len(),
            self.deepest,
            self.longest,
            self.depths.said(),
        );
        let calls = self.trees + self.damaged + self.no_answer;
        println!(
            "  {:.1} words and {:.1} bytes a tree; {:.2} microseconds a call in the port, {:.2} in the source",
            self.words as f64 / self.trees as f64,
            self.bytes as f64 / self.trees as f64,
            port.time.as_secs_f64() * 1e6 / calls as f64,
            self.source.as_secs_f64() * 1e6 / self.trees as f64
        );
        missing.iter().take(5).for_each(|m| println!("never met: {m}"));
        let met = [self.too_long, self.dry, self.damaged, self.no_answer, self.depths.fewest()];
        self.differ == 0 && missing.is_empty() && !met.contains(&0) && self.longest == 32
    }
}

pub fn show(difference: &str, c: &Call, given: &Expected, text: &str) {
    let cut = |s: String| s.chars().take(SHOWN).collect::<String>();
    let [text, c, given] = [text.to_string(), format!("{c:?}"), format!("{given:?}")].map(cut);
    println!("DIFFERS: {difference}: {text}\n  {c}\n  {given}");
}

fn places(kind: usize) -> usize {
    match kind {
        3..=7 | 14 => 2,
        25 | 26 => 3,
        27 | 28 => PLACES,
        _ => 1,
    }
}

// ---- runs

fn compare(count: usize) {
    let mut r = Random(SEED);
    let mut port = Port::new();
    let mut tally = Tally::new();
    for n in 0..count {
        hold_one(&mut r, &mut port, &mut tally);
        if n % DEEP_ONE_IN == 0 {
            hold_deep(&mut r, &mut port, &mut tally);
        }
    }
    let trees = tally.say(&port);
    let answers = printed::compare(count);
    if !(trees && answers) {
        std::process::exit(1);
    }
}

fn hold_one(r: &mut Random, port: &mut Port, tally: &mut Tally) {
    let rows = trees::rows(r);
    let e = trees::tree(r, &rows);
    let began = Instant::now();
    let text = e.to_string();
    tally.source += began.elapsed();
    tally.mark(&e, 0);
    let mut p = placed(r, &rows, &e, text.len());
    tally.trees += 1;
    tally.words += p.next - p.at;
    tally.bytes += text.len();
    tally.too_long += usize::from(p.call.to + text.len() > p.call.out);
    tally.dry += usize::from(p.dry);
    tally.hold(port, &p.call, &expected(&p, &text), &text);
    if r.chance(DAMAGED) {
        let number = damage(r, &rows, &mut p);
        *(if number == BROKEN { &mut tally.damaged } else { &mut tally.no_answer }) += 1;
        tally.hold(port, &p.call, &nothing(number), &text);
    }
}

/// A tree that stands about as deep as is taken, with the words around it, or far deeper.
fn hold_deep(r: &mut Random, port: &mut Port, tally: &mut Tally) {
    let rows = trees::rows(r);
    let (c, given, levels) = deep_text(r, &rows);
    tally.depths.count(levels);
    tally.hold(port, &c, &given, "deep words");
}

/// The call, what it should do, and how deep its words stand.
fn deep_text(r: &mut Random, rows: &Rows) -> (Call, Expected, usize) {
    if r.chance(20) {
        let leaf = trees::leaf(r, rows);
        let mut p = placed(r, rows, &leaf, 0);
        let (many, sort) = (deep::far(r), r.below(3));
        p.call.words = deep::far_tree(sort, many);
        p.call.writer = Writer::Text { at: 0, dry: p.dry };
        let levels = depth::depth(&p.call.words);
        return (p.call, nothing(BROKEN), levels);
    }
    // up to three words before the tree may have it below them
    let levels = depth::DEEPEST - 3 + r.below(6);
    let e = deep::tree(r, rows, levels);
    let text = e.to_string();
    let p = placed(r, rows, &e, text.len());
    let levels = depth::depth(&p.call.words);
    let given = if levels > depth::DEEPEST { nothing(BROKEN) } else { expected(&p, &text) };
    (p.call, given, levels)
}

/// Expectations that are each wrong in one thing: all have to be noticed.
fn self_test() {
    let mut r = Random(SEED);
    let mut port = Port::new();
    let mut noticed = 0;
    for n in 0..WRONG {
        let rows = trees::rows(&mut r);
        let (c, mut given, text) = if n % DEEP_ONE_IN == 0 {
            let (c, given, _) = deep_text(&mut r, &rows);
            (c, given, String::from("deep words"))
        } else {
            let e = trees::tree(&mut r, &rows);
            let text = e.to_string();
            let p = placed(&mut r, &rows, &e, text.len());
            let given = expected(&p, &text);
            (p.call, given, text)
        };
        assert_eq!(port.difference(&c, &given), None, "a true one: {text}");
        spoil(&mut r, &mut given);
        noticed += usize::from(port.difference(&c, &given).is_some());
    }
    noticed += printed::noticed(&mut r, &mut port, WRONG);
    println!("of {} wrong expectations {noticed} are noticed", 2 * WRONG);
    if noticed != 2 * WRONG {
        std::process::exit(1);
    }
}

/// The number, a place or a byte made another, or one byte more or fewer expected.
pub fn spoil(r: &mut Random, given: &mut Expected) {
    let i = r.below(given.bytes.len() + 1);
    match r.below(5) {
        1 if !given.answer.is_empty() => {
            let n = r.below(given.answer.len());
            given.answer[n] += 1;
        }
        0 | 1 => given.number ^= 1,
        2 if i < given.bytes.len() => given.bytes[i] ^= 1,
        3 if !given.bytes.is_empty() => {
            given.bytes.pop();
        }
        _ => given.bytes.push(b'a'),
    }
}
