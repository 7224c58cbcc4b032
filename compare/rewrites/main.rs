//! Holds the port's rewritings of words, called through their static library, against the source's
//! own `replace`, `replace_divisor` and `replace_outside_arms`, on random expressions.
//!
//! Arguments: the number of pairs for `replace`, half as many for each of the others; or
//! `--self-test`, to see that wrong expectations are noticed.
#![allow(dead_code)]

mod arael;
mod area;
mod asked;
mod cse;
mod deep;
mod depth;
mod fmt;
mod lists;
mod pairs;
mod port;
mod random;
mod tree;
mod words;

// cse.rs and fmt.rs look for these at the top of the crate
pub use arael::{E, Expr, FuncKind, symbol};
pub(crate) use arael::{as_exact_int, expand_func};

use arael::OutsideConstants;
use random::Random;
use pairs::Pair;
use port::{BROKEN, Call, Expected, NO_ANSWER, NO_ROOM, Port, REFUSED, Rewriting};
use std::panic::{AssertUnwindSafe, catch_unwind, resume_unwind};
use std::time::{Duration, Instant};

const SEED: u64 = 20_261_115;
const WRONG: usize = 5_000;
/// Of a hundred calls so many are unsound, or lent too little.
const UNSOUND: usize = 4;
/// One pair in so many is put into words that stand deep.
const DEEP_ONE_IN: usize = 100;
/// So much is printed of a call that differs.
const SHOWN: usize = 4_000;
/// The word of a Neg, which needs an operand, and of an Add that has one operand only.
const MINUS: u64 = 66;
const LAME_SUM: u64 = 67;
/// The words of a Mul and of the constant 1.
const PRODUCT: u64 = 133;
const ONE: u64 = 129;

fn main() {
    let words: Vec<String> = std::env::args().skip(1).collect();
    asked::hush();
    match words[0].as_str() {
        "--self-test" => self_test(),
        pairs => compare(pairs.parse().expect("a number of pairs")),
    }
}

// ---- what the source gives

/// Symbols of the list by numbers that are far apart.
fn number(name: &str) -> u64 {
    name.bytes().fold(7, |n, b| (n * 131 + u64::from(b)) % 1021)
}

fn words_of(es: &[E]) -> Vec<u64> {
    let mut words = Vec::new();
    es.iter().for_each(|e| words::put(e, &number, &mut words));
    words
}

/// A name that is new, or now and then one that may stand in the trees or be one of the target's
/// factors.
fn new_name(r: &mut Random) -> String {
    if r.chance(15) {
        return ["a", "b", "c", "__x0", "__m1"][r.below(5)].to_string();
    }
    let n = 100 + r.below(1000);
    format!("__{}{n}", if r.chance(70) { "x" } else { "m" })
}

/// Whether the source never ends: the target is sought by its factors, and these are none, or the
/// name alone, which is put in again each time that it is taken out.
fn endless(rewriting: Rewriting, target: &E, name: &E) -> bool {
    if rewriting != Rewriting::Replace || !matches!(target.as_ref(), Expr::Mul(..)) {
        return false;
    }
    let (one, wanted) = cse::factors(target);
    one == 1.0 && wanted.iter().all(|f| f == name) && wanted.len() < 2
}

/// The rewritten expressions, or none where a rebuilt coefficient is no constant, or where the source
/// would never end.
fn asked(rewriting: Rewriting, pair: &Pair, name: &E) -> Option<Vec<E>> {
    if endless(rewriting, &pair.part, name) {
        return None;
    }
    let one = |e: &E| match rewriting {
        Rewriting::Replace => cse::replace(e, &pair.part, name),
        Rewriting::Divisor => cse::divisor_replaced(e, &pair.part, name),
        Rewriting::OutsideArms => cse::replaced_outside_arms(e, &pair.part, name),
    };
    match catch_unwind(AssertUnwindSafe(|| pair.es.iter().map(one).collect())) {
        Ok(es) => Some(es),
        Err(payload) if payload.is::<OutsideConstants>() => None,
        Err(payload) => resume_unwind(payload),
    }
}

/// Where a coefficient is refused, and where there is no end, nothing is written.
fn expected(endless: bool, given: &Option<Vec<E>>) -> Expected {
    match given {
        None if endless => nothing(BROKEN),
        Some(es) => {
            let out = words_of(es);
            let answer = vec![out.len() as u64];
            Expected { number: 0, out, answer }
        }
        None => nothing(REFUSED),
    }
}

fn nothing(number: u64) -> Expected {
    Expected {
        number,
        out: Vec::new(),
        answer: Vec::new(),
    }
}

// ---- calls

/// Three places for each token, of which two thirds have to hold the target too.
fn least_places(tokens: &[u64], part: &[u64]) -> usize {
    3 * tokens.len().max(part.len().div_ceil(2))
}

fn sound_call(r: &mut Random, rewriting: Rewriting, pair: &Pair, name: &str) -> Call {
    let tokens = words_of(&pair.es);
    let part = words_of(std::slice::from_ref(&pair.part));
    let more = if r.chance(50) { 0 } else { r.below(20) };
    Call {
        rewriting,
        name: words::BELOW * words::symbol_code(name, &number),
        places: least_places(&tokens, &part) + more,
        out: tokens.len() + more,
        answer: 1 + r.below(2),
        tokens,
        part,
    }
}

/// One thing made unsound, or lent too little; the number that is to be returned.
fn spoil_call(r: &mut Random, c: &mut Call) -> u64 {
    let replace = c.rewriting == Rewriting::Replace;
    match r.below(if replace { 8 } else { 5 }) {
        0 => c.tokens.push(MINUS),
        1 => c.part = c.part.repeat(2),
        2 => c.name += 1 + r.below(60) as u64,
        3 => {
            c.out = r.below(c.tokens.len());
            return NO_ROOM;
        }
        4 => {
            c.answer = 0;
            return NO_ANSWER;
        }
        5 => {
            c.part = vec![PRODUCT, ONE, ONE];
            c.places = least_places(&c.tokens, &c.part);
        }
        6 => c.tokens.insert(0, LAME_SUM),
        _ => {
            let least = least_places(&c.tokens, &c.part);
            c.places = if r.chance(50) { least - 1 } else { r.below(least) };
            return NO_ROOM;
        }
    }
    BROKEN
}

// ---- what was met

const EVENTS: [&str; 11 + deep::SORTS] = [
    "unchanged",
    "refused by 10",
    "equal trees",
    "matches by factors",
    "several in one product",
    "coefficients rebuilt",
    "matches inside a product with matches",
    "targets that are no products",
    "targets without a symbol",
    "products matched by factors of which one is the name",
    "targets that never end",
    // counted as calls
    "words 1,041 deep",
    "a target 1,041 deep",
    "words 1,042 deep",
    "a target 1,042 deep",
    "words or a target 100,000 deep and more",
];
/// Where those begin that deep words are counted by.
const DEEP: usize = 11;

#[derive(Default)]
struct Tally {
    calls: usize,
    unsound: [usize; 3],
    /// pairs with each event
    events: [usize; EVENTS.len()],
    kinds: [bool; words::KINDS],
    words: usize,
    differ: usize,
    source: Duration,
}

type Events = [bool; EVENTS.len()];

/// Marks what happens in a tree, read off the tree: matches of the target as a whole or by factors.
fn look(e: &E, target: &E, name: &E, inside: bool, events: &mut Events) {
    if e == target {
        events[2] = true;
        events[6] |= inside;
        return;
    }
    if let (Expr::Mul(..), Expr::Mul(..)) = (e.as_ref(), target.as_ref()) {
        let (coefficient, mut left) = cse::factors(e);
        let (one, wanted) = cse::factors(target);
        let mut times = 0;
        while one == 1.0 && take_out(&mut left, &wanted) {
            left.push(name.clone());
            times += 1;
        }
        if times > 0 {
            events[3] = true;
            events[9] |= wanted.contains(name);
            events[4] |= times > 1;
            events[5] |= coefficient.abs() != 1.0;
            events[6] |= inside;
            left.iter().for_each(|f| look(f, target, name, true, events));
            return;
        }
    }
    cse::children(e).into_iter().for_each(|c| look(c, target, name, inside, events));
}

fn take_out(left: &mut Vec<E>, wanted: &[E]) -> bool {
    let mut rest = left.clone();
    for w in wanted {
        let Some(i) = rest.iter().position(|f| f == w) else {
            return false;
        };
        rest.remove(i);
    }
    *left = rest;
    true
}

impl Tally {
    fn mark(&mut self, rewriting: Rewriting, pair: &Pair, name: &E, given: &Option<Vec<E>>) {
        let mut events = [false; EVENTS.len()];
        let never = endless(rewriting, &pair.part, name);
        events[0] = given.as_ref() == Some(&pair.es);
        events[1] = given.is_none() && !never;
        events[7] = !matches!(pair.part.as_ref(), Expr::Mul(..));
        events[8] = !pairs::has_symbol(&pair.part);
        events[10] = never;
        if never {
            // nothing is rewritten
        } else if rewriting == Rewriting::Replace {
            pair.es.iter().for_each(|e| look(e, &pair.part, name, false, &mut events));
        } else {
            events[2] = !events[0];
        }
        for (count, met) in self.events.iter_mut().zip(events) {
            *count += usize::from(met);
        }
        for w in words_of(&pair.es) {
            self.kinds[(w % words::BELOW) as usize] = true;
        }
    }

    fn hold(&mut self, port: &mut Port, c: &Call, given: &Expected, shown: &str) {
        self.calls += 1;
        self.words += c.tokens.len();
        if let Some(difference) = port.difference(c, given) {
            self.differ += 1;
            if self.differ <= 10 {
                let cut = |s: String| s.chars().take(SHOWN).collect::<String>();
                let (c, given) = (cut(format!("{c:?}")), cut(format!("{given:?}")));
                println!("DIFFERS: {difference}: {shown}\n  {c}\n  {given}");
            }
        }
    }

    fn say(&self, rewriting: Rewriting, port: &Port) -> bool {
        let shown: Vec<(&str, usize)> = if rewriting == Rewriting::Replace {
            EVENTS.into_iter().zip(self.events).collect()
        } else {
            let deep = EVENTS.into_iter().zip(self.events).skip(DEEP);
            [("unchanged", self.events[0]), ("rewritten", self.events[2])].into_iter().chain(deep).collect()
        };
        let met: Vec<String> = shown.iter().map(|(name, n)| format!("{name} {n}")).collect();
        let kinds = self.kinds.iter().filter(|met| **met).count();
        println!(
            "{rewriting:?}: {} calls, {} differ; {}; unsound {}, too few places {}, no room for an answer {}; kinds met {kinds}",
            self.calls,
            self.differ,
            met.join(", "),
            self.unsound[0],
            self.unsound[1],
            self.unsound[2],
        );
        let each = |time: Duration| time.as_secs_f64() * 1e6 / self.calls as f64;
        println!(
            "  {:.1} words a call; {:.2} microseconds a call in the port, {:.2} in the source",
            self.words as f64 / self.calls as f64,
            each(port.time),
            each(self.source)
        );
        let wanted = shown.iter().map(|(_, n)| *n);
        self.differ == 0 && kinds == words::KINDS && wanted.chain(self.unsound).all(|n| n > 0)
    }
}

// ---- runs

fn pair(r: &mut Random, rewriting: Rewriting) -> Pair {
    match rewriting {
        Rewriting::Replace => pairs::replace_pair(r),
        Rewriting::Divisor => pairs::divisor_pair(r),
        Rewriting::OutsideArms => pairs::outside_pair(r),
    }
}

fn shown(pair: &Pair) -> String {
    format!("{:?} in {:?}", pair.part, pair.es)
}

fn compare(count: usize) {
    let runs = [
        (Rewriting::Replace, count),
        (Rewriting::Divisor, count / 2),
        (Rewriting::OutsideArms, count / 2),
    ];
    let mut well = true;
    for (rewriting, count) in runs {
        let mut r = Random(SEED);
        let mut port = Port::new();
        let mut tally = Tally::default();
        for n in 0..count {
            hold_one(&mut r, rewriting, &mut port, &mut tally);
            if n % DEEP_ONE_IN == 0 {
                let (c, given, sort) = deep_call(&mut r, rewriting, n / DEEP_ONE_IN);
                tally.events[DEEP + sort] += 1;
                tally.hold(&mut port, &c, &given, "deep words");
            }
        }
        well &= tally.say(rewriting, &port);
    }
    if !well {
        std::process::exit(1);
    }
}

fn hold_one(r: &mut Random, rewriting: Rewriting, port: &mut Port, tally: &mut Tally) {
    let pair = pair(r, rewriting);
    let name = new_name(r);
    let mut c = sound_call(r, rewriting, &pair, &name);
    let name = pairs::sym(&name);
    let began = Instant::now();
    let given = asked(rewriting, &pair, &name);
    tally.source += began.elapsed();
    tally.mark(rewriting, &pair, &name, &given);
    let never = endless(rewriting, &pair.part, &name);
    tally.hold(port, &c, &expected(never, &given), &shown(&pair));
    if r.chance(UNSOUND) {
        let number = spoil_call(r, &mut c);
        tally.unsound[(number - BROKEN) as usize] += 1;
        tally.hold(port, &c, &nothing(number), &shown(&pair));
    }
}

/// A pair put into words that stand deep, by turns of each sort: the call, what it should do, and the sort.
fn deep_call(r: &mut Random, rewriting: Rewriting, turn: usize) -> (Call, Expected, usize) {
    let pair = pair(r, rewriting);
    let name = new_name(r);
    if turn % deep::SORTS == deep::FAR {
        let mut c = sound_call(r, rewriting, &pair, &name);
        deep::put_far(r, &mut c);
        c.places = least_places(&c.tokens, &c.part);
        c.out = c.tokens.len();
        return (c, nothing(BROKEN), deep::FAR);
    }
    let sort = turn % deep::FAR;
    let pair = deep::sunk(r, pair, sort);
    let c = sound_call(r, rewriting, &pair, &name);
    let name = pairs::sym(&name);
    let deepest = depth::depth(&c.tokens).max(depth::depth(&c.part));
    assert_eq!(deepest, deep::of_sort(sort), "as deep as it should be");
    if deepest > depth::DEEPEST {
        return (c, nothing(BROKEN), sort);
    }
    let never = endless(rewriting, &pair.part, &name);
    let given = expected(never, &asked(rewriting, &pair, &name));
    (c, given, sort)
}

/// Expectations that are each wrong in one thing: all have to be noticed.
fn self_test() {
    let mut r = Random(SEED);
    let mut port = Port::new();
    let mut noticed = 0;
    for n in 0..WRONG {
        let rewriting = [Rewriting::Replace, Rewriting::Divisor, Rewriting::OutsideArms][n % 3];
        let (c, mut given, shown) = if n % DEEP_ONE_IN == 0 {
            let (c, given, _) = deep_call(&mut r, rewriting, n / DEEP_ONE_IN);
            (c, given, String::from("deep words"))
        } else {
            let pair = pair(&mut r, rewriting);
            let name = new_name(&mut r);
            let c = sound_call(&mut r, rewriting, &pair, &name);
            let name = pairs::sym(&name);
            let never = endless(rewriting, &pair.part, &name);
            (c, expected(never, &asked(rewriting, &pair, &name)), shown(&pair))
        };
        assert_eq!(port.difference(&c, &given), None, "a true one: {shown}");
        spoil(&mut r, &mut given);
        noticed += usize::from(port.difference(&c, &given).is_some());
    }
    println!("of {WRONG} wrong expectations {noticed} are noticed");
    if noticed != WRONG {
        std::process::exit(1);
    }
}

/// The number, the count or a word of the rewritten trees made another, or one word more or fewer
/// expected.
fn spoil(r: &mut Random, given: &mut Expected) {
    let words = match r.below(4) {
        0 => {
            given.number ^= REFUSED;
            return;
        }
        1 => &mut given.answer,
        _ => &mut given.out,
    };
    let i = r.below(words.len() + 1);
    match r.below(3) {
        0 if !words.is_empty() => {
            words.pop();
        }
        1 if i < words.len() => words[i] += words::BELOW,
        _ => words.push(r.below(300) as u64),
    }
}
