//! Holds the port's extract, called through its static library, against the source's own `cse` or
//! `cse_scoped`, on random lists laid out as node rows; and measures both.
//!
//! Arguments: `flat` or `scoped`; then the number of small and of large lists; or `--self-test`, to see that
//! wrong expectations are noticed; or `--bench`, for the times of both.
#![allow(dead_code)]

mod answers;
mod arael;
mod area;
mod asked;
mod bench;
mod chains;
mod clock;
mod cse;
mod derive;
mod exported;
mod fits;
mod fmt;
mod held;
mod laid;
mod large;
mod lists;
mod paddlecrook;
mod port;
mod random;
mod reading;
mod rows;
mod stack;
mod tree;
mod words;
mod wrapped;

// cse.rs and fmt.rs look for these at the top of the crate
pub use arael::{E, Expr, FuncKind, symbol};
pub(crate) use arael::{as_exact_int, expand_func};

use answers::{EVENTS, Event, Events};
use held::{GIVEN, HELD, LIMITS, ROWS_GIVEN, ROWS_HELD, STATEMENTS, SWITCHES, Sizes};
use laid::List;
use large::Edge;
use paddlecrook::Extractor;
use port::{BAD_COEFFICIENT, BAD_ROWS, Call, Expected, FEW_ROWS, LARGE_SCOPE, NO_ANSWER, Port, RING, SHORT_WORK, TEXT, WORK, nothing};
use random::Random;
use rows::{Rows, WIDTH};
use std::time::{Duration, Instant};
use tree::T;

const SEED: u64 = 20_261_115;
const WRONG: usize = 5_000;
/// Of a hundred lists so many are lent again with something to be refused, and so many go through the wrapper
/// for generators too.
const REFUSED: usize = 12;
const WRAPPED: usize = 5;

/// Of a hundred large lists that the source's scoped form refuses for a ring so many are passed over.
const PASSED_OVER: usize = 75;

/// How often the source is run on a list. Hash order is new in each run. A tie that stays hidden in these
/// runs does no harm where the port agrees; where it doesn't, many more runs tell.
const RUNS: usize = 6;
const RUNS_OF_LARGE: usize = 3;
const MORE_RUNS: usize = 200;

fn main() {
    let words: Vec<String> = std::env::args().skip(1).collect();
    asked::hush();
    let count = |i: usize| words[i].parse().expect("a number of lists");
    let scoped = words[0] == "scoped";
    match words[1].as_str() {
        "--self-test" => self_test(scoped),
        "--bench" => bench::run(scoped),
        _ => compare(scoped, count(1), count(2)),
    }
}

// ---- what the source gives

/// The source's answer in one form as answer rows, the extraction count, the text; or 10, 11 or 23.
#[derive(Clone)]
pub struct Given {
    pub scoped: bool,
    pub number: u64,
    pub words: Vec<u64>,
    pub extracted: usize,
    pub printed: String,
    pub events: Events,
    /// the most that a scope is given, holds and states, and the most rows
    pub reached: Sizes,
}

/// Answer rows, or the number where the source refuses.
fn words_of_run(list: &List, es: &[E], scoped: bool) -> Result<Vec<u64>, u64> {
    match asked::asked(es, scoped) {
        Ok(answer) => Ok(rows::laid_out(&list.rows, &answer)),
        Err(number) => Err(number as u64),
    }
}

pub fn given(list: &List, es: &[E], scoped: bool) -> Given {
    held::take_reached();
    let run = asked::asked(es, scoped);
    let reached = held::take_reached();
    match run {
        Ok(answer) => {
            let (extracted, events) = answers::met(scoped, &answer);
            Given {
                scoped,
                number: 0,
                words: rows::laid_out(&list.rows, &answer),
                extracted,
                printed: asked::text(&answer),
                events,
                reached,
            }
        }
        Err(number) => Given {
            scoped,
            number: number as u64,
            words: Vec::new(),
            extracted: 0,
            printed: String::new(),
            events: Events::default(),
            reached,
        },
    }
}

/// Whether so many runs give what the first gave.
fn agree(list: &List, es: &[E], first: &Given, runs: usize) -> bool {
    (0..runs).all(|_| match words_of_run(list, es, first.scoped) {
        Ok(words) => first.number == 0 && words == first.words,
        Err(number) => first.number == number,
    })
}

// ---- calls

/// A call in which nothing is short.
pub fn plain_call(r: &mut Random, list: &List, given: &Given) -> Call {
    let more = |r: &mut Random| if r.chance(50) { 0 } else { r.below(30) };
    Call {
        rows: list.rows.words.clone(),
        roots: list.roots.clone(),
        work: WORK + more(r),
        text: TEXT + more(r),
        table: given.words.len() + more(r),
        answer: 2 + r.below(2),
    }
}

/// By 01's order, with the source's answer for rows that load could lay out.
pub fn expected(c: &Call, loadable: bool, given: &Given) -> Expected {
    if c.answer < 2 {
        return nothing(NO_ANSWER);
    }
    if c.work < WORK || c.text < TEXT {
        return nothing(SHORT_WORK);
    }
    if !loadable {
        return nothing(BAD_ROWS);
    }
    if given.number != 0 {
        return nothing(given.number);
    }
    if given.words.len() > c.table {
        return nothing(FEW_ROWS);
    }
    Expected {
        number: 0,
        table: given.words.clone(),
        answer: vec![given.words.len() as u64, given.extracted as u64],
        printed: given.printed.clone(),
    }
}

/// One thing made short, mostly by one.
fn shorten(r: &mut Random, c: &mut Call) {
    let fewer = |r: &mut Random, n: usize| match r.below(4) {
        0 => r.below(n.max(1)),
        1 => 0,
        _ => n.saturating_sub(1),
    };
    match r.below(7) {
        0 => c.answer = r.below(2),
        1 => c.work = fewer(r, WORK),
        2 => c.text = fewer(r, TEXT),
        _ => c.table = fewer(r, c.table),
    }
}

// ---- what was met

/// The small lists or the large ones.
struct Part {
    lists: usize,
    /// of at least 900 occurrences
    near: usize,
    /// by what the source gives
    told: [usize; 256],
    events: [usize; EVENTS.len()],
    most: [usize; MOST.len()],
    scopes: Scopes,
}

/// What scopes are given, hold and state.
#[derive(Default)]
struct Scopes {
    /// refused by 23, by what is past its limit
    past: Sizes,
    /// answered though a scope holds more than one may be given
    full: usize,
    /// the most in an answered list
    most: Sizes,
}

impl Scopes {
    fn mark(&mut self, given: &Given) {
        let past = |i: usize| usize::from(given.number == LARGE_SCOPE && given.reached[i] > LIMITS[i]);
        self.past = std::array::from_fn(|i| self.past[i] + past(i));
        if given.number == 0 {
            self.full += usize::from(given.reached[HELD] > LIMITS[GIVEN]);
            self.most = std::array::from_fn(|i| self.most[i].max(given.reached[i]));
        }
    }

    /// What neither has met. No list is known that has too many switches, and not too many statements first.
    fn missing(a: &Scopes, b: &Scopes) -> Vec<String> {
        let past = |i: usize| a.past[i] + b.past[i];
        let limits = [
            ("too much given to a scope", past(GIVEN)),
            ("too few rows left for a scope's input", past(ROWS_GIVEN)),
            ("too few rows left for what a scope holds", past(ROWS_HELD)),
            ("too many statements", past(STATEMENTS)),
        ];
        let met = limits.into_iter().chain([("answers of full scopes", a.full + b.full)]);
        met.filter(|(_, n)| *n == 0).map(|(name, _)| name.to_string()).collect()
    }

    fn say(&self) {
        println!(
            "    23 because a scope is given too much {}, its input has too few rows left {}, what it holds has {}, it has too many switches {}, too many statements {}; answered with more than {} held {}",
            self.past[GIVEN],
            self.past[ROWS_GIVEN],
            self.past[ROWS_HELD],
            self.past[SWITCHES],
            self.past[STATEMENTS],
            LIMITS[GIVEN],
            self.full
        );
        println!(
            "    the most in a scope of an answered list: given {}, held {}, switches {}, statements {}; rows of all open scopes {}",
            self.most[GIVEN],
            self.most[HELD],
            self.most[SWITCHES],
            self.most[STATEMENTS],
            self.most[ROWS_GIVEN].max(self.most[ROWS_HELD])
        );
    }
}

const SMALL: usize = 0;
const LARGE: usize = 1;

struct Tally {
    scoped: bool,
    parts: [Part; 2],
    tied: usize,
    passed_over: usize,
    differ: usize,
    /// calls by the number that is expected
    numbers: [usize; 256],
    damaged: usize,
    wrapped: usize,
    kinds: [bool; words::KINDS],
    shared: usize,
    unreached: usize,
    rootless: usize,
    source: Duration,
    runs: usize,
}

/// What is counted of the largest lists and answers.
const MOST: [&str; 7] = ["occurrences", "roots", "node rows", "answer rows", "extractions", "bytes", "bytes of a name"];

/// Events of a flat answer, and those that a scoped answer has beside them.
const FLAT: [Event; 5] = [Event::Extraction, Event::SecondExtraction, Event::Reciprocal, Event::FactorMatch, Event::Coefficient];
const SCOPED: [Event; 8] = [
    Event::Match,
    Event::MatchInArm,
    Event::Fusion,
    Event::KeyOfMatch,
    Event::SwitchLeft,
    Event::DefaultApart,
    Event::DivisorSwitch,
    Event::Deepest,
];

fn events(scoped: bool) -> Vec<Event> {
    FLAT.into_iter().chain(SCOPED.into_iter().filter(|_| scoped)).collect()
}

/// The numbers that a form returns.
fn numbers(scoped: bool) -> Vec<u64> {
    let all = [0, SHORT_WORK, BAD_ROWS, BAD_COEFFICIENT, RING, FEW_ROWS, LARGE_SCOPE, NO_ANSWER];
    all.into_iter().filter(|n| scoped || ![RING, LARGE_SCOPE].contains(n)).collect()
}

impl Part {
    fn new() -> Part {
        Part {
            lists: 0,
            near: 0,
            told: [0; 256],
            events: [0; EVENTS.len()],
            most: [0; MOST.len()],
            scopes: Scopes::default(),
        }
    }

    fn mark(&mut self, given: &Given, here: [usize; MOST.len()]) {
        self.lists += 1;
        self.near += usize::from(here[0] >= 900);
        self.told[given.number as usize] += 1;
        self.scopes.mark(given);
        for (count, met) in self.events.iter_mut().zip(given.events) {
            *count += usize::from(met);
        }
        for (most, n) in self.most.iter_mut().zip(here) {
            *most = (*most).max(n);
        }
    }

    fn say(&self, name: &str, scoped: bool) {
        let told: Vec<String> = numbers(scoped).iter().filter(|n| self.told[**n as usize] > 0).map(|n| format!("{n}: {}", self.told[*n as usize])).collect();
        println!("  {} {name} lists, {} of them of 900 occurrences or more; by what the source gives {}", self.lists, self.near, told.join(", "));
        let events: Vec<String> = events(scoped).iter().map(|e| format!("{} {}", EVENTS[*e as usize], self.events[*e as usize])).collect();
        println!("    with {}", events.join(", "));
        let most: Vec<String> = MOST.iter().zip(self.most).map(|(name, n)| format!("{name} {n}")).collect();
        println!("    the most in a list or an answer: {}", most.join(", "));
        if scoped {
            self.scopes.say();
        }
    }
}

impl Tally {
    fn new(scoped: bool) -> Tally {
        Tally {
            scoped,
            parts: [Part::new(), Part::new()],
            tied: 0,
            passed_over: 0,
            differ: 0,
            numbers: [0; 256],
            damaged: 0,
            wrapped: 0,
            kinds: [false; words::KINDS],
            shared: 0,
            unreached: 0,
            rootless: 0,
            source: Duration::ZERO,
            runs: 0,
        }
    }

    /// The source's answer, or none where hash order decides.
    fn settled(&mut self, list: &List, es: &[E], runs: usize) -> Option<Given> {
        let began = Instant::now();
        let first = given(list, es, self.scoped);
        let settled = agree(list, es, &first, runs - 1);
        self.source += began.elapsed();
        self.runs += runs;
        if !settled {
            self.tied += 1;
        }
        settled.then_some(first)
    }

    /// One call; whether the list is to be left out after all, since hash order decides.
    fn hold(&mut self, port: &mut Port, c: &Call, should: &Expected, list: &List, es: &[E], given: &Given) -> bool {
        let Some(difference) = port.difference(c, should) else {
            self.numbers[should.number as usize] += 1;
            return false;
        };
        if !agree(list, es, given, MORE_RUNS) {
            self.tied += 1;
            return true;
        }
        let lent = format!("lent work {}, text {}, table {}, answer {}", c.work, c.text, c.table, c.answer);
        self.report(&format!("{difference}; {lent}"), es, given);
        false
    }

    fn report(&mut self, difference: &str, es: &[E], given: &Given) {
        self.differ += 1;
        if self.differ <= 10 {
            let text: Vec<String> = es.iter().map(E::to_string).collect();
            println!("DIFFERS: {difference}: {}\n  source: {}", text.join("; "), given.printed.replace('\n', "; "));
        }
    }

    fn mark(&mut self, part: usize, list: &List, es: &[E], given: &Given) {
        let trees = words_of(list, es);
        for w in &trees {
            self.kinds[(w % words::BELOW) as usize] = true;
        }
        let (reached, shared) = reached(list);
        let all = list.rows.words.len() / WIDTH;
        self.shared += usize::from(shared);
        self.unreached += usize::from(reached < all);
        self.rootless += usize::from(es.is_empty());
        let name = list.rows.symbols().iter().map(String::len).max().unwrap_or(0);
        self.parts[part].mark(given, [trees.len(), es.len(), all, given.words.len(), given.extracted, given.printed.len(), name]);
    }

    fn say(&self, port: &Port, began: Instant) -> bool {
        let [small, large] = &self.parts;
        println!(
            "{} small lists and {} large, {} differ; {} left out because hash order decides, {} large ones that the source refuses for a ring passed over",
            small.lists, large.lists, self.differ, self.tied, self.passed_over
        );
        small.say("small", self.scoped);
        large.say("large", self.scoped);
        let called: Vec<String> = numbers(self.scoped).iter().map(|n| format!("{n}: {}", self.numbers[*n as usize])).collect();
        println!("  calls by the number returned: {}; with damaged rows {}; lists by the wrapper too {}", called.join(", "), self.damaged, self.wrapped);
        let kinds = self.kinds.iter().filter(|met| **met).count();
        println!(
            "  lists with shared rows {}, rows that no root reaches {}, no roots {}; kinds met {kinds} of {}",
            self.shared,
            self.unreached,
            self.rootless,
            words::KINDS
        );
        println!(
            "  {:.0} s in all; {:.1} microseconds a call in the port, {:.1} a run in the source",
            began.elapsed().as_secs_f64(),
            port.time.as_secs_f64() * 1e6 / port.calls as f64,
            self.source.as_secs_f64() * 1e6 / self.runs as f64
        );
        self.differ == 0 && kinds == words::KINDS && self.all_met()
    }

    /// Whether every number, event and sort of list was met, and most large lists are answered; says what was not.
    fn all_met(&self) -> bool {
        let [small, large] = &self.parts;
        let mut missing: Vec<String> = numbers(self.scoped).iter().filter(|n| self.numbers[**n as usize] == 0).map(u64::to_string).collect();
        let met = |e: &Event| small.events[*e as usize] + large.events[*e as usize] > 0;
        missing.extend(events(self.scoped).iter().filter(|e| !met(e)).map(|e| EVENTS[*e as usize].to_string()));
        let rare = [("shared rows", self.shared), ("rows that no root reaches", self.unreached), ("no roots", self.rootless), ("damaged rows", self.damaged)];
        missing.extend(rare.iter().chain(&[("lists by the wrapper", self.wrapped)]).filter(|(_, n)| *n == 0).map(|(name, _)| name.to_string()));
        if self.scoped {
            missing.extend(Scopes::missing(&small.scopes, &large.scopes));
        }
        if large.told[0] * 2 < large.lists {
            missing.push("answers to most large lists".to_string());
        }
        if !missing.is_empty() {
            println!("NOT MET: {}", missing.join(", "));
        }
        missing.is_empty()
    }
}

/// The words of the list's trees.
fn words_of(list: &List, es: &[E]) -> Vec<u64> {
    let mut words = Vec::new();
    es.iter().for_each(|e| words::put(e, &|name| list.rows.number(name), &mut words));
    words
}

/// How many rows the roots reach, and whether one is read twice.
fn reached(list: &List) -> (usize, bool) {
    let words = &list.rows.words;
    let mut reads = vec![0; words.len() / WIDTH];
    list.roots.iter().for_each(|n| reads[*n as usize] += 1);
    for n in (0..reads.len()).rev() {
        let row = &words[n * WIDTH..];
        if reads[n] > 0 && row[0] > 1 {
            row[3..3 + row[2] as usize].iter().for_each(|f| reads[*f as usize] += 1);
        }
    }
    (reads.iter().filter(|n| **n > 0).count(), reads.iter().any(|n| *n > 1))
}

// ---- runs

/// Copies of a switch that come to a limit of a scope have more occurrences than other small lists, at most so many.
const MOST_OF_COPIES: usize = 400;

/// A small list: one of those that the definitions are held against, or some together. For the scoped form most are dense in switches.
fn small(r: &mut Random, scoped: bool) -> Vec<T> {
    if scoped && r.chance(1) {
        return large::copies(r, MOST_OF_COPIES);
    }
    let count = if r.chance(75) { 1 } else { 2 + r.below(4) };
    let one: fn(&mut Random) -> Vec<T> = if scoped && r.chance(75) { lists::switching } else { lists::list };
    (0..count).flat_map(|_| one(r)).collect()
}

/// Of a thousand lists this many have no roots.
const ROOTLESS: usize = 2;

fn laid(r: &mut Random, trees: &[T]) -> List {
    let mut list = laid::lay_out(r, trees);
    if r.below(1000) < ROOTLESS {
        list.roots.clear();
    }
    list
}

fn compare(scoped: bool, small_lists: usize, large_lists: usize) {
    let began = Instant::now();
    let mut r = Random(SEED);
    let mut port = Port::new(scoped);
    let mut extractor = Extractor::new();
    let mut tally = Tally::new(scoped);
    while tally.parts[SMALL].lists < small_lists {
        let trees = small(&mut r, scoped);
        hold_one(&mut r, &mut port, &mut extractor, &mut tally, &trees, SMALL);
    }
    if scoped {
        hold_edges(&mut r, &mut port, &mut extractor, &mut tally);
    }
    while tally.parts[LARGE].lists < large_lists {
        let most = large::MOST - if r.chance(60) { r.below(8) } else { r.below(400) };
        let trees = large::list(&mut r, most, scoped);
        hold_one(&mut r, &mut port, &mut extractor, &mut tally, &trees, LARGE);
    }
    if !tally.say(&port, began) {
        std::process::exit(1);
    }
}

/// Lists that come to a limit, which are answered, and others that are one past it, which are refused. Where rows are shared, the last scope's input
/// is past it, or by one more what the scope around it holds.
fn hold_edges(r: &mut Random, port: &mut Port, extractor: &mut Extractor, tally: &mut Tally) {
    let reached = |trees: &[T]| {
        let mut maker = tree::Maker::new(true);
        let es: Vec<E> = trees.iter().map(|t| maker.make(t)).collect();
        held::take_reached();
        let refused = asked::asked(&es, true).err();
        (held::take_reached(), refused)
    };
    for edge in large::EDGES {
        let at: &[usize] = match edge {
            Edge::Given => &[GIVEN, GIVEN],
            Edge::Statements => &[STATEMENTS, STATEMENTS],
            Edge::Arm => &[ROWS_GIVEN, ROWS_GIVEN],
            Edge::Two | Edge::Three | Edge::Nine => &[ROWS_GIVEN, ROWS_GIVEN, ROWS_HELD],
        };
        let more = LIMITS[at[0]] - reached(&large::edge(edge, 0)).0[at[0]];
        for (past, i) in at.iter().enumerate() {
            let trees = large::edge(edge, more + past);
            let (sizes, refused) = reached(&trees);
            let (met, others) = (sizes[*i] - LIMITS[*i], (0..LIMITS.len()).all(|j| j == *i || sizes[j] <= LIMITS[j]));
            assert_eq!((met, others, refused.is_some()), (past.min(1), true, past > 0), "{edge:?} {past} past the limit");
            hold_one(r, port, extractor, tally, &trees, LARGE);
        }
    }
}

/// Compares a list, unless it is to be left out.
fn hold_one(r: &mut Random, port: &mut Port, extractor: &mut Extractor, tally: &mut Tally, trees: &[T], part: usize) {
    let list = laid(r, trees);
    let es = laid::expressions(&list, r.chance(50));
    let Some(given) = tally.settled(&list, &es, [RUNS, RUNS_OF_LARGE][part]) else {
        return;
    };
    if part == LARGE && given.number == RING && r.chance(PASSED_OVER) {
        tally.passed_over += 1;
        return;
    }
    let loadable = laid::could_be_loaded(&list.rows.words, &list.roots);
    let c = plain_call(r, &list, &given);
    if tally.hold(port, &c, &expected(&c, loadable, &given), &list, &es, &given) {
        return;
    }
    tally.mark(part, &list, &es, &given);
    if r.chance(REFUSED) {
        hold_refused(r, port, tally, &list, &es, &given);
    }
    if loadable && r.chance(WRAPPED) {
        tally.wrapped += 1;
        if let Some(difference) = wrapped::difference(extractor, &list, &given) {
            tally.report(&difference, &es, &given);
        }
    }
}

/// The same list with too little lent, or damaged rows, or both.
fn hold_refused(r: &mut Random, port: &mut Port, tally: &mut Tally, list: &List, es: &[E], given: &Given) {
    let mut c = plain_call(r, list, given);
    let damaged = r.chance(40);
    if !damaged || r.chance(15) {
        shorten(r, &mut c);
    }
    if !damaged {
        tally.hold(port, &c, &expected(&c, true, given), list, es, given);
        return;
    }
    laid::damage(r, &mut c.rows, &mut c.roots);
    tally.damaged += 1;
    if !laid::could_be_loaded(&c.rows, &c.roots) {
        tally.hold(port, &c, &expected(&c, false, given), list, es, given);
        return;
    }
    // still a list, and another one
    let list = List {
        rows: Rows::of(c.rows.clone()),
        roots: c.roots.clone(),
    };
    let es = laid::expressions(&list, true);
    if let Some(given) = tally.settled(&list, &es, RUNS) {
        tally.hold(port, &c, &expected(&c, true, &given), &list, &es, &given);
    }
}

/// Expectations that are each wrong in one thing: all have to be noticed.
fn self_test(scoped: bool) {
    let mut r = Random(SEED);
    let mut port = Port::new(scoped);
    let mut extractor = Extractor::new();
    let mut tally = Tally::new(scoped);
    let (mut tried, mut noticed) = (0, 0);
    while tried < WRONG {
        let trees = small(&mut r, scoped);
        let list = laid(&mut r, &trees);
        let es = laid::expressions(&list, true);
        let Some(given) = tally.settled(&list, &es, 20) else {
            continue;
        };
        let mut c = plain_call(&mut r, &list, &given);
        if r.chance(20) {
            shorten(&mut r, &mut c);
        }
        let mut should = expected(&c, true, &given);
        assert_eq!(port.difference(&c, &should), None, "a true one: {}", given.printed);
        spoil(&mut r, &mut should);
        noticed += usize::from(port.difference(&c, &should).is_some());
        tried += 1;
        if r.chance(50) {
            assert_eq!(wrapped::difference(&mut extractor, &list, &given), None, "a true one: {}", given.printed);
            let wrong = spoiled(&mut r, given);
            noticed += usize::from(wrapped::difference(&mut extractor, &list, &wrong).is_some());
            tried += 1;
        }
    }
    println!("of {tried} wrong expectations {noticed} are noticed");
    if noticed != tried {
        std::process::exit(1);
    }
}

/// What the source gives made wrong.
fn spoiled(r: &mut Random, given: Given) -> Given {
    let mut wrong = given;
    match r.below(if wrong.number == 0 { 4 } else { 1 }) {
        0 => wrong.number ^= 1,
        1 => wrong.extracted += 1,
        2 => wrong.words.push(0),
        _ => wrong.printed.push('a'),
    }
    wrong
}

/// The number, a word of the answer or of its rows, or a byte of its text made another, or one more or fewer
/// expected.
fn spoil(r: &mut Random, should: &mut Expected) {
    let answered = should.number == 0;
    let words = match r.below(4) {
        0 => {
            should.number ^= 1;
            return;
        }
        1 if answered => {
            if r.chance(50) || should.printed.is_empty() {
                should.printed.push('a');
            } else {
                should.printed.pop();
            }
            return;
        }
        2 => &mut should.answer,
        _ => &mut should.table,
    };
    let i = r.below(words.len() + 1);
    match r.below(3) {
        0 if !words.is_empty() => {
            words.pop();
        }
        1 if i < words.len() => words[i] += 1,
        _ => words.push(r.below(300) as u64),
    }
}
