//! The scoped answers that are stored: those of the paper's marked lists, of lists at the limits of 23, of large lists,
//! and of small random ones, most of them dense in switches. Small lists are taken until all that `needs` names was met
//! as often as it says; what is met is read off the list and off the source's answer to it.
use crate::answers::{EVENTS, Event, RUNS, met};
use crate::asked::asked;
use crate::cse::{Intermediate, Switch};
use crate::held::{self, GIVEN, LIMITS, ROWS_GIVEN, ROWS_HELD, STATEMENTS};
use crate::large::{self, EDGES, Edge, Family};
use crate::random::Random;
use crate::tree::*;
use crate::{Case, SEED, case_in, lists, made, marked, records};
use std::collections::HashSet;

/// At least so many lists are stored.
const LISTS: usize = 400;
/// Each thing that small lists can have is met so often at least.
const OF_EACH: usize = 10;
const DEEPEST: usize = 25;
/// So many small lists are tried at most.
const TRIES: usize = 100_000;
/// Lists with more bytes in sheet and answer are left out.
const SHORT: usize = 1_499;
const SHORT_LARGE: usize = 19_999;
/// Large lists have at least so many occurrences.
const NEAR_THE_LIMIT: usize = 900;
/// A list at a limit of 23 takes the source most of a second and has no ties to find, so that it is run so often.
const RUNS_AT_A_LIMIT: usize = 3;
/// Large lists of parts that are tried on the source are made so often, since hash order may decide which parts are in.
const MADE: usize = 20;
/// The most arms that a Select may have, and the most occurrences of a small list of copies.
const ARMS: usize = 16;
const MOST_OF_COPIES: usize = 400;

pub fn cases() -> Vec<Case> {
    let mut store = Store::new(marked::cases(true));
    for es in edges() {
        store.offer(RUNS_AT_A_LIMIT, &es, true, SHORT_LARGE);
    }
    large(&mut store);
    small(&mut store);
    store.say();
    store.cases
}

// ---- what is to be met

const SWITCH: [&str; 3] = ["if", "match that panics", "match with a default"];
const NAMES: [&str; 2] = ["one name", "several names"];
const ARM: [&str; 2] = ["arms without statements", "arms with statements"];

/// What lists are counted by, and how many there are to be of each; `marks` says in the same order what a list has.
fn needs() -> Vec<(String, usize)> {
    let mut needs: Vec<(String, usize)> = vec![("lists".to_string(), LISTS)];
    needs.extend(WORDS.iter().map(|word| (format!("answered with {word}"), OF_EACH)));
    needs.extend(EVENTS.iter().map(|event| (event.to_string(), OF_EACH)));
    needs[1 + KINDS + Event::Deepest as usize].1 = DEEPEST;
    for switch in SWITCH {
        for names in NAMES {
            needs.extend(ARM.iter().map(|arm| (format!("{switch}, {names}, {arm}"), OF_EACH)));
        }
    }
    needs.push((format!("matches of {ARMS} arms"), OF_EACH));
    needs.push((format!("answered with {NEAR_THE_LIMIT} occurrences or more"), OF_EACH));
    needs.extend([10, 11, 23].map(|n| (format!("refused by {n}"), OF_EACH)));
    let limits = ["a scope's input", "rows for a scope's input", "rows for what a scope holds", "statements"];
    needs.extend(limits.map(|limit| (format!("refused by 23 for {limit}"), 1)));
    needs
}

/// What a list has: itself, its kinds, what came about on the way to its answer, or its refusal.
fn marks(es: &[T], share: bool) -> Vec<bool> {
    let given = made(es, share);
    held::take_reached();
    let told = asked(&given, true);
    let reached = held::take_reached();
    let mut kinds = [false; KINDS];
    es.iter().for_each(|t| mark_kinds(t, &mut kinds));
    let answered = told.is_ok();
    let mut forms = Forms::default();
    let mut events = [false; EVENTS.len()];
    if let Ok(answer) = &told {
        events = met(true, answer).1;
        forms.look(&answer.inters);
    }
    let near = es.iter().map(size).sum::<usize>() >= NEAR_THE_LIMIT;
    let number = told.err();
    let past = |i: usize| number == Some(23) && reached[i] > LIMITS[i];
    let mut marks = vec![true];
    marks.extend(kinds.iter().map(|here| *here && answered));
    marks.extend(events);
    marks.extend(forms.matches);
    marks.extend([forms.widest, near && answered]);
    marks.extend([10, 11, 23].map(|n| number == Some(n)));
    marks.extend([GIVEN, ROWS_GIVEN, ROWS_HELD, STATEMENTS].map(past));
    marks
}

/// The forms of the matches of an answer: by their switch, whether they have several names, and whether an arm has
/// statements; and whether one has as many arms as may be.
#[derive(Default)]
struct Forms {
    matches: [bool; 12],
    widest: bool,
}

impl Forms {
    fn look(&mut self, inters: &[Intermediate]) {
        for it in inters {
            let Intermediate::Match { switch, names, arms, default } = it else {
                continue;
            };
            let kind = match (switch, default) {
                (Switch::Sign(_), _) => 0,
                (Switch::Index(_), None) => 1,
                (Switch::Index(_), Some(_)) => 2,
            };
            self.widest |= arms.len() == ARMS;
            for arm in arms.iter().chain(default) {
                let form = 4 * kind + 2 * usize::from(names.len() > 1) + usize::from(!arm.inters.is_empty());
                self.matches[form] = true;
                self.look(&arm.inters);
            }
        }
    }
}

// ---- what is stored

struct Store {
    cases: Vec<Case>,
    seen: HashSet<String>,
    needs: Vec<(String, usize)>,
    counts: Vec<usize>,
}

impl Store {
    /// With some cases that aren't counted.
    fn new(cases: Vec<Case>) -> Store {
        let needs = needs();
        Store {
            seen: cases.iter().map(|case| case.sheet.clone()).collect(),
            cases,
            counts: vec![0; needs.len()],
            needs,
        }
    }

    /// Whether a list has something that was met too seldom. One in which nothing comes about is never wanted.
    fn wants(&self, marks: &[bool]) -> bool {
        let something = marks[1 + KINDS..].contains(&true);
        something && (0..marks.len()).any(|i| marks[i] && self.counts[i] < self.needs[i].1)
    }

    fn met(&self) -> bool {
        self.counts.iter().zip(&self.needs).all(|(n, need)| *n >= need.1)
    }

    /// Stores a list that is wanted, unless so many runs show that hash order decides, or it is long; whether it did.
    fn offer(&mut self, runs: usize, es: &[T], share: bool, short: usize) -> bool {
        if self.seen.contains(&records::sheet(es, share)) {
            return false;
        }
        let marks = marks(es, share);
        if !self.wants(&marks) {
            return false;
        }
        let Some((case, _)) = case_in(runs, true, es, share) else {
            return false;
        };
        let fits = case.size() <= short;
        if fits {
            self.seen.insert(case.sheet.clone());
            self.cases.push(case);
            self.counts.iter_mut().zip(marks).for_each(|(n, here)| *n += usize::from(here));
        }
        fits
    }

    /// Says what was met, and ends the run where that isn't enough.
    fn say(&self) {
        let count = |(need, n): (&(String, usize), &usize)| format!("{} {n}", need.0);
        let counts: Vec<String> = self.needs.iter().zip(&self.counts).map(count).collect();
        println!("scoped, beside the marked lists: {}", counts.join("; "));
        for ((name, least), n) in self.needs.iter().zip(&self.counts) {
            if n < least {
                eprintln!("scoped: too few lists, {name}: {n} and not {least}");
            }
        }
        if !self.met() {
            std::process::exit(1);
        }
    }
}

// ---- lists

/// Lists that come to a limit of 23, and some that are past it; of rows by one and by two, since that is tested twice.
fn edges() -> Vec<Vec<T>> {
    let reached = |es: &[T]| {
        held::take_reached();
        let _ = asked(&made(es, true), true);
        held::take_reached()
    };
    let around = |edge: Edge| {
        let (at, past) = match edge {
            Edge::Given => (GIVEN, 1),
            Edge::Statements => (STATEMENTS, 1),
            Edge::Arm => (ROWS_GIVEN, 1),
            Edge::Two | Edge::Three | Edge::Nine => (ROWS_GIVEN, 2),
        };
        let more = LIMITS[at] - reached(&large::edge(edge, 0))[at];
        (0..=past).map(move |past| large::edge(edge, more + past))
    };
    EDGES.into_iter().flat_map(around).collect()
}

/// Lists near the limit of 1,024 occurrences, of each family that has some that are answered briefly.
const FAMILIES: [(Family, usize); 9] = [
    (Family::Nested, 4),
    (Family::Copies, 3),
    (Family::Tangled, 1),
    (Family::Grown, 3),
    (Family::Divisions, 1),
    (Family::Derivatives, 1),
    (Family::Chains, 1),
    (Family::Stairs, 1),
    (Family::Doubled, 1),
];

fn large(store: &mut Store) {
    for (family, count) in FAMILIES {
        let mut offered = |es: Vec<T>| store.offer(RUNS, &es, true, SHORT_LARGE);
        let stored = |seed: &u64| near_the_limit(family, *seed).is_some_and(&mut offered);
        let found = (SEED..SEED + 200).filter(stored).take(count).count();
        assert_eq!(found, count, "{family:?}");
    }
}

/// The list of a seed, unless it is too small, has too many roots, is refused, or hash order decides what it is.
fn near_the_limit(family: Family, seed: u64) -> Option<Vec<T>> {
    let make = || large::of_family(&mut Random(seed), family, large::MOST);
    let es = make();
    let fits = (NEAR_THE_LIMIT..=large::MOST).contains(&es.iter().map(size).sum()) && es.len() <= large::ROOTS;
    let answered = fits && asked(&made(&es, true), true).is_ok();
    let sheet = records::sheet(&es, true);
    (answered && (1..MADE).all(|_| records::sheet(&make(), true) == sheet)).then_some(es)
}

fn small(store: &mut Store) {
    let mut r = Random(SEED);
    for _ in 0..TRIES {
        if store.met() {
            return;
        }
        let es = match r.below(20) {
            0..=9 => recast(&mut r, lists::switching),
            10..=12 => lists::switching(&mut r),
            13 => lists::list(&mut r),
            14 => recast(&mut r, lists::list),
            15 => large::copies(&mut r, MOST_OF_COPIES),
            16 | 17 => wide(&mut r),
            _ => [lists::switching(&mut r), lists::switching(&mut r)].concat(),
        };
        let share = r.chance(50);
        store.offer(RUNS, &es, share, SHORT);
    }
}

const UNARY: [usize; 17] = [NEG, 8, 9, 10, 11, 12, 13, 15, 16, 17, 18, 19, 20, 21, 22, 23, 24];
const BINARY: [usize; 6] = [ADD, 4, MUL, DIV, 7, ATAN2];

/// Such a list with other operations in place of most, the same for the same, so that what repeats still does.
fn recast(r: &mut Random, list: fn(&mut Random) -> Vec<T>) -> Vec<T> {
    let es = list(r);
    let to: [usize; KINDS] = std::array::from_fn(|kind| match kind {
        _ if UNARY.contains(&kind) && r.chance(70) => *r.pick(&UNARY),
        _ if BINARY.contains(&kind) && r.chance(30) => *r.pick(&BINARY),
        _ => kind,
    });
    es.iter().map(|t| recast_tree(t, &to)).collect()
}

fn recast_tree(t: &T, to: &[usize; KINDS]) -> T {
    match t.as_ref() {
        Tree::Op(kind, parts) => op(to[*kind], parts.iter().map(|p| recast_tree(p, to)).collect()),
        _ => t.clone(),
    }
}

/// Switches on one key, of as many arms as may be or fewer.
fn wide(r: &mut Random) -> Vec<T> {
    let kind = *r.pick(&[SELECT, SELECT_OR]);
    let arms = if r.chance(50) { ARMS } else { 3 + r.below(ARMS - 2) };
    let sum = op(ADD, vec![sym("a"), sym("b")]);
    let square = op(MUL, vec![sum.clone(), sum.clone()]);
    let parts = [sym("a"), num(1), sum.clone(), op(8, vec![sum]), square, op(CLAMP, vec![sym("c"), num(-1), num(1)])];
    let one = |r: &mut Random| {
        let operands = (0..arms + usize::from(kind == SELECT_OR)).map(|_| r.pick(&parts).clone());
        op(kind, std::iter::once(sym("i")).chain(operands).collect())
    };
    (0..1 + r.below(2)).map(|_| one(r)).collect()
}
