//! Holds the definitions against the source: makes random lists, asks the source for its answer in
//! both forms, and writes a theorem for each list that says that the definitions give the same.
//! The script `run` lays cse.rs and fmt.rs of the source beside these files, builds, and has the
//! theorems checked.
//!
//! Arguments: the number of lists, then the folders for theorems, each a crate's specs/. With
//! `--spoil` before them every expectation is made wrong, to see that the check refuses each.
#![allow(dead_code)]

mod answers;
mod arael;
mod asked;
mod cse;
mod fmt;
mod lists;
mod random;
mod theorems;
mod tree;

// cse.rs and fmt.rs look for these at the top of the crate
pub use arael::{E, Expr, FuncKind, symbol};
pub(crate) use arael::{as_exact_int, expand_func};

use answers::{EVENTS, Event, Events, Outcome, settled};
use std::collections::HashSet;
use tree::{KINDS, Maker, T, antt, mark_kinds};

const SEED: u64 = 20_261_115;
/// Of so many lists one nests as deep as may be. Of so many one is made to have some of the kinds that the fewest lists
/// have, while these are fewer than wanted.
const ONE_IS_DEEP: usize = 20;
const ONE_HAS_KINDS: usize = 5;
const KINDS_AT_ONCE: usize = 3;
const LISTS_OF_A_KIND: usize = 3;

/// A list with the source's two answers.
pub struct Case {
    pub es: Vec<T>,
    /// the list as the source prints it, for a reader
    pub text: String,
    pub flat: Outcome,
    pub scoped: Outcome,
}

/// How many lists of each sort there are.
#[derive(Default)]
struct Tally {
    lists: usize,
    tied: usize,
    refused: [usize; 12],
    events: [usize; EVENTS.len()],
    kinds: [usize; KINDS],
}

fn main() {
    let mut words: Vec<String> = std::env::args().skip(1).collect();
    let spoil = words[0] == "--spoil";
    words.drain(..usize::from(spoil));
    let count = words[0].parse().expect("a number of lists");
    asked::hush();
    let mut tally = Tally::default();
    let mut cases = gather(count, &mut tally);
    let missing = tally.missing();
    if !missing.is_empty() {
        eprintln!("compare: FAILED: of {count} lists none has {}", missing.join(", "));
        std::process::exit(1);
    }
    if spoil {
        cases
            .iter_mut()
            .enumerate()
            .for_each(|(n, case)| theorems::spoil(n, case));
    }
    theorems::write(&cases, &words[1..]).expect("the theorems can be written");
    println!("{}", tally.line());
}

/// Lists until there are enough, none twice. Of those in which nothing happens one in ten is kept.
fn gather(count: usize, tally: &mut Tally) -> Vec<Case> {
    let mut r = random::Random(SEED);
    let mut seen = HashSet::new();
    let mut cases = Vec::new();
    while cases.len() < count {
        let es = tally.next(&mut r);
        let mut maker = Maker::new(r.chance(50));
        let given: Vec<E> = es.iter().map(|t| maker.make(t)).collect();
        let picky = r.chance(90);
        if !seen.insert(es.iter().map(antt).collect::<Vec<_>>()) {
            continue;
        }
        let (Some((flat, f)), Some((scoped, s))) = (settled(false, &given), settled(true, &given))
        else {
            tally.tied += 1;
            continue;
        };
        let events: Events = std::array::from_fn(|i| f[i] || s[i]);
        let answered = matches!(
            (&flat, &scoped),
            (Outcome::Given { .. }, Outcome::Given { .. })
        );
        if picky && answered && events == Events::default() {
            continue;
        }
        let text = given
            .iter()
            .map(E::to_string)
            .collect::<Vec<_>>()
            .join("; ");
        let case = Case {
            es,
            text,
            flat,
            scoped,
        };
        tally.add(&case, &events);
        cases.push(case);
    }
    cases
}

impl Tally {
    /// A list to try, by how many there are and what they lack.
    fn next(&self, r: &mut random::Random) -> Vec<T> {
        // symbols and constants are in every other list
        let mut kinds: Vec<usize> = (tree::NEG..KINDS).collect();
        kinds.sort_by_key(|k| self.kinds[*k]);
        if self.lists % ONE_IS_DEEP == 1 {
            lists::deepest(r)
        } else if self.lists % ONE_HAS_KINDS == 0 && self.kinds[kinds[0]] < LISTS_OF_A_KIND {
            lists::with_kinds(r, &kinds[..KINDS_AT_ONCE])
        } else {
            lists::list(r)
        }
    }

    /// What has to be met and was not: a kind, and arms nested 8 deep in an answer.
    fn missing(&self) -> Vec<&'static str> {
        let kinds = tree::WORDS.into_iter().zip(self.kinds);
        let deepest = Event::Deepest as usize;
        kinds.chain([(EVENTS[deepest], self.events[deepest])]).filter(|(_, n)| *n == 0).map(|(name, _)| name).collect()
    }

    fn add(&mut self, case: &Case, events: &Events) {
        self.lists += 1;
        let mut kinds = [false; KINDS];
        case.es.iter().for_each(|t| mark_kinds(t, &mut kinds));
        for (count, seen) in self.kinds.iter_mut().zip(kinds) {
            *count += usize::from(seen);
        }
        for (count, seen) in self.events.iter_mut().zip(events) {
            *count += usize::from(*seen);
        }
        for n in [10, 11] {
            let refused = Outcome::Refused(n);
            self.refused[n] += usize::from(case.flat == refused || case.scoped == refused);
        }
    }

    fn line(&self) -> String {
        let events: Vec<String> = EVENTS
            .iter()
            .zip(self.events)
            .map(|(name, n)| format!("{name} {n}"))
            .collect();
        format!(
            "{} lists agree in both forms, {} left out because hash order decides; refused by 10 {}, by 11 {}; \
             lists with {}; each of {KINDS} kinds in {} lists or more",
            self.lists,
            self.tied,
            self.refused[10],
            self.refused[11],
            events.join(", "),
            self.kinds.iter().min().expect("kinds"),
        )
    }
}
