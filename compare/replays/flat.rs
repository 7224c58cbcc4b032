//! The flat answers that are stored: those of the paper's marked lists, of sheets that load refuses, whose numbers are
//! the paper's, of small random lists, and of large ones.
use crate::answers::{Event, Events};
use crate::large::{self, Family};
use crate::random::Random;
use crate::{Case, SEED, case, lists, marked, tree};

/// Small lists are taken until there are so many, and until each thing that `Met` counts was met so often.
const SMALL: usize = 320;
const OF_EACH: usize = 25;
/// Lists with more bytes in sheet and answer are left out.
const SHORT: usize = 699;
const SHORT_LARGE: usize = 11_999;
/// Large lists have at least so many occurrences.
const NEAR_THE_LIMIT: usize = 900;

pub fn cases() -> Vec<Case> {
    marked::cases(false).into_iter().chain(small()).chain(large()).collect()
}

/// How often lists were met with extractions, with two, with reciprocals, with matches by factors, with
/// rebuilt coefficients, with bindings in another order than their numbers', and refused by 10.
#[derive(Default)]
struct Met([usize; 7]);

impl Met {
    fn marks(text: &str, events: &Option<Events>) -> [bool; 7] {
        let Some(events) = events else {
            return [false, false, false, false, false, false, true];
        };
        let here = |e: Event| events[e as usize];
        [
            here(Event::Extraction),
            here(Event::SecondExtraction),
            here(Event::Reciprocal),
            here(Event::FactorMatch),
            here(Event::Coefficient),
            out_of_order(text),
            false,
        ]
    }
}

/// Whether a binding stands before one with a lower number.
fn out_of_order(text: &str) -> bool {
    let numbers: Vec<usize> =
        text.lines().filter_map(|l| l.strip_prefix("let __x")?.split(' ').next()?.parse().ok()).collect();
    numbers.windows(2).any(|w| w[0] > w[1])
}

fn small() -> Vec<Case> {
    let mut r = Random(SEED);
    let mut met = Met::default();
    let mut cases = Vec::new();
    while cases.len() < SMALL || met.0.iter().any(|n| *n < OF_EACH) {
        let es = lists::list(&mut r);
        let share = r.chance(50);
        let picky = r.chance(95);
        let Some((case, events)) = case(false, &es, share) else {
            continue;
        };
        let marks = Met::marks(&case.said, &events);
        let wanted = marks.iter().zip(met.0).any(|(here, n)| *here && n < OF_EACH);
        let any = marks.iter().any(|here| *here);
        if case.size() > SHORT || (picky && !any) || (cases.len() >= SMALL && !wanted) {
            continue;
        }
        met.0.iter_mut().zip(marks).for_each(|(n, here)| *n += usize::from(here));
        cases.push(case);
    }
    cases
}

/// A list of each family that has one near the limit of 1,024 occurrences.
fn large() -> Vec<Case> {
    let families = [
        Family::Products,
        Family::Divisions,
        Family::Switches,
        Family::Grown,
        Family::Chains,
        Family::Derivatives,
    ];
    families.into_iter().filter_map(large_of).collect()
}

fn large_of(family: Family) -> Option<Case> {
    let mut r = Random(SEED);
    for _ in 0..200 {
        let es = large::of_family(&mut r, family, large::MOST);
        let total: usize = es.iter().map(tree::size).sum();
        if total < NEAR_THE_LIMIT || total > large::MOST || es.len() > large::ROOTS {
            continue;
        }
        match case(false, &es, true) {
            Some((case, Some(_))) if case.size() <= SHORT_LARGE => return Some(case),
            _ => continue,
        }
    }
    None
}
