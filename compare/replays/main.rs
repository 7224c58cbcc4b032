//! Makes stored answers of the source: sheets, and what csesheet (`flat`) or csescoped (`scoped`) has to print for
//! each, the source's answer or the refusal. Arguments: the form, and the folder that the two files are written to,
//! stdin and stdout.
//!
//! A line of stdin is a sheet, with a slash for each CRLF. In stdout a line `# N` stands before what is printed for the
//! sheet on line N. Lists where hash order decides are left out.
#![allow(dead_code)]

mod answers;
mod arael;
mod asked;
mod cse;
mod flat;
mod fmt;
mod held;
mod large;
mod lists;
mod marked;
mod pair;
mod random;
mod records;
mod scoped;
mod tree;

// cse.rs and fmt.rs look for these at the top of the crate
pub use arael::{E, Expr, FuncKind, symbol};
pub(crate) use arael::{as_exact_int, expand_func};

use answers::{Events, Outcome, RUNS, settled_in};
use pair::Pair;
use std::collections::HashSet;
use tree::{Maker, T};

const SEED: u64 = 20_261_115;

fn main() {
    let words: Vec<String> = std::env::args().skip(1).collect();
    asked::hush();
    let cases = if words[0] == "scoped" { scoped::cases() } else { flat::cases() };
    let mut seen = HashSet::new();
    let mut pair = Pair::default();
    for case in cases {
        if seen.insert(case.clone()) {
            pair.stdin += &format!("{}\n", case.sheet);
            pair.stdout += &format!("# {}\n{}", seen.len(), case.said);
        }
    }
    pair.write(&words[1]);
}

/// A sheet, a slash for each CRLF, and what the program prints for it.
#[derive(Clone, PartialEq, Eq, Hash)]
struct Case {
    sheet: String,
    said: String,
}

impl Case {
    fn new(sheet: &str, said: &str) -> Case {
        Case {
            sheet: sheet.to_string(),
            said: said.to_string(),
        }
    }

    fn refused(sheet: &str, number: usize, record: usize) -> Case {
        Case::new(sheet, &format!("refused {number} {record}\n"))
    }

    fn size(&self) -> usize {
        self.sheet.len() + self.said.len()
    }
}

/// The source's expressions for a list.
fn made(es: &[T], share: bool) -> Vec<E> {
    let mut maker = Maker::new(share);
    es.iter().map(|t| maker.make(t)).collect()
}

/// The list's sheet and its answer, or none where hash order decides.
fn case(scoped: bool, es: &[T], share: bool) -> Option<(Case, Option<Events>)> {
    case_in(RUNS, scoped, es, share)
}

fn case_in(runs: usize, scoped: bool, es: &[T], share: bool) -> Option<(Case, Option<Events>)> {
    let (outcome, events) = settled_in(runs, scoped, &made(es, share))?;
    let sheet = records::sheet(es, share);
    Some(match outcome {
        Outcome::Given { text, .. } => (Case::new(&sheet, &text), Some(events)),
        Outcome::Refused(n) => (Case::refused(&sheet, n, 0), None),
    })
}
