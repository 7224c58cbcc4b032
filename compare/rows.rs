//! Node rows and answer rows as words (Rows.antt in crates/spec_tree/specs, AnswerRows.antt in crates/spec_cse/specs), and random names.
use crate::arael::E;
use crate::asked::Answer;
use crate::cse::{Arm, Intermediate, Switch};
use crate::random::Random;
use crate::tree::{SELECT, SELECT_OR};
use crate::words::{self, BELOW};
use std::collections::HashMap;

// ---- node rows

/// A row is so many words: kind, default flag, how many fields, and the fields.
pub const WIDTH: usize = 35;

/// The symbols of a list by their rows; in other rows there are constants and operations.
#[derive(Default)]
pub struct Rows {
    pub names: Vec<Option<String>>,
    pub words: Vec<u64>,
    /// the first row of each name
    first: HashMap<String, u64>,
}

impl Rows {
    pub fn new() -> Rows {
        Rows::default()
    }

    /// Rows that are there already.
    pub fn of(words: Vec<u64>) -> Rows {
        let mut rows = Rows::default();
        for row in words.chunks_exact(WIDTH) {
            let named = || row[3..3 + row[2] as usize].iter().map(|b| *b as u8 as char).collect();
            rows.note((row[0] == 0).then(named));
        }
        rows.words = words;
        rows
    }

    /// Notes what the next row names; its number.
    fn note(&mut self, name: Option<String>) -> usize {
        let row = self.names.len();
        if let Some(name) = &name {
            self.first.entry(name.clone()).or_insert(row as u64);
        }
        self.names.push(name);
        row
    }

    /// Adds a row; its number.
    fn put(&mut self, name: Option<String>, kind: u64, default: u64, fields: &[u64]) -> usize {
        let mut row = vec![kind, default, fields.len() as u64];
        row.extend(fields);
        row.resize(WIDTH, 0);
        self.words.extend(row);
        self.note(name)
    }

    pub fn put_symbol(&mut self, name: &str) -> usize {
        let fields: Vec<u64> = name.bytes().map(u64::from).collect();
        self.put(Some(name.to_string()), 0, 0, &fields)
    }

    pub fn put_constant(&mut self, n: i64) -> usize {
        self.put(None, 1, 0, &[u64::from(n < 0), n.unsigned_abs()])
    }

    /// An operation on earlier rows; a Select with a default is a kind of its own here.
    pub fn put_operation(&mut self, kind: usize, operands: &[usize]) -> usize {
        let fields: Vec<u64> = operands.iter().map(|n| *n as u64).collect();
        let default = u64::from(kind == SELECT_OR);
        self.put(None, kind.min(SELECT) as u64, default, &fields)
    }

    /// A constant, or an operation on earlier rows.
    pub fn put_other(&mut self, r: &mut Random) {
        let before = self.names.len();
        if before == 0 || r.chance(50) {
            let sign = if r.chance(50) { -1 } else { 1 };
            self.put_constant(sign * (1 + r.below(100) as i64));
        } else {
            self.put_operation(3, &[r.below(before), r.below(before)]);
        }
    }

    /// The number of a symbol: that of the first row with its name.
    pub fn number(&self, name: &str) -> u64 {
        self.first[name]
    }

    pub fn symbols(&self) -> Vec<String> {
        self.names.iter().flatten().cloned().collect()
    }
}

// ---- names

const FIRST: &[u8] = b"abcxyzABCXYZmx____";
const LATER: &[u8] = b"abcxyzABCXYZmx____0123456789";

/// Names that are nearly those of an answer, which no symbol of a list has.
const NEARLY: [&str; 8] = ["__x", "__m", "__x1a", "_x1", "__X1", "__m_0", "x", "__mm2"];

fn made_by_an_answer(name: &str) -> bool {
    let digits = |head| {
        let rest: Option<&str> = name.strip_prefix(head);
        rest.is_some_and(|d| !d.is_empty() && d.bytes().all(|b| b.is_ascii_digit()))
    };
    digits("__x") || digits("__m")
}

pub fn name(r: &mut Random) -> String {
    loop {
        if r.chance(10) {
            return r.pick(&NEARLY).to_string();
        }
        let length = if r.chance(30) { 32 - r.below(3) } else { 1 + r.below(12) };
        let mut bytes = vec![*r.pick(FIRST)];
        bytes.extend((1..length).map(|_| *r.pick(LATER)));
        let name = String::from_utf8(bytes).unwrap();
        if !made_by_an_answer(&name) {
            return name;
        }
    }
}

// ---- answer rows

/// Kinds of rows beside those of expressions. A match's is 30 for a sign switch, 31 for an index
/// switch, 32 for one with a default.
const LET: u64 = 29;
const SIGN: u64 = 30;
const INDEX: u64 = 31;
const INDEX_OR: u64 = 32;
const NAME: u64 = 33;
const ARM: u64 = 34;
const VALUE: u64 = 35;
pub const RESULT: u64 = 36;

struct Layout<'a> {
    rows: &'a Rows,
    words: Vec<u64>,
}

impl Layout<'_> {
    fn put(&mut self, kind: u64, below: u64) {
        self.words.push(kind + BELOW * below);
    }

    fn code(&self, name: &str) -> u64 {
        words::symbol_code(name, &|name| self.rows.number(name))
    }

    fn tree(&mut self, e: &E) {
        words::put(e, &|name| self.rows.number(name), &mut self.words);
    }

    fn each(&mut self, kind: u64, es: &[E]) {
        for e in es {
            self.put(kind, 0);
            self.tree(e);
        }
    }

    fn intermediate(&mut self, it: &Intermediate) {
        match it {
            Intermediate::Let { name, expr } => {
                self.put(LET, self.code(name));
                self.tree(expr);
            }
            Intermediate::Match { switch, names, arms, default } => {
                let kind = match (switch, default) {
                    (Switch::Sign(_), _) => SIGN,
                    (_, None) => INDEX,
                    (_, Some(_)) => INDEX_OR,
                };
                let all: Vec<&Arm> = arms.iter().chain(default).collect();
                self.put(kind, (1 + names.len() + all.len()) as u64);
                self.tree(switch.expr());
                names.iter().for_each(|name| self.put(NAME, self.code(name)));
                all.into_iter().for_each(|arm| self.arm(arm));
            }
        }
    }

    fn arm(&mut self, arm: &Arm) {
        self.put(ARM, (arm.inters.len() + arm.values.len()) as u64);
        arm.inters.iter().for_each(|it| self.intermediate(it));
        self.each(VALUE, &arm.values);
    }
}

pub fn laid_out(rows: &Rows, a: &Answer) -> Vec<u64> {
    let mut layout = Layout { rows, words: Vec::new() };
    a.inters.iter().for_each(|it| layout.intermediate(it));
    layout.each(RESULT, &a.results);
    layout.words
}
