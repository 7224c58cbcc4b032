//! The source's answers to a list, where all runs agree: what it prints, the rows that this takes, how
//! many bindings extraction made, or the number of the refusal; and what came about on the way.
use crate::arael::{E, Expr};
use crate::asked::{Answer, asked, text};
use crate::cse::{Arm, Intermediate, Switch, children};
use std::collections::HashMap;

/// How often a list is run. Hash order is new in each run, so a tie that it decides stays hidden
/// once in 2^47 lists.
pub const RUNS: usize = 48;

#[derive(PartialEq)]
pub enum Outcome {
    Given {
        rows: usize,
        extracted: usize,
        text: String,
    },
    Refused(usize),
}

/// What can come about on the way to an answer, to tell how much a list tries.
#[derive(Clone, Copy)]
pub enum Event {
    Extraction,
    SecondExtraction,
    Reciprocal,
    FactorMatch,
    Coefficient,
    Match,
    MatchInArm,
    Fusion,
    KeyOfMatch,
    SwitchLeft,
    DefaultApart,
    DivisorSwitch,
    Deepest,
}

/// Arms nest so deep at most.
const DEEPEST: usize = 8;

pub const EVENTS: [&str; 13] = [
    "extractions",
    "two or more",
    "reciprocals",
    "factor matches",
    "rebuilt coefficients",
    "matches",
    "matches in arms",
    "matches of several switches",
    "keys that read a match",
    "switches left in a scoped answer",
    "matches on one key with and without a default",
    "reciprocals of a divisor with a switch",
    "arms nested 8 deep",
];

pub type Events = [bool; EVENTS.len()];

/// The outcome that all runs agree on, or none where hash order decides.
pub fn settled(scoped: bool, es: &[E]) -> Option<(Outcome, Events)> {
    settled_in(RUNS, scoped, es)
}

/// The same for so many runs.
pub fn settled_in(runs: usize, scoped: bool, es: &[E]) -> Option<(Outcome, Events)> {
    let first = once(scoped, es);
    (1..runs)
        .all(|_| once(scoped, es).0 == first.0)
        .then_some(first)
}

fn once(scoped: bool, es: &[E]) -> (Outcome, Events) {
    match asked(es, scoped) {
        Ok(answer) => given(scoped, &answer),
        Err(number) => (Outcome::Refused(number), Events::default()),
    }
}

fn given(scoped: bool, a: &Answer) -> (Outcome, Events) {
    let (extracted, events) = met(scoped, a);
    (
        Outcome::Given {
            rows: block_rows(&a.inters, &a.results),
            extracted,
            text: text(a),
        },
        events,
    )
}

/// The extraction count, and what came about.
pub fn met(scoped: bool, a: &Answer) -> (usize, Events) {
    let mut look = Look {
        scoped,
        ..Look::default()
    };
    look.block(&a.inters, &a.results, 0);
    let extracted = look.lets - a.reciprocals;
    look.see(Event::Extraction, extracted > 0);
    look.see(Event::SecondExtraction, extracted > 1);
    look.see(Event::Reciprocal, a.reciprocals > 0);
    look.see(Event::DivisorSwitch, look.switched && look.ones_over == a.reciprocals);
    (extracted, look.events)
}

// ---- rows: one for each occurrence, let, match, match name, arm or default, result or arm value

fn size(e: &E) -> usize {
    1 + children(e).into_iter().map(size).sum::<usize>()
}

fn block_rows(inters: &[Intermediate], values: &[E]) -> usize {
    inters.iter().map(rows).sum::<usize>() + values.iter().map(|e| 1 + size(e)).sum::<usize>()
}

fn rows(it: &Intermediate) -> usize {
    match it {
        Intermediate::Let { expr, .. } => 1 + size(expr),
        Intermediate::Match {
            switch,
            names,
            arms,
            default,
        } => {
            let arm = |a: &Arm| 1 + block_rows(&a.inters, &a.values);
            1 + size(switch.expr())
                + names.len()
                + arms.iter().chain(default).map(arm).sum::<usize>()
        }
    }
}

// ---- lets and events, read off an answer

#[derive(Default)]
struct Look {
    scoped: bool,
    lets: usize,
    events: Events,
    /// for each name of a let whether it is bound to a product of coefficient 1
    products: HashMap<String, bool>,
    /// how many lets are `1 / d`, which a reciprocal is and an extraction may be, and whether a switch was or is in such a divisor
    ones_over: usize,
    switched: bool,
}

/// Whether the name is one that a match binds.
fn of_match(name: &str) -> bool {
    name.strip_prefix("__m").is_some_and(|n| !n.is_empty() && n.bytes().all(|b| b.is_ascii_digit()))
}

fn has_switch(e: &E) -> bool {
    matches!(e.as_ref(), Expr::Select { .. } | Expr::Branch(..)) || children(e).into_iter().any(has_switch)
}

/// Whether two matches on one index and of as many arms are apart because one alone has a default.
fn default_apart(inters: &[Intermediate]) -> bool {
    let found = |with: bool| {
        inters.iter().filter_map(move |it| match it {
            Intermediate::Match { switch: Switch::Index(key), arms, default, .. } if default.is_some() == with => Some((key, arms.len())),
            _ => None,
        })
    };
    found(true).any(|a| found(false).any(|b| a == b))
}

impl Look {
    fn see(&mut self, event: Event, seen: bool) {
        self.events[event as usize] |= seen;
    }

    fn bound(&mut self, name: &str, expr: &E) {
        self.lets += 1;
        let product = matches!(expr.as_ref(), Expr::Mul(..)) && coefficient(expr) == 1.0;
        self.products.insert(name.to_string(), product);
        if let Expr::Div(a, d) = expr.as_ref()
            && let Expr::Const(1.0) = a.as_ref()
        {
            self.ones_over += 1;
            self.switched |= has_switch(d) || d.free_vars().iter().any(|v| of_match(v));
        }
    }

    fn block(&mut self, inters: &[Intermediate], values: &[E], depth: usize) {
        self.see(Event::Deepest, depth == DEEPEST);
        self.see(Event::DefaultApart, default_apart(inters));
        for it in inters {
            if let Intermediate::Let { name, expr } = it {
                self.bound(name, expr);
            }
        }
        for it in inters {
            match it {
                Intermediate::Let { expr, .. } => self.tree(expr),
                Intermediate::Match {
                    switch,
                    names,
                    arms,
                    default,
                } => {
                    self.see(Event::Match, true);
                    self.see(Event::MatchInArm, depth > 0);
                    self.see(Event::Fusion, names.len() > 1);
                    self.see(Event::KeyOfMatch, switch.expr().free_vars().iter().any(|v| of_match(v)));
                    self.tree(switch.expr());
                    for arm in arms.iter().chain(default) {
                        self.block(&arm.inters, &arm.values, depth + 1);
                    }
                }
            }
        }
        values.iter().for_each(|e| self.tree(e));
    }

    /// A product that ends in a name bound to a product of coefficient 1 comes from a match by
    /// factors: had its last operand been the target as it stands, the whole would have matched by
    /// factors first.
    fn tree(&mut self, e: &E) {
        if let Expr::Mul(a, b) = e.as_ref()
            && let Expr::Sym(name) = b.as_ref()
            && self.products.get(name) == Some(&true)
        {
            self.see(Event::FactorMatch, true);
            self.see(Event::Coefficient, matches!(a.as_ref(), Expr::Const(_)));
        }
        self.see(
            Event::SwitchLeft,
            self.scoped && matches!(e.as_ref(), Expr::Select { .. } | Expr::Branch(..)),
        );
        children(e).into_iter().for_each(|c| self.tree(c));
    }
}

fn coefficient(e: &E) -> f64 {
    match e.as_ref() {
        Expr::Mul(a, b) => coefficient(a) * coefficient(b),
        Expr::Neg(a) => -coefficient(a),
        Expr::Const(c) => *c,
        _ => 1.0,
    }
}
