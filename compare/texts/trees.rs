//! Random trees for their texts, from a fixed seed: every kind at every place of an operand, deep
//! nests, names and constants at the edges of what is allowed; and node rows that hold the names.
use crate::arael::{E, Expr};
use crate::random::Random;
use crate::rows::{Rows, name};
use crate::tree::{SELECT, SELECT_OR, expr};
use crate::words::KINDS;

pub fn sym(name: &str) -> E {
    E::from(Expr::Sym(name.to_string()))
}

pub fn num(n: i64) -> E {
    E::from(Expr::Const(n as f64))
}

pub fn op(kind: usize, parts: Vec<E>) -> E {
    E::from(expr(kind, parts))
}

pub fn pick<A: Clone>(r: &mut Random, l: &[A]) -> A {
    l[r.below(l.len())].clone()
}

// ---- node rows

pub fn rows(r: &mut Random) -> Rows {
    let mut rows = Rows::new();
    rows.put_symbol(&name(r));
    for _ in 0..r.below(8) {
        if r.chance(70) {
            rows.put_symbol(&name(r));
        } else {
            rows.put_other(r);
        }
    }
    rows
}

// ---- trees

const LIMIT: i64 = 1_000_000_000_000_000;

pub fn leaf(r: &mut Random, rows: &Rows) -> E {
    match r.below(10) {
        0..=3 => sym(&pick(r, &rows.symbols())),
        4 => sym(&format!("__x{}", number(r))),
        5 => sym(&format!("__m{}", number(r))),
        6 => num(pick(r, &[0, 1, -1, 9, 10, -10, LIMIT - 1, 1 - LIMIT])),
        _ => {
            let size = number(r) as i64;
            num(if r.chance(50) { -size } else { size })
        }
    }
}

/// A number of one to fifteen digits.
fn number(r: &mut Random) -> usize {
    let digits = 1 + r.below(15) as u32;
    let most = if r.chance(50) { 10 } else { 10_usize.pow(digits) };
    r.below(most)
}

pub fn arity(r: &mut Random, kind: usize) -> usize {
    match kind {
        3..=7 | 14 => 2,
        25 | 26 => 3,
        SELECT => 2 + if r.chance(10) { r.below(16) } else { r.below(3) },
        SELECT_OR => 3 + if r.chance(10) { r.below(16) } else { r.below(3) },
        _ => 1,
    }
}

/// Any kinds, or those with an operator only.
fn kind(r: &mut Random, operators: bool) -> usize {
    if operators { 2 + r.below(6) } else { 2 + r.below(KINDS - 2) }
}

fn grown(r: &mut Random, rows: &Rows, operators: bool, depth: usize) -> E {
    if depth == 0 || r.chance(15) {
        return leaf(r, rows);
    }
    let kind = kind(r, operators);
    let count = arity(r, kind);
    let below = if count > 3 { depth.min(2) - 1 } else { depth - 1 };
    op(kind, (0..count).map(|_| grown(r, rows, operators, below)).collect())
}

/// A nest of operations, one operand of each going on.
fn chain(r: &mut Random, rows: &Rows, length: usize) -> E {
    let mut e = leaf(r, rows);
    let operators = r.chance(50);
    for _ in 0..length {
        let kind = kind(r, operators);
        let count = arity(r, kind);
        let at = r.below(count);
        let parts = (0..count)
            .map(|i| if i == at { e.clone() } else { leaf(r, rows) })
            .collect();
        e = op(kind, parts);
    }
    e
}

pub fn tree(r: &mut Random, rows: &Rows) -> E {
    match r.below(100) {
        0..=39 => {
            let depth = 1 + r.below(4);
            grown(r, rows, false, depth)
        }
        40..=79 => {
            let depth = 2 + r.below(5);
            grown(r, rows, true, depth)
        }
        80..=97 => {
            let length = 1 + r.below(30);
            chain(r, rows, length)
        }
        _ => {
            let length = 100 + r.below(150);
            chain(r, rows, length)
        }
    }
}
