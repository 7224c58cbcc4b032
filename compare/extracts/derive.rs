//! Sums, products and powers of trees, simplified as generators do it where 0 or 1 stands in them, and derivatives made
//! of these.
use crate::tree::*;
use std::collections::HashMap;
use std::rc::Rc;

fn constant(t: &T) -> Option<i64> {
    match t.as_ref() {
        Tree::Const(n) => Some(*n),
        _ => None,
    }
}

pub fn plus(a: T, b: T) -> T {
    match (constant(&a), constant(&b)) {
        (Some(0), _) => b,
        (_, Some(0)) => a,
        (Some(m), Some(n)) => num(m + n),
        _ => op(ADD, vec![a, b]),
    }
}

pub fn minus(a: T, b: T) -> T {
    match (constant(&a), constant(&b)) {
        (Some(0), _) => negated(b),
        (_, Some(0)) => a,
        (Some(m), Some(n)) => num(m - n),
        _ => op(SUB, vec![a, b]),
    }
}

pub fn times(a: T, b: T) -> T {
    match (constant(&a), constant(&b)) {
        (Some(0), _) | (_, Some(0)) => num(0),
        (Some(1), _) => b,
        (_, Some(1)) => a,
        (Some(m), Some(n)) => num(m * n),
        _ => op(MUL, vec![a, b]),
    }
}

pub fn over(a: T, b: T) -> T {
    match (constant(&a), constant(&b)) {
        (Some(0), _) => num(0),
        (_, Some(1)) => a,
        _ => op(DIV, vec![a, b]),
    }
}

pub fn negated(a: T) -> T {
    match a.as_ref() {
        Tree::Const(n) => num(-n),
        Tree::Op(NEG, parts) => parts[0].clone(),
        _ => op(NEG, vec![a]),
    }
}

pub fn power(a: T, n: i64) -> T {
    match n {
        0 => num(1),
        1 => a,
        _ => op(POW, vec![a, num(n)]),
    }
}

pub fn square(a: T) -> T {
    power(a, 2)
}

/// Derivatives in one symbol. A tree that is held at several places has one derivative.
struct Deriving<'a> {
    symbol: &'a str,
    made: HashMap<*const Tree, T>,
}

pub fn derivative(t: &T, symbol: &str) -> T {
    let made = HashMap::new();
    Deriving { symbol, made }.of(t)
}

impl Deriving<'_> {
    fn of(&mut self, t: &T) -> T {
        if let Some(made) = self.made.get(&Rc::as_ptr(t)) {
            return made.clone();
        }
        let made = match t.as_ref() {
            Tree::Sym(name) => num(i64::from(*name == self.symbol)),
            Tree::Const(_) => num(0),
            Tree::Op(kind, parts) if *kind >= BRANCH => self.of_switch(*kind, parts),
            Tree::Op(kind, parts) => self.of_operation(t, *kind, parts),
        };
        self.made.insert(Rc::as_ptr(t), made.clone());
        made
    }

    /// The same switch over the derivatives of its arms.
    fn of_switch(&mut self, kind: usize, parts: &[T]) -> T {
        let mut made = vec![parts[0].clone()];
        made.extend(parts[1..].iter().map(|arm| self.of(arm)));
        if made[1..].iter().all(|arm| constant(arm) == Some(0)) { num(0) } else { op(kind, made) }
    }

    fn of_operation(&mut self, t: &T, kind: usize, parts: &[T]) -> T {
        let a = &parts[0];
        let da = self.of(a);
        match kind {
            NEG => negated(da),
            ADD => plus(da, self.of(&parts[1])),
            SUB => minus(da, self.of(&parts[1])),
            MUL => plus(times(da, parts[1].clone()), times(a.clone(), self.of(&parts[1]))),
            DIV => quotient(a, da, &parts[1], self.of(&parts[1])),
            POW => {
                let n = constant(&parts[1]).expect("no powers but those of a number");
                times(times(num(n), power(a.clone(), n - 1)), da)
            }
            SIN => times(op(COS, vec![a.clone()]), da),
            COS => negated(times(op(SIN, vec![a.clone()]), da)),
            EXP => times(t.clone(), da),
            _ => unreachable!("no fit has the kind {kind}"),
        }
    }
}

fn quotient(a: &T, da: T, b: &T, db: T) -> T {
    if constant(&db) == Some(0) {
        return over(da, b.clone());
    }
    let above = minus(times(da, b.clone()), times(a.clone(), db));
    over(above, square(b.clone()))
}
