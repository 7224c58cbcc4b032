//! Random expressions with a tree to look for in them, from a fixed seed. Parts come from a small
//! pool, so that they repeat; products are dense in signs, ones, zeros, repeated factors and
//! constants about the limit.
use crate::arael::{E, Expr};
use crate::cse::children;
use crate::random::Random;
use crate::tree::{DIV, MUL, NEG, SELECT, SELECT_OR, expr};

/// One to three expressions, and a tree to look for.
pub struct Pair {
    pub es: Vec<E>,
    pub part: E,
}

/// The least magnitude that is none of the constants.
const LIMIT: i64 = 1_000_000_000_000_000;

/// The most nodes of a pair's grown expressions.
const MOST: usize = 400;

pub fn sym(name: &str) -> E {
    E::from(Expr::Sym(name.to_string()))
}

pub fn num(n: i64) -> E {
    E::from(Expr::Const(n as f64))
}

pub fn op(kind: usize, parts: Vec<E>) -> E {
    E::from(expr(kind, parts))
}

fn pick<A: Clone>(r: &mut Random, l: &[A]) -> A {
    l[r.below(l.len())].clone()
}

// ---- products

/// A factor; now and then one that holds a product itself.
fn factor(r: &mut Random, inner: &E) -> E {
    match r.below(14) {
        0 => op(8, vec![sym("a")]),
        1 => op(3, vec![sym("a"), sym("b")]),
        2 => op(7, vec![sym("a"), num(2)]),
        3 => op(DIV, vec![sym("a"), inner.clone()]),
        4 => op(8, vec![inner.clone()]),
        5 => op(4, vec![inner.clone(), sym("b")]),
        6 => op(SELECT_OR, vec![sym("i"), inner.clone(), sym("b")]),
        7 => sym("__x0"),
        n => sym(["a", "b", "c"][n % 3]),
    }
}

/// Trees multiplied in a random shape and order, a sign on a part or a product here and there.
fn product(r: &mut Random, mut parts: Vec<E>, signs: usize) -> E {
    let shuffled = r.chance(60);
    let sign = |r: &mut Random, e: E| if r.chance(signs) { op(NEG, vec![e]) } else { e };
    while parts.len() > 1 {
        let i = if shuffled { r.below(parts.len()) } else { 0 };
        let a = parts.remove(i);
        let j = if shuffled { r.below(parts.len()) } else { 0 };
        let b = parts.remove(j);
        let (a, b) = (sign(r, a), sign(r, b));
        parts.insert(r.below(parts.len() + 1).min(j), op(MUL, vec![a, b]));
    }
    let last = parts.remove(0);
    sign(r, last)
}

/// Constants whose product is about the limit, about zero, or far past every integer.
fn constants(r: &mut Random) -> Vec<i64> {
    let sign = |r: &mut Random, n: i64| if r.chance(50) { -n } else { n };
    match r.below(12) {
        0 => vec![pick(r, &[1, -1, 0, 2, -3, LIMIT - 1, 1 - LIMIT])],
        1 => vec![pick(r, &[1, -1]), pick(r, &[1, -1, 0])],
        2 | 3 => {
            // the second is one less or more than the quotient at most
            let bits = 1 + r.below(40);
            let a = 1 + r.below(1 << bits) as i64;
            let b = (LIMIT / a + r.below(3) as i64 - 1).clamp(0, LIMIT - 1);
            vec![sign(r, a), sign(r, b)]
        }
        4 => {
            let a = 1 + r.below(100_000) as i64;
            let b = 1 + r.below(100_000) as i64;
            let c = (LIMIT / (a * b) + r.below(2) as i64).clamp(0, LIMIT - 1);
            vec![sign(r, a), sign(r, b), sign(r, c)]
        }
        5 => {
            let mut l = vec![sign(r, LIMIT - 1); 2 + r.below(3)];
            if r.chance(50) {
                l.push(0);
            }
            l
        }
        6 => vec![LIMIT - 1; 22],
        7 => [vec![LIMIT - 1; 22], vec![0]].concat(),
        8 => {
            let b = 31_622_776 + r.below(2) as i64;
            vec![sign(r, 31_622_777), sign(r, b)]
        }
        _ => Vec::new(),
    }
}

/// Parts that multiply to 1: they leave a coefficient as it is.
fn ones(r: &mut Random) -> Vec<E> {
    let minus = |e| op(NEG, vec![e]);
    match r.below(6) {
        0 => vec![num(1)],
        1 => vec![num(-1), num(-1)],
        2 => vec![num(-1), minus(num(1))],
        3 => vec![minus(num(-1)), num(1)],
        _ => Vec::new(),
    }
}

/// A target that is a product; of coefficient 1 but for one in eight, and now and then without a
/// factor.
fn product_target(r: &mut Random, inner: &E) -> (Vec<E>, E) {
    let mut factors: Vec<E> = (0..2 + r.below(3)).map(|_| factor(r, inner)).collect();
    if r.chance(10) {
        factors.truncate(1);
    } else if r.chance(3) {
        factors.clear();
    }
    let mut parts = factors.clone();
    parts.extend(ones(r));
    if r.chance(12) {
        parts.push(num(pick(r, &[2, -1, 0, -3])));
    }
    while parts.len() < 2 {
        parts.push(num(1));
    }
    if r.chance(20) {
        // two signs
        let n = r.below(parts.len());
        parts[n] = op(NEG, vec![op(NEG, vec![parts[n].clone()])]);
    }
    let target = product(r, parts, 0);
    (factors, target)
}

/// A product that holds the factors of a target some times, with other factors and constants.
fn around(r: &mut Random, factors: &[E], inner: &E) -> E {
    let times = pick(r, &[0, 1, 1, 1, 2, 2, 3]);
    let mut parts: Vec<E> = (0..times).flat_map(|_| factors.to_vec()).collect();
    if r.chance(20) && !parts.is_empty() {
        parts.remove(r.below(parts.len()));
    }
    parts.extend((0..r.below(3)).map(|_| factor(r, inner)));
    parts.extend(constants(r).into_iter().map(num));
    parts.extend(ones(r));
    if parts.is_empty() {
        parts.push(num(0));
    }
    let signs = if r.chance(50) { 25 } else { 0 };
    product(r, parts, signs)
}

/// A product in other operations, or as it is.
fn wrapped(r: &mut Random, e: E, target: &E) -> E {
    match r.below(9) {
        0 => op(8 + r.below(6), vec![e]),
        1 => op(3 + r.below(2), vec![e, target.clone()]),
        2 => op(DIV, vec![target.clone(), e]),
        3 => op(SELECT, vec![sym("i"), e, target.clone()]),
        4 => op(NEG, vec![e]),
        _ => e,
    }
}

pub fn replace_pair(r: &mut Random) -> Pair {
    if r.chance(15) {
        return grown_pair(r, &[MUL, MUL, MUL, NEG, 3, 4, 6, 7, 8, 9, 14, 25, 26, 27, 28]);
    }
    let both = op(MUL, vec![sym("a"), sym("b")]);
    let inner = if r.chance(50) { both } else { op(MUL, vec![sym("c"), num(2)]) };
    let (factors, target) = product_target(r, &inner);
    let inner = if r.chance(50) { target.clone() } else { inner };
    let count = pick(r, &[1, 1, 1, 2, 3]);
    let es = (0..count)
        .map(|_| {
            let e = around(r, &factors, &inner);
            wrapped(r, e, &target)
        })
        .collect();
    Pair { es, part: target }
}

// ---- grown trees, and one of their parts to look for

fn arity(r: &mut Random, kind: usize) -> usize {
    match kind {
        3..=7 | 14 => 2,
        25 | 26 => 3,
        SELECT => 2 + r.below(3),
        SELECT_OR => 3 + r.below(3),
        _ => 1,
    }
}

fn parts_of<'a>(e: &'a E, l: &mut Vec<&'a E>) {
    l.push(e);
    children(e).into_iter().for_each(|c| parts_of(c, l));
}

/// The number of nodes, or some number above the limit.
fn size(e: &E, limit: usize) -> usize {
    let mut n = 1;
    for c in children(e) {
        if n > limit {
            break;
        }
        n += size(c, limit - n.min(limit));
    }
    n
}

pub fn has_symbol(e: &E) -> bool {
    matches!(e.as_ref(), Expr::Sym(_)) || children(e).into_iter().any(has_symbol)
}

/// One of the trees, the latest more often.
fn late(r: &mut Random, pool: &[E]) -> E {
    let from = if r.chance(50) { pool.len() - 4 } else { 0 };
    pick(r, &pool[from..])
}

fn grown_pair(r: &mut Random, kinds: &[usize]) -> Pair {
    let mut pool = vec![sym("a"), sym("b"), sym("i"), sym("__m1"), num(-1), num(2), num(LIMIT - 1)];
    let leaves = pool.len();
    let any = r.chance(25);
    for _ in 0..2 + r.below(9) {
        let kind = if any && r.chance(50) { 2 + r.below(27) } else { pick(r, kinds) };
        let parts = (0..arity(r, kind)).map(|_| late(r, &pool)).collect();
        pool.push(op(kind, parts));
    }
    let count = 1 + r.below(3);
    let es: Vec<E> = (0..count).map(|_| pick(r, &pool[leaves..])).collect();
    if es.iter().map(|e| size(e, MOST)).sum::<usize>() > MOST {
        return grown_pair(r, kinds);
    }
    let mut all = Vec::new();
    es.iter().for_each(|e| parts_of(e, &mut all));
    let part = if r.chance(10) { sym("a") } else { pick(r, &all).clone() };
    Pair { es, part }
}

pub fn divisor_pair(r: &mut Random) -> Pair {
    let mut pair = grown_pair(r, &[DIV, DIV, DIV, DIV, 3, MUL, NEG, 8, 26, 27, 28]);
    let mut all = Vec::new();
    pair.es.iter().for_each(|e| parts_of(e, &mut all));
    let divisors: Vec<E> = all
        .into_iter()
        .filter_map(|e| match e.as_ref() {
            Expr::Div(_, b) => Some(b.clone()),
            _ => None,
        })
        .collect();
    if !divisors.is_empty() && r.chance(85) {
        pair.part = pick(r, &divisors);
    }
    pair
}

pub fn outside_pair(r: &mut Random) -> Pair {
    let mut pair = grown_pair(r, &[26, 26, 27, 27, 28, 28, 3, MUL, DIV, NEG, 8, 25]);
    let mut all = Vec::new();
    pair.es.iter().for_each(|e| parts_of(e, &mut all));
    let switches: Vec<E> = all.into_iter().filter(|e| crate::words::kind(e) >= 26).cloned().collect();
    if !switches.is_empty() && r.chance(70) {
        pair.part = pick(r, &switches);
    }
    pair
}
