//! Random lists with a fixed seed: small alphabets, so that parts repeat, and several ways of
//! growing a list, each aimed at steps that chance alone would rarely reach.
use crate::random::Random;
use crate::tree::*;

/// Limits of a list: its occurrences, and how deep its arms nest.
const MOST: usize = 30;
const MOST_HUGE: usize = 80;
const MOST_STEEP: usize = 40;
pub const DEEPEST: usize = 8;

/// A list within the limits.
pub fn list(r: &mut Random) -> Vec<T> {
    loop {
        let (most, es) = match r.below(100) {
            0..=7 => (MOST, grown(r, &ANY)),
            8..=14 => (MOST, grown(r, &SWITCHES)),
            15..=20 => (MOST, grown(r, &DIVISIONS)),
            21..=28 => (MOST, grown(r, &TEXTS)),
            29..=35 => (MOST, grown(r, &MIXED)),
            36..=55 => (MOST, products(r)),
            56..=69 => (MOST, tangled(r)),
            70..=81 => (MOST, divided(r)),
            82..=93 => (MOST, rivals(r)),
            94..=96 => (MOST, regrouped(r)),
            97 => (MOST_HUGE, clashing(r)),
            _ => (MOST_HUGE, huge(r)),
        };
        let total: usize = es.iter().map(size).sum();
        if (3..=most).contains(&total) && es.iter().all(|t| nesting(t) <= DEEPEST) {
            return es;
        }
    }
}

/// A list within the limits that is dense in switches: on equal keys, in keys, arms and divisors, and nested as deep as may be.
pub fn switching(r: &mut Random) -> Vec<T> {
    loop {
        let (most, es) = match r.below(100) {
            0..=19 => (MOST, grown(r, &SWITCHES)),
            20..=29 => (MOST, grown(r, &MIXED)),
            30..=59 => (MOST, tangled(r)),
            60..=69 => (MOST, divided(r)),
            70..=79 => (MOST, rivals(r)),
            80..=96 => (MOST_HUGE, nested(r)),
            _ => (MOST_HUGE, clashing(r)),
        };
        let total: usize = es.iter().map(size).sum();
        if (3..=most).contains(&total) && es.iter().all(|t| nesting(t) <= DEEPEST) {
            return es;
        }
    }
}

/// A list whose arms nest as deep as may be, and that is small all the same, since most of its switches have one arm.
pub fn deepest(r: &mut Random) -> Vec<T> {
    loop {
        let es = steep(r);
        let total: usize = es.iter().map(size).sum();
        if total <= MOST_STEEP && es.iter().any(|t| nesting(t) == DEEPEST) {
            return es;
        }
    }
}

/// A list that has each of some kinds, on trees that repeat: beside itself, in another operation, or in an arm.
pub fn with_kinds(r: &mut Random, kinds: &[usize]) -> Vec<T> {
    loop {
        let es = kinds_in_turn(r, kinds);
        if es.iter().map(size).sum::<usize>() <= MOST {
            return es;
        }
    }
}

// ---- growing: operations over earlier trees, then some of these as roots

/// The leaves and the kinds to grow from; a kind listed twice comes twice as often.
pub struct Soil {
    pub symbols: &'static [&'static str],
    pub constants: &'static [i64],
    pub kinds: &'static [usize],
}

const SWITCH_KINDS: [usize; 3] = [BRANCH, SELECT, SELECT_OR];

pub const ANY: Soil = Soil {
    symbols: &["a", "b"],
    constants: &[2],
    kinds: &[
        2, 3, 4, 5, 6, 7, 8, 9, 10, 11, 12, 13, 14, 15, 16, 17, 18, 19, 20, 21, 22, 23, 24, 25, 26,
        27, 28,
    ],
};

pub const SWITCHES: Soil = Soil {
    symbols: &["a", "b", "i"],
    constants: &[1],
    kinds: &[SELECT, SELECT, SELECT_OR, SELECT_OR, BRANCH, BRANCH, ADD, 8],
};

pub const DIVISIONS: Soil = Soil {
    symbols: &["p", "q"],
    constants: &[1, 2, 3],
    kinds: &[DIV, DIV, DIV, ADD, 8, SELECT],
};

pub const TEXTS: Soil = Soil {
    symbols: &["a", "b"],
    constants: &[-1, 0],
    kinds: &[NEG, NEG, ADD, 4, 4, MUL, DIV, 7, 7, 9],
};

pub const MIXED: Soil = Soil {
    symbols: &["a", "b", "i"],
    constants: &[-1, 2],
    kinds: &[MUL, MUL, DIV, NEG, ADD, SELECT, SELECT_OR, BRANCH, 24],
};

pub fn arity(r: &mut Random, kind: usize) -> usize {
    match kind {
        ADD..=7 | ATAN2 => 2,
        CLAMP | BRANCH => 3,
        SELECT => 2 + r.below(2),
        SELECT_OR => 3 + r.below(2),
        _ => 1,
    }
}

/// One of the trees, the latest more often.
pub fn one(r: &mut Random, pool: &[T]) -> T {
    let from = if r.chance(60) {
        pool.len().saturating_sub(4)
    } else {
        0
    };
    r.pick(&pool[from..]).clone()
}

fn grown(r: &mut Random, soil: &Soil) -> Vec<T> {
    let mut pool: Vec<T> = soil.symbols.iter().map(|s| sym(s)).collect();
    pool.extend(soil.constants.iter().map(|n| num(*n)));
    let leaves = pool.len();
    // of the switches many are of one kind and on one key, so that several join a match
    let key = one(r, &pool);
    let switch = *r.pick(&SWITCH_KINDS);
    for _ in 0..3 + r.below(7) {
        let mut kind = *r.pick(soil.kinds);
        if kind >= BRANCH && r.chance(60) {
            kind = switch;
        }
        let mut parts: Vec<T> = (0..arity(r, kind)).map(|_| one(r, &pool)).collect();
        if kind >= BRANCH && r.chance(60) {
            parts[0] = key.clone();
        }
        pool.push(op(kind, parts));
    }
    (0..1 + r.below(5))
        .map(|_| one(r, &pool[leaves..]))
        .collect()
}

// ---- rivals: two trees of much the same worth, each used twice or three times

pub fn rivals(r: &mut Random) -> Vec<T> {
    let mut pool = vec![
        sym("a"),
        sym("b"),
        op(8, vec![sym("a")]),
        op(10, vec![sym("b")]),
        op(ADD, vec![sym("a"), sym("b")]),
    ];
    for _ in 0..2 {
        let kind = *r.pick(&[BRANCH, SELECT, SELECT_OR, 8, 9, ADD, DIV, CLAMP]);
        let mut parts: Vec<T> = (0..arity(r, kind))
            .map(|_| r.pick(&pool[..5]).clone())
            .collect();
        if kind >= BRANCH {
            parts[0] = sym("i");
        }
        pool.push(op(kind, parts));
    }
    let mut es: Vec<T> = (0..4 + r.below(2))
        .map(|n| pool[5 + n % 2].clone())
        .collect();
    if r.chance(50) {
        let n = r.below(es.len());
        es[n] = op(9, vec![es[n].clone()]);
    }
    es
}

// ---- products: a target, and longer products that hold its factors among others and constants

const COEFFICIENTS: [i64; 8] = [1, -1, 0, 2, -3, 1_000_000, 31_622_777, 999_999_999_999_999];

/// Pairs about the limit of the constants, and about zero.
const PAIRS: [[i64; 2]; 10] = [
    [1_000_000_000, 1_000_000],
    [-1_000_000_000, 1_000_000],
    [1_000_000_000, 999_999],
    [31_622_777, 31_622_777],
    [31_622_777, -31_622_776],
    [999_999_999_999_999, 2],
    [-999_999_999_999_999, -1],
    [-1, 0],
    [0, 3],
    [-1, -1],
];

fn factor(r: &mut Random) -> T {
    match r.below(8) {
        0 => op(8, vec![sym("a")]),
        1 => op(ADD, vec![sym("a"), sym("b")]),
        n => sym(["a", "b", "c"][n % 3]),
    }
}

/// Some trees multiplied in a random shape and order, with a sign here and there.
fn product(r: &mut Random, mut parts: Vec<T>, signs: usize) -> T {
    while parts.len() > 1 {
        let a = parts.remove(r.below(parts.len()));
        let b = parts.remove(r.below(parts.len()));
        let both = op(MUL, vec![a, b]);
        parts.push(if r.chance(signs) {
            op(NEG, vec![both])
        } else {
            both
        });
    }
    parts.remove(0)
}

pub fn products(r: &mut Random) -> Vec<T> {
    let mut factors: Vec<T> = (0..2 + r.below(2)).map(|_| factor(r)).collect();
    match r.below(6) {
        0 => factors.push(num(1)),
        1 => factors.extend([num(-1), op(NEG, vec![num(1)])]),
        _ => {}
    }
    let signs = if r.chance(40) { 25 } else { 0 };
    let target = product(r, factors.clone(), 0);
    let mut es = vec![target.clone(), op(8 + r.below(3), vec![target])];
    for _ in 0..1 + r.below(2) {
        let mut parts = factors.clone();
        match r.below(10) {
            0..=3 => parts.extend(r.pick(&PAIRS).map(num)),
            4..=6 => parts.push(num(*r.pick(&COEFFICIENTS))),
            7 => parts.extend(factors.clone()),
            _ => {}
        }
        parts.extend((0..r.below(2)).map(|_| factor(r)));
        es.push(product(r, parts, signs));
    }
    es
}

/// A coefficient far past every integer, or no number at all, now and then out of sight.
fn huge(r: &mut Random) -> Vec<T> {
    let mut far = num(999_999_999_999_999);
    for _ in 0..5 {
        far = op(MUL, vec![far.clone(), far]);
    }
    let both = op(MUL, vec![sym("a"), sym("b")]);
    let mut parts = vec![sym(if r.chance(70) { "a" } else { "c" }), sym("b"), far];
    if r.chance(50) {
        parts.push(num(0));
    }
    vec![both.clone(), op(8, vec![both]), product(r, parts, 25)]
}

// ---- one text, several trees: sums and products that differ in their grouping alone

pub fn regrouped(r: &mut Random) -> Vec<T> {
    let kind = *r.pick(&[ADD, MUL]);
    let leaf = |r: &mut Random| {
        if r.chance(70) {
            sym(["a", "b"][r.below(2)])
        } else {
            num(2)
        }
    };
    let leaves = [leaf(r), leaf(r), leaf(r)];
    let mut es = Vec::new();
    for _ in 0..3 + r.below(2) {
        let [a, b, c] = leaves.clone();
        let whole = if r.chance(50) {
            op(kind, vec![op(kind, vec![a, b]), c])
        } else {
            op(kind, vec![a, op(kind, vec![b, c])])
        };
        es.push(match r.below(3) {
            0 => whole,
            1 => op(DIV, vec![sym("p"), whole]),
            _ => op(8, vec![whole]),
        });
    }
    es
}

// ---- tangles: switches on equal keys, of which one feeds another's arm or key

pub fn tangled(r: &mut Random) -> Vec<T> {
    let kind = *r.pick(&SWITCH_KINDS);
    let key = if r.chance(75) {
        sym("i")
    } else {
        op(BRANCH, vec![sym("i"), sym("a"), sym("b")])
    };
    let mut pool = vec![sym("a"), sym("b"), num(2)];
    for _ in 0..1 + r.below(4) {
        let kind = if r.chance(85) {
            kind
        } else {
            *r.pick(&[BRANCH, SELECT])
        };
        let key = if r.chance(80) {
            key.clone()
        } else {
            one(r, &pool)
        };
        pool.push(switch(r, kind, &key, &pool));
        match r.below(4) {
            0 => pool.push(op(8, vec![one(r, &pool)])),
            1 | 2 => pool.push(op(*r.pick(&[ADD, MUL, DIV]), vec![one(r, &pool), sym("a")])),
            _ => {}
        }
    }
    let mut es: Vec<T> = (0..1 + r.below(3)).map(|_| one(r, &pool[3..])).collect();
    es.extend((0..r.below(3)).map(|_| switch(r, kind, &key, &pool)));
    es
}

/// A switch with the least number of arms, so that those of a kind can join.
fn switch(r: &mut Random, kind: usize, key: &T, pool: &[T]) -> T {
    let mut parts = vec![key.clone()];
    parts.extend((0..if kind == SELECT { 1 } else { 2 }).map(|_| one(r, pool)));
    op(kind, parts)
}

// ---- nests: switches in arms of switches, up to the limit, on a few keys, with parts that several levels share

pub fn nested(r: &mut Random) -> Vec<T> {
    let keys = [sym("i"), sym("j"), op(8, vec![sym("i")]), op(BRANCH, vec![sym("j"), sym("a"), sym("b")])];
    let parts = [op(ADD, vec![sym("a"), sym("b")]), op(MUL, vec![sym("a"), sym("c")]), op(DIV, vec![sym("b"), num(2)]), sym("a"), num(1)];
    let mut pool: Vec<T> = parts.to_vec();
    let mut t = one(r, &pool);
    let deepest = r.chance(30);
    for _ in 0..if deepest { DEEPEST } else { 2 + r.below(DEEPEST - 1) } {
        let kind = *r.pick(&SWITCH_KINDS);
        let plain = r.chance(80);
        let key = r.pick(if plain { &keys[..2] } else { &keys }).clone();
        let mut arms = vec![key, t];
        if kind != SELECT || r.chance(70) {
            let other = if deepest { r.pick(&parts).clone() } else { one(r, &pool) };
            arms.insert(1 + r.below(2), other);
        }
        t = op(kind, arms);
        match r.below(10) {
            0 => t = op(8, vec![t]),
            1..=3 => t = op(*r.pick(&[ADD, MUL, DIV]), vec![t, r.pick(&parts).clone()]),
            _ => {}
        }
        pool.push(t.clone());
    }
    let mut es = vec![t];
    es.extend((0..r.below(3)).map(|_| one(r, &pool)));
    es
}

/// Eight switches in one another around a part that is used twice, some with a part beside their arm, and now and then
/// another root with such a part, or a switch on the outermost key.
fn steep(r: &mut Random) -> Vec<T> {
    let sum = op(ADD, vec![sym("a"), sym("b")]);
    let parts = [sym("a"), num(1), sum.clone(), op(9, vec![sum.clone()])];
    let mut t = match r.below(4) {
        0 => op(DIV, vec![op(DIV, vec![sym("p"), num(3)]), num(3)]),
        1 => op(MUL, vec![op(8, vec![sum.clone()]), sum]),
        2 => op(8, vec![sum]),
        _ => sym("p"),
    };
    for _ in 0..DEEPEST {
        let kind = *r.pick(&[SELECT, SELECT, SELECT, SELECT_OR, BRANCH]);
        let mut arms = vec![sym(["i", "j"][r.below(2)]), t];
        if kind != SELECT {
            arms.insert(1 + r.below(2), r.pick(&parts).clone());
        }
        t = op(kind, arms);
        if r.chance(10) {
            t = op(*r.pick(&[NEG, 8, 22]), vec![t]);
        }
    }
    let mut es = vec![t];
    match r.below(4) {
        0 => es.push(r.pick(&parts).clone()),
        1 => es.push(op(SELECT, vec![sym("i"), r.pick(&parts).clone()])),
        _ => {}
    }
    es
}

// ---- kinds: one operation of each, and then some of them again

fn kinds_in_turn(r: &mut Random, kinds: &[usize]) -> Vec<T> {
    let mut pool = vec![sym("a"), sym("b"), num(2)];
    let leaves = pool.len();
    for kind in kinds {
        let parts = (0..arity(r, *kind)).map(|_| one(r, &pool)).collect();
        pool.push(op(*kind, parts));
    }
    let made = pool.split_off(leaves);
    let again = r.pick(&made).clone();
    let other = r.pick(&made).clone();
    let mut es = made;
    es.push(match r.below(3) {
        0 => op(ADD, vec![again, other]),
        1 => op(SELECT, vec![sym("i"), again, other]),
        _ => op(8, vec![again]),
    });
    es
}

// ---- clashes: something for refusal 10 and something for 11 in one list, to tell which comes first

fn clashing(r: &mut Random) -> Vec<T> {
    let both = op(MUL, vec![sym("a"), sym("b")]);
    let [n, m] = *r.pick(&PAIRS);
    let far = product(r, vec![num(n), num(m), sym("a"), sym("b")], 0);
    let ten = op(ADD, vec![op(8, vec![both.clone()]), op(4, vec![both, far])]);
    let kind = *r.pick(&[BRANCH, SELECT_OR]);
    let inner = op(
        ADD,
        vec![op(kind, vec![sym("i"), sym("a"), sym("b")]), sym("y")],
    );
    let key = sym(if r.chance(75) { "i" } else { "j" });
    let outer = op(kind, vec![key, inner.clone(), sym("c")]);
    let mut parts = vec![ten, op(ADD, vec![inner, outer])];
    if r.chance(50) {
        parts.reverse();
    }
    match r.below(3) {
        0 => parts,
        1 => parts
            .into_iter()
            .map(|t| op(SELECT, vec![sym("k"), t]))
            .collect(),
        _ => {
            parts.insert(0, sym("k"));
            vec![op(SELECT, parts)]
        }
    }
}

// ---- trees without a symbol, which are never extracted: switches among them, as divisors and keys

pub fn divided(r: &mut Random) -> Vec<T> {
    let mut pool = vec![num(2), num(3), num(-7)];
    for _ in 0..2 + r.below(3) {
        let kind = *r.pick(&[DIV, DIV, ADD, MUL, NEG, SELECT, SELECT_OR, BRANCH]);
        let parts = (0..arity(r, kind)).map(|_| one(r, &pool)).collect();
        pool.push(op(kind, parts));
    }
    if r.chance(30) {
        pool.push(sym("d"));
    }
    let mut es: Vec<T> = Vec::new();
    for _ in 0..2 + r.below(3) {
        let p = sym(["p", "q"][r.below(2)]);
        let over = op(DIV, vec![p, one(r, &pool)]);
        es.push(match r.below(10) {
            0 => op(SELECT, vec![sym("i"), over]),
            1 => op(9, vec![over]),
            2 => op(BRANCH, vec![over, one(r, &pool), sym("p")]),
            3 => op(SELECT_OR, vec![one(r, &pool), over, sym("p")]),
            4 => op(SELECT, vec![one(r, &pool), sym("q")]),
            5 => one(r, &pool),
            _ => over,
        });
    }
    es
}
