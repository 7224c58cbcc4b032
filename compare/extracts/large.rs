//! Random lists near the limit of 1,024 occurrences, each from parts that repeat.
use crate::asked::asked;
use crate::lists::{self, ANY, DEEPEST, DIVISIONS, MIXED, SWITCHES, Soil, TEXTS, arity, one};
use crate::random::Random;
use crate::tree::*;
use std::collections::HashMap;

pub const MOST: usize = 1024;
pub const ROOTS: usize = 64;
/// A part that a list grows from has at most so many occurrences.
const MOST_OF_A_PART: usize = 150;

#[derive(Clone, Copy, Debug)]
pub enum Family {
    Small,
    Products,
    Switches,
    Divisions,
    Regrouped,
    Grown,
    Chains,
    Stairs,
    Doubled,
    Derivatives,
    Tangled,
    Nested,
    Copies,
    Shared,
}

use Family::*;

/// A list of at most so many occurrences, and mostly not many fewer; one dense in switches, or any.
pub fn list(r: &mut Random, most: usize, switches: bool) -> Vec<T> {
    if switches && r.chance(3) {
        return of_family(r, Shared, most);
    }
    if switches && r.chance(75) {
        let family = *r.pick(&[Switches, Tangled, Tangled, Tangled, Nested, Nested, Nested, Nested, Nested, Copies, Copies]);
        return of_family(r, family, most);
    }
    let family = *r.pick(&[
        Small, Small, Small, Products, Products, Switches, Switches, Divisions, Divisions, Regrouped, Grown, Grown, Grown, Grown, Grown, Chains,
        Stairs, Doubled, Derivatives, Derivatives,
    ]);
    of_family(r, family, most)
}

pub fn of_family(r: &mut Random, family: Family, most: usize) -> Vec<T> {
    let es = match family {
        Small => filled(r, most, lists::list),
        Products => filled(r, most, lists::products),
        Switches => filled(r, most, lists::tangled),
        Divisions => filled(r, most, lists::divided),
        Regrouped => filled(r, most, lists::regrouped),
        Grown => {
            let soil = *r.pick(&[&ANY, &SWITCHES, &DIVISIONS, &TEXTS, &MIXED]);
            let pool = grown(r, soil);
            filled(r, most, |r| vec![one(r, &pool)])
        }
        Chains => {
            let chains = chains(r, most / 3);
            filled(r, most, |r| vec![r.pick(&chains).clone()])
        }
        Stairs => {
            let stairs = stairs(r, most * 9 / 20);
            filled(r, most, |r| {
                let p = sym(["p", "q"][r.below(2)]);
                vec![op(DIV, vec![p, r.pick(&stairs).clone()])]
            })
        }
        Doubled => doubled(r, most),
        Derivatives => filled(r, most, derivatives),
        Tangled => {
            let sets = 2 + r.below(ALPHABETS - 1);
            filled(r, most, |r| answered(r, sets, lists::tangled))
        }
        Nested => {
            let sets = 1 + r.below(ALPHABETS);
            filled(r, most, |r| answered(r, sets, lists::nested))
        }
        Copies => {
            let mut first = copies(r, most - most / 20);
            filled(r, most, |r| if first.is_empty() { answered(r, ALPHABETS, lists::nested) } else { std::mem::take(&mut first) })
        }
        Shared => sharing(r, most),
    };
    joined(r, es, most)
}

/// Trees while they fit.
fn filled(r: &mut Random, most: usize, mut more: impl FnMut(&mut Random) -> Vec<T>) -> Vec<T> {
    let mut es = Vec::new();
    let mut total = 0;
    // room for the operations that join roots
    let room = most - most / 20;
    let mut missed = 0;
    while missed < 20 && total + 1 < room {
        for t in more(r) {
            if total + size(&t) <= room && nesting(&t) <= DEEPEST {
                total += size(&t);
                es.push(t);
            } else {
                missed += 1;
            }
        }
    }
    es
}

// ---- parts that are answered by themselves, over a few sets of symbols: parts that share a set can join and be tangled, and most lists are still answered

const ALPHABETS: usize = 8;

macro_rules! alphabets {
    ($($name:literal)*) => {
        [$([$name, concat!($name, "1"), concat!($name, "2"), concat!($name, "3"), concat!($name, "4"), concat!($name, "5"), concat!($name, "6"), concat!($name, "7")]),*]
    };
}

/// Each symbol in each set.
const SYMBOLS: [[&str; ALPHABETS]; 5] = alphabets!("a" "b" "c" "i" "j");

/// The next of some trees that the source answers, with symbols of one of so many sets.
fn answered(r: &mut Random, sets: usize, more: fn(&mut Random) -> Vec<T>) -> Vec<T> {
    loop {
        let es = more(r);
        let mut maker = Maker::new(true);
        let made: Vec<_> = es.iter().map(|t| maker.make(t)).collect();
        if asked(&made, true).is_ok() {
            let set = r.below(sets);
            let mut renamed = HashMap::new();
            return es.iter().map(|t| in_set(t, set, &mut renamed)).collect();
        }
    }
}

/// The tree with the symbols of a set; what is shared stays so.
fn in_set(t: &T, set: usize, renamed: &mut HashMap<*const Tree, T>) -> T {
    if let Some(made) = renamed.get(&std::rc::Rc::as_ptr(t)) {
        return made.clone();
    }
    let made = match t.as_ref() {
        Tree::Sym(name) => sym(SYMBOLS.iter().find(|names| names[0] == *name).expect("a symbol of these lists")[set]),
        Tree::Const(n) => num(*n),
        Tree::Op(kind, parts) => op(*kind, parts.iter().map(|p| in_set(p, set, renamed)).collect()),
    };
    renamed.insert(std::rc::Rc::as_ptr(t), made.clone());
    made
}

// ---- divisions by divisors in one another, without a symbol and with a switch inside: each reciprocal holds a copy of the switch, so that a scope holds far
// more than its input. Numbers that divide in the switch make the copies differ where their texts stand between those of the divisors

#[derive(Clone, Copy)]
enum Copied {
    /// equal copies, which are most of the area's rows or fewer
    Equal,
    /// with arms of their own: a match of many switches, whose arms have about as many occurrences as a scope may be given
    Arms,
    /// several switches, of which each is the next one's key, with keys of their own: about as many matches as a scope may have statements
    Keys,
}

/// Such divisions of at most so many occurrences, up to what a scope may be given and state and past it, or up to most of the area's rows.
pub fn copies(r: &mut Random, most: usize) -> Vec<T> {
    loop {
        let es = divisions(r, most);
        if es.iter().map(size).sum::<usize>() <= most {
            return es;
        }
    }
}

fn divisions(r: &mut Random, most: usize) -> Vec<T> {
    use Copied::*;
    let all = [Equal, Equal, Equal, Equal, Equal, Arms, Arms, Arms, Arms, Keys];
    // so many statements need a large list
    let copied = *r.pick(&all[..if most < MOST / 2 { 9 } else { 10 }]);
    let uses = if r.chance(80) { 2 } else { 3 };
    let (lowest, tallest) = match copied {
        Equal => (1, *r.pick(&[12, 30, 50, 100, 200])),
        Arms => (4, 40),
        Keys => (8, 24),
    };
    let height = lowest + r.below(tallest - lowest);
    let numbers: Vec<i64> = (0..height as i64).filter(|_| r.chance(95)).map(|n| 101 + 2 * n).collect();
    let room = (most / uses).saturating_sub(2 * height + 10);
    let mut t = match copied {
        Equal => {
            let rows = *r.pick(&[9000, 9000, 60_000]);
            let each = (r.below(rows) / height).min(room);
            switch(r, num(1), &[], each)
        }
        Arms => {
            let each = (1200 + r.below(2400)) / height;
            switch(r, num(1), &numbers, each)
        }
        Keys => {
            let count = ((1500 + r.below(1000)) / height).min(room.saturating_sub(2 * height) / 2);
            (0..count).fold(over(num(1), &numbers), |key, _| op(SELECT, vec![key, num(r.below(3) as i64)]))
        }
    };
    // a text that comes after every number's, or before
    t = match r.below(5) {
        0 => t,
        1 => op(ADD, vec![num(1), t]),
        _ => op(NEG, vec![t]),
    };
    // texts that come after the text they hold, or before it, and now and then a divisor fewer
    let way = r.below(4);
    for n in 0..height as i64 {
        let c = num(if way > 0 { 100 + 2 * n } else { 3 });
        t = op(if r.chance(98) { DIV } else { ADD }, vec![c, t]);
    }
    let mut es: Vec<T> = ["p", "q", "y"][..uses].iter().map(|p| op(DIV, vec![sym(p), t.clone()])).collect();
    if let Arms = copied {
        // a divisor in arms alone is left to their scope
        es.push(over(sym("d"), &numbers));
    }
    if r.chance(30) {
        es = es.into_iter().map(|e| op(SELECT_OR, vec![sym("i"), e, num(2)])).collect();
    }
    es
}

/// The tree divided by each of the numbers.
fn over(t: T, numbers: &[i64]) -> T {
    numbers.iter().fold(t, |t, n| op(DIV, vec![t, num(*n)]))
}

/// A switch of about so many occurrences, in whose arms the numbers divide.
fn switch(r: &mut Random, key: T, numbers: &[i64], most: usize) -> T {
    let kind = *r.pick(&[BRANCH, SELECT, SELECT, SELECT, SELECT_OR]);
    let arms = if kind == SELECT { *r.pick(&[1, 1, 2, 4]) } else { 2 };
    let each = (most / arms).saturating_sub(2 * numbers.len());
    let mut parts = vec![key];
    parts.extend((0..arms).map(|_| over(plain(r, each), numbers)));
    op(kind, parts)
}

/// A tree without a symbol of at most so many occurrences, with divisions and switches in it.
fn plain(r: &mut Random, most: usize) -> T {
    let mut t = num(2 + r.below(7) as i64);
    while size(&t) + 2 < most {
        let n = num(2 + r.below(7) as i64);
        t = match r.below(24) {
            0 => op(8, vec![t]),
            1 => op(DIV, vec![n, t]),
            2 => op(DIV, vec![t, n]),
            3 if nesting(&t) < DEEPEST - 2 => op(SELECT, vec![n, t]),
            4..=11 if 2 * size(&t) < most => op(ADD, vec![t.clone(), t]),
            k => op(ADD + k % 3, vec![t, n]),
        };
    }
    t
}

// ---- lists whose rows several scopes share

/// The switch with a sign before it, and each of so many numbers divided by all before. The texts of these divisors ascend, so that each is bound with all
/// those in it, and the switch.
fn divisor(height: usize, switch: T) -> T {
    stacked((0..height).map(number), switch)
}

fn number(n: usize) -> T {
    num(100 + 2 * n as i64)
}

fn stacked(numbers: impl Iterator<Item = T>, switch: T) -> T {
    numbers.fold(op(NEG, vec![switch]), |t, n| op(DIV, vec![n, t]))
}

fn in_arm(t: T) -> T {
    op(SELECT, vec![num(1), t])
}

/// Divisions by divisors in one another around a switch, whose arm divides by others around a switch, and so on, with so many in each scope. The last switch
/// has this arm. Each arm also divides by a number that is bound in the scope above it: two of the switch's copies differ, so that the arm's scope has
/// the same divisors twice. So many signs stand in the first division, each a row of the first scope.
fn shared(heights: &[usize], last: T, signs: usize) -> Vec<T> {
    let between = |level: usize| num(101 + 2 * level as i64);
    let mut arm = last;
    for (level, height) in heights.iter().enumerate().skip(1).rev() {
        let mut t = op(DIV, vec![num(3), between(level - 1)]);
        if level + 1 < heights.len() {
            t = op(DIV, vec![t, between(level)]);
        }
        arm = op(DIV, vec![t, divisor(*height, in_arm(arm))]);
    }
    let mut p = negated(sym("p"), signs);
    if heights.len() > 1 {
        p = op(DIV, vec![p, between(0)]);
    }
    let t = divisor(heights[0], in_arm(arm));
    vec![op(DIV, vec![p, t.clone()]), op(DIV, vec![sym("q"), t])]
}

fn negated(t: T, signs: usize) -> T {
    (0..signs).fold(t, |t, _| op(NEG, vec![t]))
}

/// A tree that divides twice by two divisors around a switch, so that its scope holds more than it is given.
fn twice_divided() -> T {
    let t = divisor(1, in_arm(num(2)));
    op(ADD, vec![op(DIV, vec![num(2), t.clone()]), op(DIV, vec![num(3), t])])
}

/// Such divisions in one to four scopes, with up to as many scopes in all as can be open, of as many occurrences as may be: they come near the area's rows,
/// and some go past them.
pub fn sharing(r: &mut Random, most: usize) -> Vec<T> {
    let mut last = if r.chance(50) { num(2) } else { twice_divided() };
    let levels = 1 + r.below(4);
    let deeper = r.below(DEEPEST + 1 - levels - nesting(&last));
    last = (0..deeper).fold(last, |t, _| in_arm(t));
    let mut heights = vec![3; levels];
    // the first scope's or each one's in turn, or any
    let (first, even) = (r.chance(30), r.chance(30));
    let mut next = 0;
    while shared(&heights, last.clone(), 0).iter().map(size).sum::<usize>() + 4 <= most {
        let level = if first { 0 } else if even { next % levels } else { r.below(levels) };
        heights[level] += 1;
        next += 1;
    }
    let left = most - shared(&heights, last.clone(), 0).iter().map(size).sum::<usize>();
    shared(&heights, last, r.below(left + 1))
}

// ---- lists at the limits

/// What a list comes near.
#[derive(Clone, Copy, Debug)]
pub enum Edge {
    /// what an arm's scope is given
    Given,
    /// the area's rows, with two scopes open, of which the second is given far more than one
    Arm,
    /// the area's rows, with two scopes open, nearly all of them the first one's
    Two,
    /// with three open
    Three,
    /// with nine open
    Nine,
    /// the statements of a scope
    Statements,
}

pub const EDGES: [Edge; 6] = [Edge::Given, Edge::Arm, Edge::Two, Edge::Three, Edge::Nine, Edge::Statements];

/// Such a list, with so many more of what it is near. Rows are more in the first scope; the last one is given a single row but in `Arm`.
pub fn edge(edge: Edge, more: usize) -> Vec<T> {
    let between = |count: i64| -> Vec<i64> { (0..count).map(|n| 101 + 2 * n).collect() };
    let sum = |times: usize| (0..times).fold(num(2), |t, _| op(ADD, vec![t.clone(), t]));
    let selects = |key: T, count: usize| (0..count).fold(key, |key, _| op(SELECT, vec![key, num(0)]));
    let divided = |t: T, numbers: Vec<i64>, last: T| vec![op(DIV, vec![sym("p"), t.clone()]), op(DIV, vec![sym("q"), t]), over(sym("d"), &numbers), last];
    // at one place a product instead of a number, since no height comes near enough
    let filling = |height: usize, at: usize, switch: T, first: T| {
        let t = stacked((0..height).map(|n| if n == at { op(MUL, vec![number(n), num(1)]) } else { number(n) }), switch);
        vec![op(DIV, vec![first, t.clone()]), op(DIV, vec![sym("q"), t])]
    };
    match edge {
        Edge::Given => divided(divisor(7, in_arm(over(sum(7), &between(7)))), between(7), in_arm(negated(num(2), more))),
        Edge::Arm => filling(240, 55, in_arm(over(sum(3), &between(3))), over(negated(sym("p"), more), &between(3))),
        Edge::Two => filling(250, 116, in_arm(num(2)), negated(sym("p"), more)),
        Edge::Three => shared(&[154, 94], num(2), more),
        Edge::Nine => shared(&[183, 52], (0..5).fold(twice_divided(), |t, _| in_arm(t)), more),
        Edge::Statements => divided(divisor(16, selects(over(num(1), &between(16)), 118)), between(16), selects(num(2), more)),
    }
}

/// Two roots become one until there are few enough, and each tree is now and then read by another.
fn joined(r: &mut Random, mut es: Vec<T>, most: usize) -> Vec<T> {
    let mut total: usize = es.iter().map(size).sum();
    let roots = 1 + r.below(ROOTS);
    while es.len() > roots && (total < most || es.len() > ROOTS) {
        let a = es.remove(r.below(es.len()));
        let i = r.below(es.len());
        let kind = *r.pick(&[ADD, ADD, 4, MUL, DIV, ATAN2]);
        es[i] = op(kind, vec![es[i].clone(), a]);
        total += 1;
    }
    while es.iter().map(size).sum::<usize>() > most {
        es.remove(r.below(es.len()));
    }
    es
}

fn grown(r: &mut Random, soil: &Soil) -> Vec<T> {
    let mut pool: Vec<T> = soil.symbols.iter().map(|s| sym(s)).collect();
    pool.extend(soil.constants.iter().map(|n| num(*n)));
    pool.extend(["c", "d", "y"].map(sym));
    let leaves = pool.len();
    for _ in 0..20 + r.below(60) {
        let kind = *r.pick(soil.kinds);
        let parts: Vec<T> = (0..arity(r, kind)).map(|_| one(r, &pool)).collect();
        if parts.iter().map(size).sum::<usize>() < MOST_OF_A_PART && parts.iter().all(|t| nesting(t) < DEEPEST) {
            pool.push(op(kind, parts));
        }
    }
    pool.split_off(leaves)
}

/// Deep nests, of which each holds the next.
fn chains(r: &mut Random, longest: usize) -> Vec<T> {
    let mut t = sym("a");
    let mut all = vec![op(8, vec![t.clone()])];
    let kinds = [vec![NEG, 8, ADD, MUL], vec![MUL], vec![ADD, 4], vec![DIV, 7], vec![9, 24]];
    let kinds = r.pick(&kinds).clone();
    while size(&t) < longest {
        let kind = *r.pick(&kinds);
        let leaf = if r.chance(70) { sym(["a", "b", "c"][r.below(3)]) } else { num(2) };
        let parts = match (arity(r, kind), r.below(2)) {
            (1, _) => vec![t],
            (_, 0) => vec![t, leaf],
            _ => vec![leaf, t],
        };
        t = op(kind, parts);
        if r.chance(5) {
            all.push(t.clone());
        }
    }
    all.push(t);
    all
}

/// Divisors without a symbol, each of which divides in the next. Each is bound as it was counted, so that
/// the answer of two of the last is far longer than the list.
fn stairs(r: &mut Random, longest: usize) -> Vec<T> {
    let mut t = num(2);
    let mut all = vec![t.clone()];
    // texts that come before the text they stand in, after it, or either
    let way = r.below(3);
    let most = if r.chance(50) { longest } else { longest / 8 };
    while size(&t) + 2 < most {
        let n = all.len() as i64;
        t = match r.below(30) {
            0 => op(ADD, vec![num(n), t]),
            1 => op(8, vec![t]),
            _ => op(DIV, vec![num([7, 100 + n, r.below(9) as i64][way]), t]),
        };
        all.push(t.clone());
    }
    // the last three as often as all others
    let last = all[all.len().saturating_sub(3)..].to_vec();
    let more = all.len();
    all.extend(last.into_iter().cycle().take(more));
    all
}

/// What a generator of derivatives gives: sums of products of a few sines, cosines and lengths.
fn derivatives(r: &mut Random) -> Vec<T> {
    let angle = |r: &mut Random| op(8 + r.below(2), vec![sym(["a", "b", "c"][r.below(3)])]);
    let place = |r: &mut Random| sym(["p", "q", "y"][r.below(3)]);
    let turned = |r: &mut Random| {
        let (x, y) = (place(r), place(r));
        let (s, c) = (angle(r), angle(r));
        op(ADD + r.below(2), vec![op(MUL, vec![x, c]), op(MUL, vec![y, s])])
    };
    let length = |r: &mut Random| {
        let (x, y) = (turned(r), place(r));
        let square = |t: T| op(7, vec![t, num(2)]);
        op(22, vec![op(ADD, vec![square(x), square(y)])])
    };
    let mut sum = turned(r);
    for _ in 0..1 + r.below(4) {
        let mut term = angle(r);
        for _ in 0..1 + r.below(3) {
            let factor = match r.below(6) {
                0 => turned(r),
                1 => num([2, -1, 3][r.below(3)]),
                2 | 3 => place(r),
                _ => angle(r),
            };
            term = op(MUL, vec![term, factor]);
        }
        if r.chance(25) {
            term = op(DIV, vec![term, length(r)]);
        }
        sum = op(ADD + r.below(2), vec![sum, term]);
    }
    vec![sum]
}

/// Sums of a tree with itself.
fn doubled(r: &mut Random, most: usize) -> Vec<T> {
    let mut t = sym("a");
    let mut all = Vec::new();
    while 2 * size(&t) < most {
        let kind = *r.pick(&[ADD, MUL, 4, DIV, 7]);
        t = op(kind, vec![t.clone(), t]);
        all.push(t.clone());
    }
    all.reverse();
    let mut total = 0;
    all.retain(|t| {
        let fits = total + size(t) <= most;
        total += if fits { size(t) } else { 0 };
        fits
    });
    all
}
