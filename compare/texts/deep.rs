//! Trees and answers whose rows stand as deep as the port takes them, a little deeper, and far deeper.
use crate::arael::E;
use crate::asked::Answer;
use crate::cse::{Arm, Intermediate, Switch, children};
use crate::depth::DEEPEST;
use crate::random::Random;
use crate::rows::{RESULT, Rows};
use crate::trees::{self, leaf, num, op, sym};
use crate::words::BELOW;

// ---- what was met

/// How many calls had words just as deep as is taken, one deeper, and far deeper.
#[derive(Default)]
pub struct Depths {
    just: usize,
    one_more: usize,
    far: usize,
}

/// From here on words are far deeper.
const FAR: usize = 12_000;

impl Depths {
    pub fn count(&mut self, levels: usize) {
        self.just += usize::from(levels == DEEPEST);
        self.one_more += usize::from(levels == DEEPEST + 1);
        self.far += usize::from(levels >= FAR);
    }

    pub fn said(&self) -> String {
        let Depths { just, one_more, far } = self;
        format!("words 1,041 deep {just}, 1,042 deep {one_more}, 12,000 deep and more {far}")
    }

    pub fn fewest(&self) -> usize {
        self.just.min(self.one_more).min(self.far)
    }
}

// ---- trees

fn levels_of(e: &E) -> usize {
    1 + children(e).into_iter().map(levels_of).max().unwrap_or(0)
}

/// A tree so deep: signs alone, one kind alone, or all kinds, about a small tree.
pub fn tree(r: &mut Random, rows: &Rows, levels: usize) -> E {
    let alone = match r.below(3) {
        0 => Some(2),
        1 => Some(3 + r.below(5)),
        _ => None,
    };
    let mut e = trees::tree(r, rows);
    if levels_of(&e) > levels {
        e = leaf(r, rows);
    }
    for _ in levels_of(&e)..levels {
        let kind = alone.unwrap_or(2 + r.below(27));
        let count = trees::arity(r, kind);
        let at = r.below(count);
        let parts = (0..count).map(|i| if i == at { e.clone() } else { leaf(r, rows) }).collect();
        e = op(kind, parts);
    }
    e
}

// ---- answers

pub fn rows() -> Rows {
    let mut rows = Rows::new();
    rows.put_symbol("a");
    rows.put_symbol("b");
    rows
}

/// A tree so deep of names that the list has.
fn named(r: &mut Random, levels: usize) -> E {
    let mut e = sym("a");
    let kinds = if r.chance(50) { 2..3 } else { 2..8 };
    for _ in 1..levels {
        let kind = kinds.start + r.below(kinds.len());
        e = op(kind, if kind == 2 { vec![e] } else { vec![sym("b"), e] });
    }
    e
}

/// So many matches in one another, each with a name and, by its kind, other arms; the innermost has the trees as its
/// key and its value.
pub fn nest(many: usize, key: E, value: E, kind: impl Fn(usize) -> usize) -> Intermediate {
    let plain = |e: E| Arm { inters: Vec::new(), values: vec![e] };
    let made = |n: usize, key: E, arm: Arm| {
        let name = format!("__m{n}");
        let (switch, arms, default) = match kind(n) {
            0 => (Switch::Sign(key), vec![arm], Some(plain(num(1)))),
            1 => (Switch::Sign(key), vec![plain(num(1))], Some(arm)),
            2 => (Switch::Index(key), vec![arm], None),
            3 => (Switch::Index(key), vec![plain(sym("b")), arm], None),
            _ => (Switch::Index(key), vec![plain(sym("a"))], Some(arm)),
        };
        Intermediate::Match { switch, names: vec![name], arms, default }
    };
    let innermost = made(many - 1, key, plain(value));
    (0..many - 1).rev().fold(innermost, |inner, n| {
        let arm = Arm { inters: vec![inner], values: vec![sym("b")] };
        made(n, sym("a"), arm)
    })
}

/// An answer so deep: a result or a let of a deep tree; or matches in one another, with a deep tree in the innermost.
pub fn answer(r: &mut Random, levels: usize) -> Answer {
    let mut inters = Vec::new();
    let mut results = vec![sym("a")];
    match r.below(4) {
        0 => results.push(named(r, levels - 1)),
        1 => inters.push(Intermediate::Let { name: String::from("__x0"), expr: named(r, levels - 1) }),
        sort => {
            // two rows for each match, and then a row and the tree
            let most = (levels - 2) / 2;
            let many = if r.chance(50) { most } else { 1 + r.below(most) };
            let by_key = sort == 3 && levels - 2 * many > 1;
            let deep = named(r, if by_key { levels - 2 * many + 1 } else { levels - 2 * many - 1 });
            let kinds: Vec<usize> = (0..many).map(|_| r.below(5)).collect();
            let (key, value) = if by_key { (deep, sym("b")) } else { (sym("b"), deep) };
            inters.push(nest(many, key, value, |n| kinds[n]));
        }
    }
    Answer { inters, results, reciprocals: 0 }
}

// ---- words far deeper, which aren't made of trees, since those would recurse here too

const MINUS: u64 = 2 + BELOW;
const PRODUCT: u64 = 5 + 2 * BELOW;
const MATCH: u64 = 31 + 3 * BELOW;
const NAME: u64 = 33;
const ARM: u64 = 34;
const VALUE: u64 = 35;

pub fn far(r: &mut Random) -> usize {
    *r.pick(&[FAR, 100_000, 300_000])
}

/// So many signs over a symbol, as many products to the left, or words that lack their operands.
pub fn far_tree(sort: usize, many: usize) -> Vec<u64> {
    match sort {
        0 => [vec![MINUS; many], vec![0]].concat(),
        1 => [vec![PRODUCT; many], vec![0; many + 1]].concat(),
        _ => vec![MINUS; many],
    }
}

/// A result over so many signs or products; or so many matches in one another, with all their names and values.
pub fn far_answer(sort: usize, many: usize) -> Vec<u64> {
    if sort < 3 {
        return [vec![RESULT], far_tree(sort, many)].concat();
    }
    let mut words = Vec::new();
    for n in 0..many {
        let parts = if n + 1 < many { 2 } else { 1 };
        words.extend([MATCH, 0, NAME + BELOW * (3 * n as u64 + 2), ARM + BELOW * parts]);
    }
    (0..many).for_each(|_| words.extend([VALUE, 0]));
    words
}
