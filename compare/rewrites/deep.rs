//! Words that stand as deep as `replace` takes them, one deeper, and far deeper.
use crate::arael::E;
use crate::depth::DEEPEST;
use crate::pairs::{Pair, num, op, sym};
use crate::port::Call;
use crate::random::Random;
use crate::tree::{DIV, MUL, NEG, SELECT};
use crate::{MINUS, ONE, PRODUCT, cse};

/// Sorts: a bit for the target to be as deep, a bit for one level too many; and words far deeper.
pub const OF_TARGET: usize = 1;
const TOO_DEEP: usize = 2;
pub const FAR: usize = 4;
pub const SORTS: usize = 5;

pub fn of_sort(sort: usize) -> usize {
    DEEPEST + usize::from(sort & TOO_DEEP != 0)
}

fn depth(e: &E) -> usize {
    1 + cse::children(e).into_iter().map(depth).max().unwrap_or(0)
}

/// A tree with operations around it until it stands so deep: products alone, one kind alone, or any.
fn around(r: &mut Random, e: E, levels: usize) -> E {
    let kinds: &[usize] = match r.below(5) {
        0 => &[MUL],
        1 => &[NEG],
        2 => &[MUL, NEG],
        3 => &[MUL, 8],
        _ => &[MUL, NEG, 3, DIV, 8, SELECT],
    };
    let left = r.below(3);
    (depth(&e)..levels).fold(e, |e, _| {
        let kind = *r.pick(kinds);
        let other = if r.chance(90) { sym(["a", "b", "c"][r.below(3)]) } else { num(1) };
        match kind {
            NEG | 8 => op(kind, vec![e]),
            _ if left == 0 || left == 1 && r.chance(50) => op(kind, vec![e, other]),
            _ => op(kind, vec![other, e]),
        }
    })
}

/// The first tree put so deep below others; or the target, which is one of the trees then.
pub fn sunk(r: &mut Random, mut pair: Pair, sort: usize) -> Pair {
    let levels = of_sort(sort);
    if sort & OF_TARGET == 0 {
        pair.es[0] = around(r, pair.es[0].clone(), levels);
    } else {
        pair.part = around(r, pair.part, levels);
        // within 1,041 the trees may hold it
        if r.chance(50) || levels > DEEPEST {
            pair.es[0] = pair.part.clone();
        }
        if levels > DEEPEST && r.chance(50) {
            // only the target is too deep
            pair.es[0] = sym("a");
        }
    }
    pair
}

/// So many signs before the words or the target, or so many products, or as many words that lack their operands.
pub fn put_far(r: &mut Random, c: &mut Call) {
    let many = 100_000 + r.below(100_000);
    let words = if r.chance(50) { &mut c.tokens } else { &mut c.part };
    let sort = r.below(3);
    let mut deep = vec![if sort == 0 { MINUS } else { PRODUCT }; many];
    if sort < 2 {
        deep.append(words);
        deep.extend(vec![ONE; if sort == 1 { many } else { 0 }]);
    }
    *words = deep;
}
