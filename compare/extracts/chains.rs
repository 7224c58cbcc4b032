//! Lists that are one thing over and over: nests, long products and sums, divisors in one another, rows that no root
//! reaches; and the empty one.
use crate::fits::{self, Fit};
use crate::laid::{self, List};
use crate::large::MOST;
use crate::lists::DEEPEST;
use crate::rows::{Rows, WIDTH};
use crate::tree::*;

const SINES: usize = 1022;
const FACTORS: usize = 501;
const DOUBLED: usize = 7;
/// As many as may be where two divisions stand below so many arms.
const DIVISORS: i64 = 246;

/// Each with its name.
pub fn lists() -> Vec<(&'static str, List)> {
    let sines = (0..SINES).fold(sym("a"), |t, _| op(SIN, vec![t]));
    let a = sym("a");
    let product = (1..FACTORS).fold(a.clone(), |t, _| op(MUL, vec![t, a.clone()]));
    let sum = op(ADD, vec![a, sym("b")]);
    let sum = (0..DOUBLED).fold(sum, |t, _| op(ADD, vec![t.clone(), t]));
    let mut lists = vec![
        ("Sines", laid::as_made(&[sines])),
        ("Factors", laid::as_made(&[product])),
        ("Doubled", laid::as_made(&[sum])),
    ];
    for (name, falling, arms) in [("Growing", false, 0), ("Falling", true, 0), ("Growing/arms", false, DEEPEST), ("Falling/arms", true, DEEPEST)] {
        lists.push((name, laid::as_made(&divisions(falling, arms))));
    }
    lists.push(("Empty", laid::as_made(&[])));
    lists.push(("Unreached", unreached()));
    lists
}

/// Two divisions by divisors in one another, below so many arms. The numbers that stand above grow from the first divisor to
/// the last, or fall.
fn divisions(falling: bool, arms: usize) -> Vec<T> {
    let number = |n: i64| num(100 + 2 * if falling { DIVISORS - n } else { n });
    let divisor = (0..DIVISORS).fold(num(2), |t, n| op(DIV, vec![number(n), t]));
    let division = |p| op(DIV, vec![sym(p), divisor.clone()]);
    let below = |t| (0..arms).fold(t, |t, _| op(SELECT, vec![sym("i"), t]));
    ["p", "q"].into_iter().map(division).map(below).collect()
}

/// A small fit after rows that no root reaches, as many rows in all as there may be.
fn unreached() -> List {
    let fit = fits::list(Fit::Dyes, false, fits::SIZES[0]);
    let own = laid::as_made(&fit).rows.words.len() / WIDTH;
    let mut rows = Rows::new();
    rows.put_symbol("a");
    for n in 1..MOST - own {
        rows.put_operation(ADD, &[n - 1, n / 2]);
    }
    laid::as_made_after(rows, &fit)
}
