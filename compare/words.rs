//! The source's expressions as words of trees (crates/spec_tree/specs/Tokens.antt): one word for each
//! node, before its operands, its kind and what is below it.
use crate::arael::{E, Expr};
use crate::cse::children;

/// Kinds, numbered as 01 lists them; a Select with a default comes after them.
pub const KINDS: usize = 29;

/// What a word is divided by to get what is below its kind.
pub const BELOW: u64 = 64;

pub const NAMES: [&str; KINDS] = [
    "Sym", "Const", "Neg", "Add", "Sub", "Mul", "Div", "Pow", "Sin", "Cos", "Tan", "Asin", "Acos", "Atan", "Atan2", "Sinh", "Cosh", "Tanh", "Exp", "Ln", "Log2",
    "Log10", "Sqrt", "Abs", "Heaviside", "Clamp", "Branch", "Select", "SelectOr",
];

pub fn kind(e: &E) -> usize {
    match e.as_ref() {
        Expr::Sym(_) => 0,
        Expr::Const(_) => 1,
        Expr::Neg(_) => 2,
        Expr::Add(..) => 3,
        Expr::Sub(..) => 4,
        Expr::Mul(..) => 5,
        Expr::Div(..) => 6,
        Expr::Pow(..) => 7,
        Expr::Sin(_) => 8,
        Expr::Cos(_) => 9,
        Expr::Tan(_) => 10,
        Expr::Asin(_) => 11,
        Expr::Acos(_) => 12,
        Expr::Atan(_) => 13,
        Expr::Atan2(..) => 14,
        Expr::Sinh(_) => 15,
        Expr::Cosh(_) => 16,
        Expr::Tanh(_) => 17,
        Expr::Exp(_) => 18,
        Expr::Ln(_) => 19,
        Expr::Log2(_) => 20,
        Expr::Log10(_) => 21,
        Expr::Sqrt(_) => 22,
        Expr::Abs(_) => 23,
        Expr::Heaviside(_) => 24,
        Expr::Clamp(..) => 25,
        Expr::Branch(..) => 26,
        Expr::Select { default: None, .. } => 27,
        Expr::Select { .. } => 28,
        Expr::NamedConst { .. } | Expr::Func { .. } => unreachable!("not a kind of 01"),
    }
}

/// 0, -1, 1, -2, 2, .. have the codes 0, 1, 2, 3, 4, ..
pub fn constant_code(c: f64) -> u64 {
    assert!(c == c.trunc() && c.abs() < 1e15, "a constant of 01");
    if c < 0.0 { 2 * (-c as u64) - 1 } else { 2 * c as u64 }
}

/// Three times a number, and a class: 0 for a symbol of the list, 1 for `__xN`, 2 for `__mN`.
pub fn symbol_code(name: &str, number: &dyn Fn(&str) -> u64) -> u64 {
    let made = |head| name.strip_prefix(head).and_then(|digits: &str| digits.parse::<u64>().ok());
    match (made("__x"), made("__m")) {
        (Some(n), _) => 3 * n + 1,
        (_, Some(n)) => 3 * n + 2,
        _ => 3 * number(name),
    }
}

/// Adds the words of a tree; `number` gives the number of a symbol of the list.
pub fn put(e: &E, number: &dyn Fn(&str) -> u64, words: &mut Vec<u64>) {
    let below = match e.as_ref() {
        Expr::Sym(name) => symbol_code(name, number),
        Expr::Const(c) => constant_code(*c),
        _ => children(e).len() as u64,
    };
    words.push(kind(e) as u64 + BELOW * below);
    children(e).into_iter().for_each(|c| put(c, number, words));
}
