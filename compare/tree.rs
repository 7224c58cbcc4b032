//! The trees of a list, apart from the source's: kinds by the numbers that the definitions give
//! them, 28 for a Select with a default. A tree turns into the source's expression and into the
//! definitions' text.
use crate::arael::{E, Expr};
use std::collections::HashMap;
use std::rc::Rc;

pub const NEG: usize = 2;
pub const ADD: usize = 3;
pub const SUB: usize = 4;
pub const MUL: usize = 5;
pub const DIV: usize = 6;
pub const POW: usize = 7;
pub const SIN: usize = 8;
pub const COS: usize = 9;
pub const ATAN2: usize = 14;
pub const EXP: usize = 18;
pub const CLAMP: usize = 25;
pub const BRANCH: usize = 26;
pub const SELECT: usize = 27;
pub const SELECT_OR: usize = 28;
pub const KINDS: usize = 29;

/// The kinds as sheets name them.
pub const WORDS: [&str; KINDS] = [
    "Sym", "Const", "Neg", "Add", "Sub", "Mul", "Div", "Pow", "Sin", "Cos", "Tan", "Asin", "Acos", "Atan",
    "Atan2", "Sinh", "Cosh", "Tanh", "Exp", "Ln", "Log2", "Log10", "Sqrt", "Abs", "Heaviside", "Clamp",
    "Branch", "Select", "SelectOr",
];

pub enum Tree {
    Sym(&'static str),
    Const(i64),
    Op(usize, Vec<T>),
}

pub type T = Rc<Tree>;

pub fn sym(name: &'static str) -> T {
    Rc::new(Tree::Sym(name))
}

pub fn num(n: i64) -> T {
    Rc::new(Tree::Const(n))
}

pub fn op(kind: usize, operands: Vec<T>) -> T {
    Rc::new(Tree::Op(kind, operands))
}

fn operands(t: &T) -> &[T] {
    match t.as_ref() {
        Tree::Op(_, l) => l,
        _ => &[],
    }
}

pub fn size(t: &T) -> usize {
    1 + operands(t).iter().map(size).sum::<usize>()
}

/// How deep arms nest: each operand of a switch after the first is a level further in.
pub fn nesting(t: &T) -> usize {
    let switch = matches!(t.as_ref(), Tree::Op(k, _) if *k >= BRANCH);
    let level = |(i, c): (usize, &T)| nesting(c) + usize::from(switch && i > 0);
    operands(t).iter().enumerate().map(level).max().unwrap_or(0)
}

/// Marks the kinds that occur in a tree.
pub fn mark_kinds(t: &T, seen: &mut [bool; KINDS]) {
    seen[match t.as_ref() {
        Tree::Sym(_) => 0,
        Tree::Const(_) => 1,
        Tree::Op(k, _) => *k,
    }] = true;
    operands(t).iter().for_each(|c| mark_kinds(c, seen));
}

/// The tree as the definitions write it.
pub fn antt(t: &T) -> String {
    match t.as_ref() {
        Tree::Sym(s) => format!("v \"{s}\""),
        Tree::Const(n) if *n < 0 => format!("Const (negsuc {})", -n - 1),
        Tree::Const(n) => format!("Const (pos {n})"),
        Tree::Op(k, l) => {
            let parts: String = l
                .iter()
                .map(|c| format!("{} ◂ ", antt_operand(c)))
                .collect();
            format!("Op {k} ({parts}nil)")
        }
    }
}

fn antt_operand(t: &T) -> String {
    format!("({})", antt(t))
}

/// Makes the source's expressions of trees. Where `share` is set, a tree that is held at several
/// places becomes one node there; otherwise each place has a node of its own.
pub struct Maker {
    pub share: bool,
    made: HashMap<*const Tree, E>,
}

impl Maker {
    pub fn new(share: bool) -> Maker {
        Maker {
            share,
            made: HashMap::new(),
        }
    }

    pub fn make(&mut self, t: &T) -> E {
        if let (true, Some(e)) = (self.share, self.made.get(&Rc::as_ptr(t))) {
            return e.clone();
        }
        let parts = operands(t).iter().map(|c| self.make(c)).collect();
        let e = E::from(match t.as_ref() {
            Tree::Sym(s) => Expr::Sym(s.to_string()),
            Tree::Const(n) => Expr::Const(*n as f64),
            Tree::Op(k, _) => expr(*k, parts),
        });
        self.made.insert(Rc::as_ptr(t), e.clone());
        e
    }
}

pub fn expr(kind: usize, parts: Vec<E>) -> Expr {
    match kind {
        NEG | 8..=13 | 15..=24 => unary(kind, parts.into_iter().next().unwrap()),
        BRANCH | CLAMP => {
            let [a, b, c] = <[E; 3]>::try_from(parts).unwrap();
            if kind == BRANCH {
                Expr::Branch(a, b, c)
            } else {
                Expr::Clamp(a, b, c)
            }
        }
        SELECT | SELECT_OR => {
            let mut rest = parts.into_iter();
            let index = rest.next().unwrap();
            let mut arms: Vec<E> = rest.collect();
            let default = if kind == SELECT_OR { arms.pop() } else { None };
            Expr::Select {
                index,
                arms,
                default,
            }
        }
        _ => {
            let [a, b] = <[E; 2]>::try_from(parts).unwrap();
            binary(kind, a, b)
        }
    }
}

fn binary(kind: usize, a: E, b: E) -> Expr {
    match kind {
        ADD => Expr::Add(a, b),
        4 => Expr::Sub(a, b),
        MUL => Expr::Mul(a, b),
        DIV => Expr::Div(a, b),
        7 => Expr::Pow(a, b),
        ATAN2 => Expr::Atan2(a, b),
        _ => unreachable!("no kind {kind}"),
    }
}

fn unary(kind: usize, a: E) -> Expr {
    match kind {
        NEG => Expr::Neg(a),
        8 => Expr::Sin(a),
        9 => Expr::Cos(a),
        10 => Expr::Tan(a),
        11 => Expr::Asin(a),
        12 => Expr::Acos(a),
        13 => Expr::Atan(a),
        15 => Expr::Sinh(a),
        16 => Expr::Cosh(a),
        17 => Expr::Tanh(a),
        18 => Expr::Exp(a),
        19 => Expr::Ln(a),
        20 => Expr::Log2(a),
        21 => Expr::Log10(a),
        22 => Expr::Sqrt(a),
        23 => Expr::Abs(a),
        24 => Expr::Heaviside(a),
        _ => unreachable!("no kind {kind}"),
    }
}
