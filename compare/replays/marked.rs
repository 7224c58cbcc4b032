//! The paper's marked lists, M1 to M11, and sheets that load refuses.
use crate::tree::*;
use crate::{Case, case};

const SUB: usize = 4;
const SIN: usize = 8;
const COS: usize = 9;

/// M9, whose two sums have one text: the source's answer hangs on hash order, and the paper's takes the
/// one met first.
const M9: [&str; 2] = [
    "Sym,a/Sym,b/Sym,c/Add,1,2/Add,0,3/Sin,4/Cos,4/Add,0,1/Add,7,2/Sin,8/Cos,8/Root,5/Root,6/Root,9/Root,10/",
    "let __x1 = a + b + c;\nlet __x0 = a + b + c;\nsin(__x0)\ncos(__x0)\nsin(__x1)\ncos(__x1)\n",
];

/// M11 has no roots.
const M11: [&str; 2] = ["Sym,a", ""];

/// The paper's own numbers, for the sheet and the refusal's number and record.
const REFUSED: [(&str, usize, usize); 9] = [
    ("", 1, 0),
    ("Sym", 2, 0),
    ("Sym,a/Foo,0", 2, 1),
    ("Sym,a/Add,0", 2, 1),
    ("Sym,9a", 3, 0),
    ("Sym,__x0", 3, 0),
    ("Sym,a/Const,007", 4, 1),
    ("Sym,a/Sin,1/Root,0", 5, 1),
    ("Sym,a/Root,1/", 5, 1),
];

/// In either form; what M9, M11 and the refused sheets give is the same in both.
pub fn cases(scoped: bool) -> Vec<Case> {
    let told = |es: Vec<T>| case(scoped, &es, true).expect("hash order decides no marked list").0;
    let asked = marked().into_iter().map(told);
    let refused = REFUSED.iter().map(|(sheet, n, record)| Case::refused(sheet, *n, *record));
    asked.chain([M9, M11].map(|[sheet, said]| Case::new(sheet, said))).chain(refused).collect()
}

fn two(kind: usize, a: &T, b: &T) -> T {
    op(kind, vec![a.clone(), b.clone()])
}

fn one(kind: usize, a: &T) -> T {
    op(kind, vec![a.clone()])
}

fn marked() -> Vec<Vec<T>> {
    let [a, b, c, d] = ["a", "b", "c", "d"].map(sym);
    let [p, q, i, y] = ["p", "q", "i", "y"].map(sym);
    let sum = two(ADD, &a, &b);
    let other = two(ADD, &c, &d);
    let product = two(MUL, &a, &b);
    let twice = two(MUL, &num(2), &a);
    let three = two(ADD, &num(1), &num(2));
    let s = op(SELECT, vec![i.clone(), a.clone(), b.clone()]);
    let raised = two(ADD, &s, &y);
    let scaled = |n: i64| {
        let inner = two(MUL, &two(MUL, &num(1_000_000_000), &a), &num(n));
        vec![product.clone(), one(SIN, &product), two(MUL, &inner, &b)]
    };
    vec![
        vec![two(MUL, &sum, &c), one(SIN, &sum)],
        vec![one(SIN, &sum), one(COS, &sum), one(SIN, &other), one(COS, &other)],
        vec![product.clone(), one(SIN, &product), two(MUL, &two(MUL, &a, &c), &b)],
        vec![one(SIN, &twice), one(COS, &twice), two(MUL, &two(MUL, &num(2), &b), &a)],
        vec![two(DIV, &p, &num(2)), two(DIV, &q, &num(2))],
        vec![two(DIV, &p, &num(2))],
        vec![one(SIN, &three), one(COS, &three)],
        vec![raised.clone(), op(SELECT, vec![i, raised, c.clone()])],
        scaled(1_000_000),
        scaled(999_999),
        // a difference that the sum's factors don't touch
        vec![two(SUB, &sum, &c), one(SIN, &sum)],
    ]
}
