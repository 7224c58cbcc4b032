//! What the program `replay_text` is run on and what it has to print (stdin and stdout in
//! crates/replay_text): words of trees and rows of answers, and the texts that the source gives.
//!
//! The first line of stdin has the node rows that name the symbols. Each other line has the words of a
//! tree, or an exclamation mark and an answer's rows, and then how many bytes are lent, one more than the
//! text has. In stdout a tree has two lines, for a call that only measures and one that writes: the places
//! after its words and after its text, and all bytes lent, which were filled with `#`. An answer has the
//! count of its bytes, or `refused` and the number, and all bytes lent.
use crate::arael::E;
use crate::asked::{self, Answer, asked};
use crate::deep;
use crate::depth::{DEEPEST, depth};
use crate::lists;
use crate::pair::Pair;
use crate::random::Random;
use crate::printed::{self, FORMS, NOT_LAID_OUT, TOO_LONG};
use crate::tree::Maker;
use crate::rows::{Rows, laid_out};
use crate::trees::{self, num, op, sym};
use crate::words::{self, KINDS};

const SEED: u64 = 1;
const RANDOM_TREES: usize = 60;
/// Random trees with longer texts are left out.
const SHORT: usize = 200;
/// Answers are stored until each form was met so often; those with longer texts are left out.
const OF_EACH_FORM: usize = 4;
const SHORT_ANSWER: usize = 300;
/// So many bytes are lent for answers that are refused.
const FEW_BYTES: usize = 16;
/// So many rows were too many for a stack of 8 MB, before the depth was tested.
const FAR: usize = 12_000;
/// The bytes lent are filled with this, which no text has.
const FILLED: &str = "#";
const SYMBOLS: [&str; 13] = [
    "a", "b", "_c9", "a_name_of_32_bytes_ABCDEFGHIJKL_", "c", "d", "i", "j", "k", "p", "q", "y", "z",
];

pub fn pair() -> Pair {
    let mut rows = Rows::new();
    for name in SYMBOLS {
        rows.put_symbol(name);
    }
    let mut pair = Pair::default();
    pair.stdin += &format!("{}\n", spaced(&rows.words));
    for e in seats().into_iter().chain(nests()) {
        put_tree(&mut pair, &rows, &e);
    }
    let mut r = Random(SEED);
    let mut count = 0;
    while count < RANDOM_TREES {
        let e = trees::tree(&mut r, &rows);
        if e.to_string().len() <= SHORT {
            put_tree(&mut pair, &rows, &e);
            count += 1;
        }
    }
    put_answers(&mut pair, &rows);
    put_deep(&mut pair, &rows);
    pair
}

/// Answers that stand as deep as is taken, one deeper, and far deeper: by signs below a result and by matches in one
/// another. Each says what it should give by how deep its words stand, and by the source's text.
fn put_deep(pair: &mut Pair, rows: &Rows) {
    let signs = |count: usize| (0..count).fold(sym("a"), |e, _| op(2, vec![e]));
    for levels in [DEEPEST, DEEPEST + 1] {
        let signs = |rows_around: usize| signs(levels - rows_around - 1);
        let result = Answer { inters: Vec::new(), results: vec![signs(1)], reciprocals: 0 };
        put_by_depth(pair, rows, &result, levels, true);
        // two rows for each match, the value's, and its tree
        let many = (levels - 2) / 2;
        let nest = deep::nest(many, sym("b"), signs(2 * many + 1), |n| n % 5);
        let matches = Answer { inters: vec![nest], results: vec![sym("a")], reciprocals: 0 };
        put_by_depth(pair, rows, &matches, levels, false);
    }
    put_refused(pair, &deep::far_answer(0, FAR), NOT_LAID_OUT);
    put_refused(pair, &deep::far_answer(3, FAR / 12), NOT_LAID_OUT);
}

/// With as many bytes as the text has and one more, or with few.
fn put_by_depth(pair: &mut Pair, rows: &Rows, a: &Answer, levels: usize, whole: bool) {
    let (words, said) = (laid_out(rows, a), asked::text(a));
    assert_eq!(depth(&words), levels, "as deep as it should be");
    if levels > DEEPEST {
        put_refused(pair, &words, NOT_LAID_OUT);
    } else if whole {
        put_said(pair, &words, &said);
    } else {
        assert!(said.len() > FEW_BYTES);
        put_refused(pair, &words, TOO_LONG);
    }
}

fn put_said(pair: &mut Pair, words: &[u64], said: &str) {
    pair.stdin += &format!("!{} {}\n", spaced(words), said.len() + 1);
    pair.stdout += &format!("{} {said}{FILLED}\n", said.len());
}

fn put_refused(pair: &mut Pair, words: &[u64], number: u64) {
    pair.stdin += &format!("!{} {FEW_BYTES}\n", spaced(words));
    pair.stdout += &format!("refused {number} {}\n", FILLED.repeat(FEW_BYTES));
}

/// The source's own answers to random lists.
fn put_answers(pair: &mut Pair, rows: &Rows) {
    let mut r = Random(SEED);
    let mut met = [0; FORMS.len()];
    while met.iter().any(|n| *n < OF_EACH_FORM) {
        let trees = lists::list(&mut r);
        let mut maker = Maker::new(false);
        let es: Vec<E> = trees.iter().map(|t| maker.make(t)).collect();
        let Ok(answer) = asked(&es, true) else {
            continue;
        };
        let mut forms = [false; FORMS.len()];
        printed::mark(&answer.inters, false, &mut forms);
        let wanted = forms.iter().zip(met).any(|(here, n)| *here && n < OF_EACH_FORM);
        let said = asked::text(&answer);
        if wanted && said.len() <= SHORT_ANSWER {
            met.iter_mut().zip(forms).for_each(|(n, here)| *n += usize::from(here));
            put_said(pair, &laid_out(rows, &answer), &said);
        }
    }
}

fn put_tree(pair: &mut Pair, rows: &Rows, e: &E) {
    let mut tokens = Vec::new();
    words::put(e, &|name| rows.number(name), &mut tokens);
    let text = e.to_string();
    let (next, end) = (tokens.len(), text.len());
    let untouched = FILLED.repeat(end + 1);
    pair.stdin += &format!("{} {}\n", spaced(&tokens), end + 1);
    pair.stdout += &format!("{next} {end} {untouched}\n{next} {end} {text}{FILLED}\n");
}

fn spaced(words: &[u64]) -> String {
    let words: Vec<String> = words.iter().map(u64::to_string).collect();
    words.join(" ")
}

/// How many operands are tried; a Select has two arms here.
fn operands(kind: usize) -> usize {
    match kind {
        3..=7 | 14 => 2,
        25..=27 => 3,
        28 => 4,
        _ => 1,
    }
}

/// A tree of each kind, its operands leaves.
fn small(kind: usize, n: usize) -> E {
    match kind {
        0 => match n % 3 {
            0 => sym("a"),
            1 => sym("__x12"),
            _ => sym("__m3"),
        },
        1 => num([2, -7, 0][n % 3]),
        _ => op(kind, (0..operands(kind)).map(|i| if i % 2 == 0 { sym("b") } else { num(1) }).collect()),
    }
}

/// Every kind at every place of an operation: the operands of one tree have kinds next to each
/// other, each kind at each place once.
fn seats() -> Vec<E> {
    let mut es = Vec::new();
    for kind in 2..KINDS {
        for child in 0..KINDS {
            let parts = (0..operands(kind)).map(|i| small((child + 11 * i) % KINDS, child + i)).collect();
            es.push(op(kind, parts));
        }
    }
    es
}

/// Nests of one kind on the left and on the right, and of two kinds in turn.
fn nests() -> Vec<E> {
    let mut es = Vec::new();
    for kind in 2..8 {
        for other in 2..8 {
            for left in [true, false] {
                let mut e = sym("_c9");
                for n in 0..6 {
                    let kind = if n % 2 == 0 { kind } else { other };
                    let parts = match (kind, left) {
                        (2, _) => vec![e],
                        (_, true) => vec![e, num(3)],
                        _ => vec![num(3), e],
                    };
                    e = op(kind, parts);
                }
                es.push(e);
            }
        }
    }
    let mut deep = sym("a_name_of_32_bytes_ABCDEFGHIJKL_");
    for n in 0..300 {
        deep = op([2, 8, 3][n % 3], if n % 3 == 2 { vec![num(1), deep] } else { vec![deep] });
    }
    es.push(deep);
    let arms = (0..17).map(|i| num(i - 8)).collect();
    es.push(op(27, arms));
    es
}
