//! How deep words stand below one another, counted from the right as AnswerRows.antt (crates/spec_cse/specs) defines
//! it: a row takes as many of the spans after it as stand below it. The port counts from the left.
use crate::words::BELOW;

/// The deepest that the port takes: 1,024 nodes of a tree, a row above them, and two rows for each of 8 arms.
pub const DEEPEST: usize = 1041;

const LET: u64 = 29;
const NAME: u64 = 33;
const VALUE: u64 = 35;

fn stands_below(w: u64) -> usize {
    match w % BELOW {
        0 | 1 | NAME => 0,
        LET | VALUE.. => 1,
        _ => (w / BELOW) as usize,
    }
}

pub fn depth(words: &[u64]) -> usize {
    // the depths of the spans to the right, the nearest last
    let mut spans: Vec<usize> = Vec::new();
    for w in words.iter().rev() {
        let left = spans.len() - stands_below(*w).min(spans.len());
        let below = spans.split_off(left).into_iter().max().unwrap_or(0);
        spans.push(1 + below);
    }
    spans.into_iter().max().unwrap_or(0)
}
