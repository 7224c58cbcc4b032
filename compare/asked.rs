//! What the source answers to a list: its bindings and results, or the number of the refusal that stands
//! for its panic.
use crate::arael::{E, LargeScope, OutsideConstants, take_ones};
use crate::cse::{Intermediate, cse, cse_scoped};
use std::any::Any;
use std::panic::{AssertUnwindSafe, catch_unwind, resume_unwind, set_hook, take_hook};

pub struct Answer {
    pub inters: Vec<Intermediate>,
    pub results: Vec<E>,
    /// how many bindings are reciprocals
    pub reciprocals: usize,
}

/// The answer in one form, or the number.
pub fn asked(es: &[E], scoped: bool) -> Result<Answer, usize> {
    take_ones();
    let run = catch_unwind(AssertUnwindSafe(|| if scoped { cse_scoped(es) } else { flat(es) }));
    let reciprocals = take_ones();
    match run {
        Ok((inters, results)) => Ok(Answer {
            inters,
            results,
            reciprocals,
        }),
        Err(payload) => match refusal(payload.as_ref()) {
            Some(number) => Err(number),
            None => resume_unwind(payload),
        },
    }
}

fn flat(es: &[E]) -> (Vec<Intermediate>, Vec<E>) {
    let (lets, results) = cse(es);
    let made = |(name, expr)| Intermediate::Let { name, expr };
    (lets.into_iter().map(made).collect(), results)
}

/// What the source prints, a line feed after each binding and each result.
pub fn text(a: &Answer) -> String {
    let inters = a.inters.iter().map(|it| format!("{it}\n"));
    inters.chain(a.results.iter().map(|e| format!("{e}\n"))).collect()
}

/// 10 is thrown by the stand-in as the coefficient is rebuilt, 11 by the source's sort, 23 by what counts
/// a scope's occurrences and statements: the first of them that the source reaches ends it. Any other panic is a fault.
fn refusal(payload: &(dyn Any + Send)) -> Option<usize> {
    if payload.is::<OutsideConstants>() {
        return Some(10);
    }
    if payload.is::<LargeScope>() {
        return Some(23);
    }
    let said = payload.downcast_ref::<String>()?;
    said.contains("dependency cycle among intermediates")
        .then_some(11)
}

/// Has the panics that stand for refusals say nothing.
pub fn hush() {
    let loud = take_hook();
    set_hook(Box::new(move |info| {
        if refusal(info.payload()).is_none() {
            loud(info);
        }
    }));
}
