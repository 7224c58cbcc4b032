//! Refusal 23, which the source doesn't have: docs/DECISIONS.md says what a scope may be given, hold and state, and how
//! the scopes that are open share the work area's rows. `count_held` in build.sh has the source call `open` as a scope
//! starts, and `fuse` as it has grouped its switches, before it fuses them.
use crate::arael::{E, Expr, LargeScope};
use crate::cse::{Intermediate, Switch, children};
use std::cell::Cell;

/// What is counted of a scope: the occurrences that it is given; those that it holds for fusion; the rows that these two have together with what the
/// scopes hold that it stands in; its switches, and its statements.
pub type Sizes = [usize; 6];
pub const GIVEN: usize = 0;
pub const HELD: usize = 1;
pub const ROWS_GIVEN: usize = 2;
pub const ROWS_HELD: usize = 3;
pub const SWITCHES: usize = 4;
pub const STATEMENTS: usize = 5;

/// The area's rows, which all open scopes share.
pub const ROWS: usize = 65_536;

/// The most that a scope may have of each. What one holds has no limit but the rows that are left.
pub const LIMITS: Sizes = [1927, usize::MAX, ROWS, ROWS, 3640, 2048];

/// The largest number that a scope may start with.
const MOST_NUMBER: usize = 1 << 31;

thread_local! {
    static REACHED: Cell<Sizes> = const { Cell::new([0; 6]) };
    /// the rows of what the open scopes hold whose switches are being fused
    static TAKEN: Cell<usize> = const { Cell::new(0) };
}

/// The most that one scope had of each since this was last asked.
pub fn take_reached() -> Sizes {
    REACHED.take()
}

/// Ends the run where one is past its limit.
fn reach(sizes: Sizes) {
    let before = REACHED.get();
    REACHED.set(std::array::from_fn(|i| before[i].max(sizes[i])));
    if (0..LIMITS.len()).any(|i| sizes[i] > LIMITS[i]) {
        std::panic::panic_any(LargeScope);
    }
}

fn size(e: &E) -> usize {
    1 + children(e).into_iter().map(size).sum::<usize>()
}

fn has_switch(e: &E) -> bool {
    matches!(e.as_ref(), Expr::Select { .. } | Expr::Branch(..)) || children(e).into_iter().any(has_switch)
}

/// A scope that is open, with the rows that were taken as it started. They are what is taken again when it ends, and so is it where the run ends inside it.
pub struct Open {
    taken: usize,
}

pub fn open(scoped: bool, first: usize, input: &[E]) -> Open {
    let taken = TAKEN.get();
    if scoped {
        let given: usize = input.iter().map(size).sum();
        let mut sizes = [0; 6];
        sizes[GIVEN] = given;
        sizes[ROWS_GIVEN] = taken + given;
        reach(sizes);
        if first > MOST_NUMBER {
            std::panic::panic_any(LargeScope);
        }
    }
    Open { taken }
}

impl Open {
    /// What a scope holds: its results, the bindings that the rounds made, which are the first of all, and the reciprocals with a switch. Its statements:
    /// the bindings, and a match for each group of switches. The scopes of its arms have the rows that are left.
    pub fn fuse(&self, results: &[E], bindings: &[Intermediate], rounds: usize, groups: &[(Switch, usize, bool, Vec<E>)]) {
        let lets: Vec<&E> = bindings.iter().filter_map(Intermediate::as_let).map(|(_, e)| e).collect();
        let (made, reciprocals) = lets.split_at(rounds);
        let kept = made.iter().chain(reciprocals.iter().filter(|e| has_switch(e))).copied();
        let held: usize = results.iter().chain(kept).map(size).sum();
        let mut sizes = [0; 6];
        sizes[HELD] = held;
        sizes[ROWS_HELD] = self.taken + held;
        sizes[SWITCHES] = groups.iter().map(|(_, _, _, members)| members.len()).sum();
        sizes[STATEMENTS] = lets.len() + groups.len();
        reach(sizes);
        TAKEN.set(self.taken + held);
    }
}

impl Drop for Open {
    fn drop(&mut self) {
        TAKEN.set(self.taken);
    }
}
