//! Memory that is lent to the port: it stands in the middle of a filled area, so that a write
//! outside what may be written shows.

const GUARD: usize = 40;

pub trait Filler: Copy + PartialEq {
    fn filler(i: usize) -> Self;
}

/// No word of a tree or of a count is as large.
impl Filler for u64 {
    fn filler(i: usize) -> u64 {
        (1 << 63) + i as u64
    }
}

/// No byte of a text is as large.
impl Filler for u8 {
    fn filler(i: usize) -> u8 {
        128 + (i % 128) as u8
    }
}

pub struct Area<A> {
    all: Vec<A>,
    lent: usize,
}

impl<A: Filler> Area<A> {
    pub fn new() -> Area<A> {
        Area {
            all: Vec::new(),
            lent: 0,
        }
    }

    /// Fills the area again, and lends so many elements of it.
    pub fn lend(&mut self, lent: usize) -> (*mut A, usize) {
        self.lent = lent;
        self.all.clear();
        self.all.extend((0..lent + 2 * GUARD).map(A::filler));
        (self.all[GUARD..].as_mut_ptr(), lent)
    }

    /// The same, with some elements to be read.
    pub fn lend_with(&mut self, elements: &[A]) -> (*mut A, usize) {
        self.lend(elements.len());
        self.all[GUARD..GUARD + elements.len()].copy_from_slice(elements);
        (self.all[GUARD..].as_mut_ptr(), elements.len())
    }

    /// Lends so many elements, with what earlier calls left in them.
    pub fn lend_used(&mut self, lent: usize) -> (*mut A, usize) {
        self.lent = lent;
        self.all.resize(lent + 2 * GUARD, A::filler(lent));
        for i in (0..GUARD).chain(GUARD + lent..2 * GUARD + lent) {
            self.all[i] = A::filler(i);
        }
        (self.all[GUARD..].as_mut_ptr(), lent)
    }

    /// The first elements that are lent.
    pub fn front(&self, count: usize) -> &[A] {
        &self.all[GUARD..GUARD + count.min(self.lent)]
    }

    /// The first place that isn't what it should be: what was written from a place on, or else as
    /// it was filled.
    pub fn differs(&self, from: usize, written: &[A]) -> Option<i64> {
        let should = |i: usize| {
            let place = i.wrapping_sub(GUARD + from);
            written.get(place).copied().unwrap_or(A::filler(i))
        };
        let wrong = (0..self.all.len()).find(|i| self.all[*i] != should(*i));
        if !written.is_empty() && from + written.len() > self.lent {
            return Some(self.lent as i64);
        }
        wrong.map(|i| i as i64 - GUARD as i64)
    }

    /// The same for a part whose contents are free: only what stands around it is looked at.
    pub fn around_differs(&self) -> Option<i64> {
        let around = |i: &usize| *i < GUARD || *i >= GUARD + self.lent;
        let wrong = (0..self.all.len()).filter(around).find(|i| self.all[*i] != A::filler(*i));
        wrong.map(|i| i as i64 - GUARD as i64)
    }
}
