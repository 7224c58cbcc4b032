//! The calls of the port, and what each should return and leave in memory.
use crate::area::Area;
use std::time::{Duration, Instant};

unsafe extern "C" {
    // crates/capi: a slice is a pointer and a length
    fn cse_replace(
        tokens: *const u64,
        tokens_len: usize,
        target: *const u64,
        target_len: usize,
        name: u64,
        places: *mut u64,
        places_len: usize,
        out: *mut u64,
        out_len: usize,
        answer: *mut u64,
        answer_len: usize,
    ) -> u64;

    fn cse_replace_divisor(
        tokens: *const u64,
        tokens_len: usize,
        divisor: *const u64,
        divisor_len: usize,
        name: u64,
        out: *mut u64,
        out_len: usize,
        answer: *mut u64,
        answer_len: usize,
    ) -> u64;

    fn cse_replace_outside_arms(
        tokens: *const u64,
        tokens_len: usize,
        target: *const u64,
        target_len: usize,
        name: u64,
        out: *mut u64,
        out_len: usize,
        answer: *mut u64,
        answer_len: usize,
    ) -> u64;
}

/// The numbers that are returned beside 0: 01's for a rebuilt coefficient, and those for words that
/// are no trees, too few places, and an answer without room for a word.
pub const REFUSED: u64 = 10;
pub const BROKEN: u64 = 253;
pub const NO_ROOM: u64 = 254;
pub const NO_ANSWER: u64 = 255;

#[derive(Clone, Copy, Debug, PartialEq)]
pub enum Rewriting {
    Replace,
    Divisor,
    OutsideArms,
}

/// The words of some trees and of the part to look for, the new symbol's word, and how many words
/// are lent.
#[derive(Clone, Debug)]
pub struct Call {
    pub rewriting: Rewriting,
    pub tokens: Vec<u64>,
    pub part: Vec<u64>,
    pub name: u64,
    pub places: usize,
    pub out: usize,
    pub answer: usize,
}

/// What a call returns, and the words that it puts at the front of each part lent.
#[derive(Debug)]
pub struct Expected {
    pub number: u64,
    pub out: Vec<u64>,
    pub answer: Vec<u64>,
}

/// Memory for calls, used again and again.
pub struct Port {
    places: Area<u64>,
    out: Area<u64>,
    answer: Area<u64>,
    pub time: Duration,
}

impl Port {
    pub fn new() -> Port {
        Port {
            places: Area::new(),
            out: Area::new(),
            answer: Area::new(),
            time: Duration::ZERO,
        }
    }

    /// Calls the port; the number that it returns.
    fn call(&mut self, c: &Call) -> u64 {
        let (places, places_len) = self.places.lend(c.places);
        let (out, out_len) = self.out.lend(c.out);
        let (answer, answer_len) = self.answer.lend(c.answer);
        let (tokens, tokens_len) = (c.tokens.as_ptr(), c.tokens.len());
        let (part, part_len) = (c.part.as_ptr(), c.part.len());
        let began = Instant::now();
        // all areas are apart, and as long as is said
        let number = unsafe {
            match c.rewriting {
                Rewriting::Replace => cse_replace(
                    tokens, tokens_len, part, part_len, c.name, places, places_len, out, out_len,
                    answer, answer_len,
                ),
                Rewriting::Divisor => cse_replace_divisor(
                    tokens, tokens_len, part, part_len, c.name, out, out_len, answer, answer_len,
                ),
                Rewriting::OutsideArms => cse_replace_outside_arms(
                    tokens, tokens_len, part, part_len, c.name, out, out_len, answer, answer_len,
                ),
            }
        };
        self.time += began.elapsed();
        number
    }

    /// Calls the port; what it did otherwise than expected. The places are free.
    pub fn difference(&mut self, c: &Call, given: &Expected) -> Option<String> {
        let number = self.call(c);
        if number != given.number {
            return Some(format!("returned {number}, expected {}", given.number));
        }
        if let Some(i) = self.places.around_differs() {
            return Some(format!("places: word {i} differs"));
        }
        let parts = [("out", &self.out, &given.out), ("answer", &self.answer, &given.answer)];
        parts.into_iter().find_map(|(name, area, front)| {
            let i = area.differs(0, front)?;
            Some(format!("{name}: word {i} differs"))
        })
    }
}
