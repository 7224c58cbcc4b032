//! The calls of the port, and what each should return and leave in memory.
use crate::area::Area;
use crate::exported::cse_print;
use std::time::{Duration, Instant};

unsafe extern "C" {
    // crates/capi: a slice is a pointer and a length
    fn cse_text(
        rows: *const u64,
        rows_len: usize,
        tokens: *const u64,
        tokens_len: usize,
        at: usize,
        out: *mut u8,
        out_len: usize,
        dry: bool,
        to: usize,
        answer: *mut u64,
        answer_len: usize,
    ) -> u64;
}

/// The numbers that are returned beside 0 and 01's: for words that are no tree of an answer, and for
/// an answer that has no room.
pub const BROKEN: u64 = 253;
pub const NO_ANSWER: u64 = 255;

/// What is called.
#[derive(Clone, Copy, Debug)]
pub enum Writer {
    /// of the tree at a place
    Text { at: usize, dry: bool },
    /// of an answer from its rows
    Print,
}

/// The node rows, the words to be read, and where the text begins.
#[derive(Clone, Debug)]
pub struct Call {
    pub writer: Writer,
    pub rows: Vec<u64>,
    pub words: Vec<u64>,
    pub to: usize,
    /// how many bytes and how many words are lent
    pub out: usize,
    pub answer: usize,
}

/// What a call returns, the bytes that it writes from `to` on, and the words at the front of its
/// answer.
#[derive(Debug)]
pub struct Expected {
    pub number: u64,
    pub bytes: Vec<u8>,
    pub answer: Vec<u64>,
}

/// Memory for calls, used again and again.
pub struct Port {
    out: Area<u8>,
    answer: Area<u64>,
    pub time: Duration,
}

impl Port {
    pub fn new() -> Port {
        Port {
            out: Area::new(),
            answer: Area::new(),
            time: Duration::ZERO,
        }
    }

    /// Calls the port; the number that it returns.
    fn call(&mut self, c: &Call) -> u64 {
        let (out, out_len) = self.out.lend(c.out);
        let (answer, answer_len) = self.answer.lend(c.answer);
        let (rows, rows_len) = (c.rows.as_ptr(), c.rows.len());
        let (words, words_len) = (c.words.as_ptr(), c.words.len());
        let began = Instant::now();
        // all areas are apart, and as long as is said
        let number = unsafe {
            match c.writer {
                Writer::Text { at, dry } => cse_text(
                    rows, rows_len, words, words_len, at, out, out_len, dry, c.to, answer,
                    answer_len,
                ),
                Writer::Print => cse_print(
                    rows, rows_len, words, words_len, out, out_len, answer, answer_len,
                ),
            }
        };
        self.time += began.elapsed();
        number
    }

    /// Calls the port; what it did otherwise than expected.
    pub fn difference(&mut self, c: &Call, given: &Expected) -> Option<String> {
        let number = self.call(c);
        if number != given.number {
            return Some(format!("returned {number}, expected {}", given.number));
        }
        if let Some(i) = self.answer.differs(0, &given.answer) {
            return Some(format!("answer: word {i} differs"));
        }
        let i = self.out.differs(c.to, &given.bytes)?;
        Some(format!("text: byte {i} differs"))
    }
}
