//! The calls of the port, and what each should return and leave in memory.
use crate::area::Area;
use crate::clock::Clock;
use crate::exported::cse_print;
use std::time::Duration;

/// crates/capi: a slice is a pointer and a length.
type Extract = unsafe extern "C" fn(*const u64, usize, *const u64, usize, *mut u64, usize, *mut u8, usize, *mut u64, usize, *mut u64, usize) -> u64;

macro_rules! extracts {
    ($($name:ident)*) => {
        unsafe extern "C" {
            $(fn $name(
                rows: *const u64, rows_len: usize, roots: *const u64, roots_len: usize, work: *mut u64, work_len: usize, text: *mut u8, text_len: usize,
                table: *mut u64, table_len: usize, answer: *mut u64, answer_len: usize,
            ) -> u64;)*
        }
    };
}

extracts!(cse_extract cse_extract_scoped);

/// The work area's fixed length: words, and bytes of text.
pub const WORK: usize = 65_536;
pub const TEXT: usize = 131_072;

/// 01's numbers for extract, and the one for an answer without room for two words.
pub const SHORT_WORK: u64 = 8;
pub const BAD_ROWS: u64 = 9;
pub const BAD_COEFFICIENT: u64 = 10;
pub const RING: u64 = 11;
pub const FEW_ROWS: u64 = 12;
pub const LARGE_SCOPE: u64 = 23;
pub const NO_ANSWER: u64 = 255;

/// Node rows, roots, and how many words or bytes are lent.
#[derive(Clone, Debug)]
pub struct Call {
    pub rows: Vec<u64>,
    pub roots: Vec<u64>,
    pub work: usize,
    pub text: usize,
    pub table: usize,
    pub answer: usize,
}

/// What a call returns, the words at the front of the table and of the answer, and what print gives
/// of that table.
#[derive(Clone, Debug)]
pub struct Expected {
    pub number: u64,
    pub table: Vec<u64>,
    pub answer: Vec<u64>,
    pub printed: String,
}

pub fn nothing(number: u64) -> Expected {
    Expected {
        number,
        table: Vec::new(),
        answer: Vec::new(),
        printed: String::new(),
    }
}

/// One form's extract, and memory for its calls, used again and again.
pub struct Port {
    pub scoped: bool,
    call: Extract,
    rows: Area<u64>,
    roots: Area<u64>,
    work: Area<u64>,
    text: Area<u8>,
    table: Area<u64>,
    answer: Area<u64>,
    printed: Area<u8>,
    said: Area<u64>,
    pub time: Duration,
    pub calls: usize,
}

impl Port {
    pub fn new(scoped: bool) -> Port {
        Port {
            scoped,
            call: if scoped { cse_extract_scoped } else { cse_extract },
            rows: Area::new(),
            roots: Area::new(),
            work: Area::new(),
            text: Area::new(),
            table: Area::new(),
            answer: Area::new(),
            printed: Area::new(),
            said: Area::new(),
            time: Duration::ZERO,
            calls: 0,
        }
    }

    /// Calls extract; the number that it returns. The work area has what the last call left.
    pub fn extract(&mut self, c: &Call) -> u64 {
        let (rows, rows_len) = self.rows.lend_with(&c.rows);
        let (roots, roots_len) = self.roots.lend_with(&c.roots);
        let (work, work_len) = self.work.lend_used(c.work);
        let (text, text_len) = self.text.lend_used(c.text);
        let (table, table_len) = self.table.lend(c.table);
        let (answer, answer_len) = self.answer.lend(c.answer);
        let began = Clock::start();
        // all areas are apart, and as long as is said
        let number = unsafe {
            (self.call)(
                rows, rows_len, roots, roots_len, work, work_len, text, text_len, table, table_len,
                answer, answer_len,
            )
        };
        self.time += began.elapsed();
        self.calls += 1;
        number
    }

    /// Calls print on the first rows of the table, with so many bytes for the text.
    fn print(&mut self, rows: usize, bytes: usize) -> u64 {
        let table = self.table.front(rows);
        let nodes = self.rows.front(usize::MAX);
        let (out, out_len) = self.printed.lend(bytes);
        let (said, said_len) = self.said.lend(1);
        // as above
        unsafe {
            cse_print(
                nodes.as_ptr(),
                nodes.len(),
                table.as_ptr(),
                table.len(),
                out,
                out_len,
                said,
                said_len,
            )
        }
    }

    /// Calls extract, and print on its answer; what they did otherwise than expected.
    pub fn difference(&mut self, c: &Call, given: &Expected) -> Option<String> {
        let number = self.extract(c);
        if number != given.number {
            return Some(format!("returned {number}, expected {}", given.number));
        }
        let parts = [
            ("rows", self.rows.differs(0, &c.rows)),
            ("roots", self.roots.differs(0, &c.roots)),
            ("work", self.work.around_differs()),
            ("text", self.text.around_differs()),
            ("answer", self.answer.differs(0, &given.answer)),
            ("table", self.table.differs(0, &given.table)),
        ];
        let wrong = |(name, place): (&str, Option<i64>)| Some(format!("{name}: place {} differs", place?));
        if let Some(difference) = parts.into_iter().find_map(wrong) {
            return Some(difference);
        }
        if number != 0 {
            return None;
        }
        let bytes = given.printed.as_bytes();
        let number = self.print(given.table.len(), bytes.len());
        if number != 0 {
            return Some(format!("print returned {number}"));
        }
        let count = self.said.differs(0, &[bytes.len() as u64]);
        let place = count.or(self.printed.differs(0, bytes))?;
        Some(format!("printed text: place {place} differs"))
    }
}
