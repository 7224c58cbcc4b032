//! The calls of the port, and what each should return and leave in memory.
use crate::area::Area;
use crate::reading;

unsafe extern "C" {
    /// crates/capi: a slice is a pointer and a length.
    fn cse_load(
        sheet: *const u8,
        sheet_len: usize,
        rows: *mut u64,
        rows_len: usize,
        roots: *mut u64,
        roots_len: usize,
        answer: *mut u64,
        answer_len: usize,
    ) -> u64;
}

/// What the exported function returns where the answer has no room for two words.
pub const NO_ANSWER: u64 = 255;

/// How many words the row table, the root list and the answer have.
#[derive(Clone, Copy, Debug)]
pub struct Lent {
    pub words: usize,
    pub places: usize,
    pub answer: usize,
}

pub const ENOUGH: Lent = Lent {
    words: reading::ROWS * reading::WIDTH,
    places: reading::ROOTS,
    answer: 2,
};

/// What a call returns, and the words that it puts at the front of each part lent.
pub struct Expected {
    pub number: u64,
    pub rows: Vec<u64>,
    pub roots: Vec<u64>,
    pub answer: Vec<u64>,
}

pub fn expected(lent: Lent, sheet: &[u8]) -> Expected {
    let mut given = Expected {
        number: NO_ANSWER,
        rows: Vec::new(),
        roots: Vec::new(),
        answer: Vec::new(),
    };
    if lent.answer < 2 {
        return given;
    }
    match reading::load(lent.words, lent.places, sheet) {
        Ok(table) => {
            given.number = 0;
            given.answer = vec![table.nodes.len() as u64, table.roots.len() as u64];
            given.rows = table.words();
            given.roots = table.roots;
        }
        Err(refused) => {
            given.number = refused.number;
            given.answer = vec![refused.record];
        }
    }
    given
}

/// Memory for calls, used again and again.
pub struct Port {
    rows: Area<u64>,
    roots: Area<u64>,
    answer: Area<u64>,
    pub time: std::time::Duration,
}

impl Port {
    pub fn new() -> Port {
        Port {
            rows: Area::new(),
            roots: Area::new(),
            answer: Area::new(),
            time: Default::default(),
        }
    }

    /// Calls the port; the number that it returns.
    pub fn call(&mut self, lent: Lent, sheet: &[u8]) -> u64 {
        let (rows, rows_len) = self.rows.lend(lent.words);
        let (roots, roots_len) = self.roots.lend(lent.places);
        let (answer, answer_len) = self.answer.lend(lent.answer);
        let began = std::time::Instant::now();
        // the three areas and the sheet are apart, and as long as is said
        let number = unsafe {
            cse_load(
                sheet.as_ptr(),
                sheet.len(),
                rows,
                rows_len,
                roots,
                roots_len,
                answer,
                answer_len,
            )
        };
        self.time += began.elapsed();
        number
    }

    /// Calls the port; what it did otherwise than expected.
    pub fn difference(&mut self, lent: Lent, sheet: &[u8], given: &Expected) -> Option<String> {
        let number = self.call(lent, sheet);
        if number != given.number {
            return Some(format!("returned {number}, expected {}", given.number));
        }
        let parts = [
            ("rows", &self.rows, &given.rows),
            ("roots", &self.roots, &given.roots),
            ("answer", &self.answer, &given.answer),
        ];
        let wrong = |(name, area, front): (&str, &Area<u64>, &Vec<u64>)| {
            let i = area.differs(0, front)?;
            Some(format!("{name}: word {i} differs"))
        };
        parts.into_iter().find_map(wrong)
    }
}
