//! Paddlecrook for Rust: a list of formulas in, straight code out in which each repeated subexpression is
//! computed once. The work is done by proved functions; this file lends them memory of the right length, and
//! stack on a thread of its own, and takes their answers apart.
//!
//! For a program or a generator as it stands: `mod paddlecrook;`, and `rustc -L` with the folder of
//! libpaddlecrook.a, which bindings/build makes.
#![allow(dead_code)]
use std::sync::atomic::{AtomicU64, Ordering};
use std::{fmt, thread};

mod c {
    //! A slice passes as a pointer and a length. paddlecrook.h says what each function does.
    #[link(name = "paddlecrook", kind = "static")]
    unsafe extern "C" {
        pub fn cse_load(
            sheet: *const u8,
            sheet_len: usize,
            rows: *mut u64,
            rows_len: usize,
            roots: *mut u64,
            roots_len: usize,
            answer: *mut u64,
            answer_len: usize,
        ) -> u64;

        pub fn cse_extract(
            rows: *const u64,
            rows_len: usize,
            roots: *const u64,
            roots_len: usize,
            work: *mut u64,
            work_len: usize,
            text: *mut u8,
            text_len: usize,
            table: *mut u64,
            table_len: usize,
            answer: *mut u64,
            answer_len: usize,
        ) -> u64;

        pub fn cse_extract_scoped(
            rows: *const u64,
            rows_len: usize,
            roots: *const u64,
            roots_len: usize,
            work: *mut u64,
            work_len: usize,
            text: *mut u8,
            text_len: usize,
            table: *mut u64,
            table_len: usize,
            answer: *mut u64,
            answer_len: usize,
        ) -> u64;

        pub fn cse_print(
            rows: *const u64,
            rows_len: usize,
            answer: *const u64,
            answer_len: usize,
            out: *mut u8,
            out_len: usize,
            said: *mut u64,
            said_len: usize,
        ) -> u64;
    }
}

/// A list has at most so many nodes and roots, and a node's row so many words.
pub const NODES: usize = 1024;
pub const ROOTS: usize = 64;
const WIDTH: usize = 35;

/// The work area of extract, and the most rows of a flat answer; a scoped answer may have more.
const WORK_WORDS: usize = 65_536;
const WORK_BYTES: usize = 131_072;
const ANSWER_ROWS: usize = 67_328;

/// The stack that a call gets, several times what any was measured to need (README.md); only what is used of it takes memory.
const STACK: usize = 16 << 20;

/// Runs a call on a thread of its own, since a caller's stack may be too small for it.
fn on_own_stack<A: Send>(call: impl FnOnce() -> A + Send) -> A {
    thread::scope(|scope| {
        let made = thread::Builder::new().stack_size(STACK).spawn_scoped(scope, call);
        made.expect("a thread can be made").join().expect("no call panics")
    })
}

/// Most texts have no more bytes for each row of their answer.
const ROW_BYTES: usize = 34;

// ---- refusals

/// Why a call is refused, by the numbers of the paper.
#[derive(Clone, Copy, Debug, PartialEq, Eq)]
pub enum Refusal {
    EmptySheet = 1,
    BadRecord = 2,
    BadName = 3,
    BadConstant = 4,
    NoSuchNode = 5,
    TooLarge = 6,
    FewPlaces = 7,
    ShortWork = 8,
    BadRows = 9,
    BadCoefficient = 10,
    Cycle = 11,
    FewRows = 12,
    BadAnswer = 13,
    LongText = 14,
    LargeScope = 23,
}

use Refusal::*;

const REFUSALS: [Refusal; 15] = [
    EmptySheet, BadRecord, BadName, BadConstant, NoSuchNode, TooLarge, FewPlaces, ShortWork, BadRows, BadCoefficient, Cycle, FewRows, BadAnswer, LongText,
    LargeScope,
];

impl Refusal {
    pub fn number(self) -> u64 {
        self as u64
    }

    fn of(number: u64) -> Refusal {
        let found = REFUSALS.into_iter().find(|r| r.number() == number);
        found.expect("255 is for an answer that is too short, and none is lent here")
    }

    pub fn text(self) -> &'static str {
        match self {
            EmptySheet => "the sheet has no bytes",
            BadRecord => "the record is not of its form, of no known kind, or has the wrong number of fields",
            BadName => "the name is not a symbol's",
            BadConstant => "the constant is not an integer of magnitude below 10^15",
            NoSuchNode => "the number is no earlier node's",
            TooLarge => "the list is larger than 65,535 bytes, 1,024 nodes, 64 roots, 1,024 occurrences or arms nested 8 deep",
            FewPlaces => "fewer than 1,024 rows or 64 roots are lent",
            ShortWork => "the work area is too short",
            BadRows => "the rows or roots are not those of a list",
            BadCoefficient => "a rebuilt coefficient is not an integer of magnitude below 10^15",
            Cycle => "bindings need each other",
            FewRows => "the answer has more rows than are lent",
            BadAnswer => "the rows are not those of an answer",
            LongText => "the text is longer than the buffer",
            LargeScope => "the open scopes would need more rows than the work area has, or one has more occurrences, switches, statements or numbers than it may",
        }
    }
}

/// A refusal, and the record of the sheet, counted from 0; 0 from extract and print.
#[derive(Clone, Copy, Debug, PartialEq, Eq)]
pub struct Refused {
    pub refusal: Refusal,
    pub record: u64,
}

impl fmt::Display for Refused {
    fn fmt(&self, f: &mut fmt::Formatter) -> fmt::Result {
        write!(f, "refused {} {}: {}", self.refusal.number(), self.record, self.refusal.text())
    }
}

impl std::error::Error for Refused {}

// ---- lists

/// Operations, by the paper's numbers; a Select with a default comes after them.
#[derive(Clone, Copy, Debug, PartialEq, Eq)]
pub enum Kind {
    Neg = 2,
    Add,
    Sub,
    Mul,
    Div,
    Pow,
    Sin,
    Cos,
    Tan,
    Asin,
    Acos,
    Atan,
    Atan2,
    Sinh,
    Cosh,
    Tanh,
    Exp,
    Ln,
    Log2,
    Log10,
    Sqrt,
    Abs,
    Heaviside,
    Clamp,
    Branch,
    Select,
    SelectOr,
}

use Kind::*;

impl Kind {
    /// All operations by number, from 2 on.
    pub const ALL: [Kind; 27] = [
        Neg, Add, Sub, Mul, Div, Pow, Sin, Cos, Tan, Asin, Acos, Atan, Atan2, Sinh, Cosh, Tanh, Exp, Ln, Log2, Log10, Sqrt, Abs, Heaviside, Clamp, Branch,
        Select, SelectOr,
    ];
}

/// A node of the list that made it, and of each clone that is made of the list later. Any other list refuses it.
#[derive(Clone, Copy, Debug, PartialEq, Eq)]
pub struct Node {
    list: u64,
    row: u64,
}

/// A node was given to a list that it doesn't belong to; the list is as it was.
#[derive(Clone, Copy, Debug, PartialEq, Eq)]
pub struct ForeignNode;

impl fmt::Display for ForeignNode {
    fn fmt(&self, f: &mut fmt::Formatter) -> fmt::Result {
        f.write_str("the node belongs to another list than the one that it is given to")
    }
}

impl std::error::Error for ForeignNode {}

/// The number of the next list: no two lists have the same, so that a node tells whose it is.
static NEXT_LIST: AtomicU64 = AtomicU64::new(0);

fn new_number() -> u64 {
    NEXT_LIST.fetch_add(1, Ordering::Relaxed)
}

/// Formulas that share nodes: node rows, and the nodes that are results. Names, constants, counts of operands
/// and limits are tested on extraction: a list that a sheet couldn't give is refused as `BadRows`. Whose the
/// nodes are is tested as they are given. Lists are equal if their rows and roots are.
#[derive(Debug)]
pub struct List {
    rows: Vec<u64>,
    roots: Vec<u64>,
    number: u64,
    /// the lists that this one is a clone of, through any number of clones, each with how many of its nodes it took
    cloned: Vec<(u64, u64)>,
}

impl Default for List {
    fn default() -> List {
        List {
            rows: Vec::new(),
            roots: Vec::new(),
            number: new_number(),
            cloned: Vec::new(),
        }
    }
}

/// A clone has the same rows, so that the nodes made so far are its own too. What either list makes from then
/// on isn't in the other, which may have something else in that row: hence a number of its own.
impl Clone for List {
    fn clone(&self) -> List {
        let mut cloned = self.cloned.clone();
        cloned.push((self.number, (self.rows.len() / WIDTH) as u64));
        List {
            rows: self.rows.clone(),
            roots: self.roots.clone(),
            number: new_number(),
            cloned,
        }
    }
}

impl PartialEq for List {
    fn eq(&self, other: &List) -> bool {
        self.rows == other.rows && self.roots == other.roots
    }
}

impl Eq for List {}

impl List {
    pub fn new() -> List {
        List::default()
    }

    /// The row of a node that belongs to this list.
    fn row(&self, node: Node) -> Result<u64, ForeignNode> {
        let taken = |(list, nodes): &(u64, u64)| node.list == *list && node.row < *nodes;
        let own = node.list == self.number || self.cloned.iter().any(taken);
        if own { Ok(node.row) } else { Err(ForeignNode) }
    }

    /// Reads a sheet.
    pub fn from_sheet(sheet: &[u8]) -> Result<List, Refused> {
        let mut rows = vec![0; NODES * WIDTH];
        let mut roots = vec![0; ROOTS];
        let mut answer = [0; 2];
        // the parts lent are apart, and as long as is said
        let number = on_own_stack(|| unsafe {
            c::cse_load(
                sheet.as_ptr(),
                sheet.len(),
                rows.as_mut_ptr(),
                rows.len(),
                roots.as_mut_ptr(),
                roots.len(),
                answer.as_mut_ptr(),
                answer.len(),
            )
        });
        if number != 0 {
            return Err(Refused {
                refusal: Refusal::of(number),
                record: answer[0],
            });
        }
        rows.truncate(answer[0] as usize * WIDTH);
        roots.truncate(answer[1] as usize);
        Ok(List {
            rows,
            roots,
            ..List::new()
        })
    }

    /// Fields that have no place in the row are counted, so that the row is refused.
    fn put(&mut self, kind: u64, default: u64, fields: &[u64]) -> Node {
        let at = self.rows.len();
        self.rows.extend([kind, default, fields.len() as u64]);
        self.rows.extend(fields.iter().take(WIDTH - 3));
        self.rows.resize(at + WIDTH, 0);
        Node {
            list: self.number,
            row: (at / WIDTH) as u64,
        }
    }

    pub fn symbol(&mut self, name: &str) -> Node {
        let bytes: Vec<u64> = name.bytes().map(u64::from).collect();
        self.put(0, 0, &bytes)
    }

    pub fn constant(&mut self, value: i64) -> Node {
        self.put(1, 0, &[u64::from(value < 0), value.unsigned_abs()])
    }

    /// An operation on nodes of this list. Of a switch the first operand is the index or condition, and of a
    /// SelectOr the last is the default.
    pub fn operation(&mut self, kind: Kind, operands: &[Node]) -> Result<Node, ForeignNode> {
        let default = u64::from(kind == SelectOr);
        let number = (kind as u64).min(Select as u64);
        let rows: Vec<u64> = operands.iter().map(|n| self.row(*n)).collect::<Result<_, _>>()?;
        Ok(self.put(number, default, &rows))
    }

    /// Makes a node of this list the next result.
    pub fn root(&mut self, node: Node) -> Result<(), ForeignNode> {
        let row = self.row(node)?;
        self.roots.push(row);
        Ok(())
    }

    fn name(&self, row: usize) -> String {
        let row = &self.rows[row * WIDTH..(row + 1) * WIDTH];
        row[3..3 + row[2] as usize].iter().map(|b| *b as u8 as char).collect()
    }
}

// ---- answers

/// Memory for extraction, lent again to each call.
pub struct Extractor {
    work: Vec<u64>,
    text: Vec<u8>,
    table: Vec<u64>,
}

impl Default for Extractor {
    fn default() -> Extractor {
        Extractor::new()
    }
}

impl Extractor {
    pub fn new() -> Extractor {
        Extractor {
            work: vec![0; WORK_WORDS],
            text: vec![0; WORK_BYTES],
            table: vec![0; ANSWER_ROWS],
        }
    }

    /// The flat answer to a list: lets alone.
    pub fn extract<'a>(&mut self, list: &'a List) -> Result<Answer<'a>, Refused> {
        self.answer(list, false)
    }

    /// The scoped answer to a list: what only an arm uses is computed in the arm, and switches on one key are one match. More rows are lent
    /// until they are enough.
    pub fn extract_scoped<'a>(&mut self, list: &'a List) -> Result<Answer<'a>, Refused> {
        loop {
            match self.answer(list, true) {
                Err(Refused { refusal: FewRows, .. }) => self.table.resize(2 * self.table.len(), 0),
                told => return told,
            }
        }
    }

    fn answer<'a>(&mut self, list: &'a List, scoped: bool) -> Result<Answer<'a>, Refused> {
        let extract = if scoped { c::cse_extract_scoped } else { c::cse_extract };
        let mut answer = [0; 2];
        // the parts lent are apart, and as long as is said
        let number = on_own_stack(|| unsafe {
            extract(
                list.rows.as_ptr(),
                list.rows.len(),
                list.roots.as_ptr(),
                list.roots.len(),
                self.work.as_mut_ptr(),
                self.work.len(),
                self.text.as_mut_ptr(),
                self.text.len(),
                self.table.as_mut_ptr(),
                self.table.len(),
                answer.as_mut_ptr(),
                answer.len(),
            )
        });
        if number != 0 {
            return Err(Refused {
                refusal: Refusal::of(number),
                record: 0,
            });
        }
        Ok(Answer {
            list,
            words: self.table[..answer[0] as usize].to_vec(),
            extracted: answer[1] as usize,
        })
    }
}

/// An expression of an answer; a symbol is one of the list or one that the answer binds.
#[derive(Clone, Debug, PartialEq, Eq)]
pub enum Tree {
    Symbol(String),
    Constant(i64),
    Operation(Kind, Vec<Tree>),
}

/// What binds names: one to an expression, or several to the values of the arm that a key picks.
#[derive(Clone, Debug, PartialEq, Eq)]
pub enum Statement {
    Let(String, Tree),
    Match(Match),
}

/// The switches on one key: `kind` is theirs. Of a Branch there are two arms, the second for a negative key; of a SelectOr the last is the
/// default.
#[derive(Clone, Debug, PartialEq, Eq)]
pub struct Match {
    pub kind: Kind,
    pub key: Tree,
    pub names: Vec<String>,
    pub arms: Vec<Arm>,
}

/// Statements that only this arm needs, and a value for each name of the match.
#[derive(Clone, Debug, PartialEq, Eq)]
pub struct Arm {
    pub statements: Vec<Statement>,
    pub values: Vec<Tree>,
}

/// Statements in the order in which they are to be done, and the results.
#[derive(Clone, Debug, PartialEq, Eq)]
pub struct Code {
    pub statements: Vec<Statement>,
    pub results: Vec<Tree>,
}

/// Words: a word is kind + 64 * what is below it, and these are the kinds beside those of expressions. A match's is 30 to 32 by its kind of switch.
const BELOW: u64 = 64;
const LET: u64 = 29;
const MATCH_LESS_SWITCH: u64 = 4;
const NAME: u64 = 33;

#[derive(Clone, Debug)]
pub struct Answer<'a> {
    list: &'a List,
    words: Vec<u64>,
    extracted: usize,
}

impl Answer<'_> {
    /// How many bindings extraction made, reciprocals left out.
    pub fn extracted(&self) -> usize {
        self.extracted
    }

    /// The answer's rows, as crates/spec_cse/specs/AnswerRows.antt lays them out.
    pub fn rows(&self) -> &[u64] {
        &self.words
    }

    /// A line for each binding, and one for each result.
    pub fn print(&self) -> Result<String, Refused> {
        let mut out = vec![0u8; ROW_BYTES * self.words.len()];
        loop {
            let mut said = [0];
            // the parts lent are apart, and as long as is said
            let number = on_own_stack(|| unsafe {
                c::cse_print(
                    self.list.rows.as_ptr(),
                    self.list.rows.len(),
                    self.words.as_ptr(),
                    self.words.len(),
                    out.as_mut_ptr(),
                    out.len(),
                    said.as_mut_ptr(),
                    said.len(),
                )
            });
            match number {
                0 => {
                    out.truncate(said[0] as usize);
                    return Ok(out.into_iter().map(char::from).collect());
                }
                14 => out.resize(2 * out.len(), 0),
                _ => {
                    return Err(Refused {
                        refusal: Refusal::of(number),
                        record: 0,
                    });
                }
            }
        }
    }

    /// The answer taken apart.
    pub fn code(&self) -> Code {
        let mut words = Words {
            answer: self,
            left: &self.words,
        };
        let mut code = Code {
            statements: Vec::new(),
            results: Vec::new(),
        };
        while !words.left.is_empty() {
            words.part(&mut code.statements, &mut code.results);
        }
        code
    }

    fn symbol(&self, code: u64) -> String {
        let number = code / 3;
        match code % 3 {
            0 => self.list.name(number as usize),
            1 => format!("__x{number}"),
            _ => format!("__m{number}"),
        }
    }
}

/// The words of an answer that are still to be read. An answer's rows are whole, so that there is always a next one.
struct Words<'a> {
    answer: &'a Answer<'a>,
    left: &'a [u64],
}

impl Words<'_> {
    fn next(&mut self) -> u64 {
        let word = self.left[0];
        self.left = &self.left[1..];
        word
    }

    /// A statement, or a value.
    fn part(&mut self, statements: &mut Vec<Statement>, values: &mut Vec<Tree>) {
        let word = self.next();
        match word % BELOW {
            LET => statements.push(Statement::Let(self.answer.symbol(word / BELOW), self.tree())),
            kind if kind > LET && kind < NAME => statements.push(Statement::Match(self.joined(kind - MATCH_LESS_SWITCH, word / BELOW))),
            _ => values.push(self.tree()),
        }
    }

    /// A match: so many parts are below it, its key, its names and its arms.
    fn joined(&mut self, kind: u64, below: u64) -> Match {
        let key = self.tree();
        let names: Vec<String> = std::iter::from_fn(|| (self.left[0] % BELOW == NAME).then(|| self.next() / BELOW).map(|code| self.answer.symbol(code))).collect();
        let arms = (1 + names.len() as u64..below).map(|_| self.arm()).collect();
        Match {
            kind: Kind::ALL[kind as usize - 2],
            key,
            names,
            arms,
        }
    }

    fn arm(&mut self) -> Arm {
        let mut arm = Arm {
            statements: Vec::new(),
            values: Vec::new(),
        };
        for _ in 0..self.next() / BELOW {
            self.part(&mut arm.statements, &mut arm.values);
        }
        arm
    }

    fn tree(&mut self) -> Tree {
        let word = self.next();
        let below = word / BELOW;
        match word % BELOW {
            0 => Tree::Symbol(self.answer.symbol(below)),
            1 if below % 2 == 1 => Tree::Constant(-(below.div_ceil(2) as i64)),
            1 => Tree::Constant((below / 2) as i64),
            kind => Tree::Operation(Kind::ALL[kind as usize - 2], (0..below).map(|_| self.tree()).collect()),
        }
    }
}
