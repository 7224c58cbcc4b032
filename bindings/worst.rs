//! Inputs that take the most stack, or that are to be refused before they take any, for each exported function: what
//! `deep.rs` runs in the stack that paddlecrook.h states, and what `stack.rs` measures.
use std::thread;

#[link(name = "paddlecrook", kind = "static")]
unsafe extern "C" {
    // paddlecrook.h: a slice is a pointer and a length
    fn cse_load(
        sheet: *const u8, sheet_len: usize, rows: *mut u64, rows_len: usize, roots: *mut u64, roots_len: usize,
        answer: *mut u64, answer_len: usize,
    ) -> u64;
    fn cse_extract(
        rows: *const u64, rows_len: usize, roots: *const u64, roots_len: usize, work: *mut u64, work_len: usize,
        text: *mut u8, text_len: usize, table: *mut u64, table_len: usize, answer: *mut u64, answer_len: usize,
    ) -> u64;
    fn cse_extract_scoped(
        rows: *const u64, rows_len: usize, roots: *const u64, roots_len: usize, work: *mut u64, work_len: usize,
        text: *mut u8, text_len: usize, table: *mut u64, table_len: usize, answer: *mut u64, answer_len: usize,
    ) -> u64;
    fn cse_print(
        rows: *const u64, rows_len: usize, words: *const u64, words_len: usize, out: *mut u8, out_len: usize,
        said: *mut u64, said_len: usize,
    ) -> u64;
    fn cse_text(
        rows: *const u64, rows_len: usize, words: *const u64, words_len: usize, at: usize, out: *mut u8, out_len: usize,
        dry: bool, to: usize, answer: *mut u64, answer_len: usize,
    ) -> u64;
    fn cse_replace(
        words: *const u64, words_len: usize, target: *const u64, target_len: usize, name: u64, places: *mut u64,
        places_len: usize, out: *mut u64, out_len: usize, answer: *mut u64, answer_len: usize,
    ) -> u64;
    fn cse_replace_divisor(
        words: *const u64, words_len: usize, target: *const u64, target_len: usize, name: u64, out: *mut u64,
        out_len: usize, answer: *mut u64, answer_len: usize,
    ) -> u64;
    fn cse_replace_outside_arms(
        words: *const u64, words_len: usize, target: *const u64, target_len: usize, name: u64, out: *mut u64,
        out_len: usize, answer: *mut u64, answer_len: usize,
    ) -> u64;
}

pub const FUNCTIONS: [&str; 8] = [
    "cse_load", "cse_extract", "cse_extract_scoped", "cse_print", "cse_text", "cse_replace", "cse_replace_divisor",
    "cse_replace_outside_arms",
];
const LOAD: usize = 0;
const FLAT: usize = 1;
const SCOPED: usize = 2;
const PRINT: usize = 3;
const TEXT: usize = 4;
const REPLACE: usize = 5;
const DIVISOR: usize = 6;
const OUTSIDE: usize = 7;

/// The numbers of refusals that are met here.
const BAD_RECORD: u64 = 2;
const NO_SUCH_NODE: u64 = 5;
const TOO_LARGE: u64 = 6;
const BAD_ANSWER: u64 = 13;
const BROKEN: u64 = 253;

/// So deep rows may stand.
const DEEPEST: usize = 1041;
/// Rows that are far too deep.
const FAR: [usize; 3] = [DEEPEST + 1, 12_000, 1_000_000];

/// What a function is called on.
enum Input {
    Sheet(String),
    /// words to be printed, or of which the first tree is written
    Words(Vec<u64>),
    /// words and what is sought in them
    Pair(Vec<u64>, Vec<u64>),
}

/// A call: its function, what it is about, and the number that it has to return. What is lent is made as it is run,
/// since all of it together is large.
pub struct Case {
    pub function: usize,
    pub name: String,
    pub number: u64,
    /// only measured, since it takes long and no more stack than others
    pub slow: bool,
    input: Box<dyn Fn() -> Input>,
}

/// Runs something in a thread of so many bytes.
fn within<A: Send>(stack: usize, run: impl FnOnce() -> A + Send) -> A {
    thread::scope(|s| {
        let made = thread::Builder::new().stack_size(stack).spawn_scoped(s, run);
        made.expect("a thread").join().expect("no call panics")
    })
}

/// Enough for every call but those that are tried.
const PLENTY: usize = 64 << 20;

impl Case {
    /// The number that the call returns in a thread of so many bytes.
    pub fn run(&self, stack: usize) -> u64 {
        match (self.input)() {
            Input::Sheet(sheet) => listed(self.function, &sheet, stack),
            Input::Words(words) => written(self.function, &words, stack),
            Input::Pair(words, target) => rewritten(self.function, &words, &target, stack),
        }
    }
}

// In each call the parts that are lent are apart, and as long as is said.

/// A sheet loaded, and extracted where that is asked.
fn listed(function: usize, sheet: &str, stack: usize) -> u64 {
    let (mut rows, mut roots, mut answer) = (vec![0; 1024 * 35], vec![0; 64], [0; 2]);
    let loading = if function == LOAD { stack } else { PLENTY };
    let number = within(loading, || unsafe {
        let (r, n, o, m) = (rows.as_mut_ptr(), rows.len(), roots.as_mut_ptr(), roots.len());
        cse_load(sheet.as_ptr(), sheet.len(), r, n, o, m, answer.as_mut_ptr(), 2)
    });
    if function == LOAD {
        return number;
    }
    assert_eq!(number, 0, "load refuses record {}", answer[0]);
    rows.truncate(answer[0] as usize * 35);
    roots.truncate(answer[1] as usize);
    let (mut work, mut text, mut table) = (vec![0; 65_536], vec![0; 131_072], vec![0; 1 << 20]);
    let extract = if function == FLAT { cse_extract } else { cse_extract_scoped };
    within(stack, || unsafe {
        let (r, n, o, m) = (rows.as_ptr(), rows.len(), roots.as_ptr(), roots.len());
        let (w, v, x, y) = (work.as_mut_ptr(), work.len(), text.as_mut_ptr(), text.len());
        extract(r, n, o, m, w, v, x, y, table.as_mut_ptr(), table.len(), answer.as_mut_ptr(), 2)
    })
}

/// The row of the symbol `a`.
fn a_row() -> Vec<u64> {
    let mut row = vec![0; 35];
    (row[2], row[3]) = (1, u64::from(b'a'));
    row
}

/// Words printed, or the text of their first tree written.
fn written(function: usize, words: &[u64], stack: usize) -> u64 {
    let (rows, mut out, mut answer) = (a_row(), vec![0; 1 << 20], [0; 2]);
    within(stack, || unsafe {
        let (r, n, w, m) = (rows.as_ptr(), rows.len(), words.as_ptr(), words.len());
        let (o, size, a) = (out.as_mut_ptr(), out.len(), answer.as_mut_ptr());
        if function == PRINT {
            cse_print(r, n, w, m, o, size, a, 2)
        } else {
            cse_text(r, n, w, m, 0, o, size, false, 0, a, 2)
        }
    })
}

fn rewritten(function: usize, words: &[u64], target: &[u64], stack: usize) -> u64 {
    let mut places = vec![0; 3 * words.len().max(target.len())];
    let (mut out, mut answer) = (vec![0; words.len()], [0; 1]);
    within(stack, || unsafe {
        let (w, n, t, m) = (words.as_ptr(), words.len(), target.as_ptr(), target.len());
        let (p, size, o, a) = (places.as_mut_ptr(), places.len(), out.as_mut_ptr(), answer.as_mut_ptr());
        match function {
            REPLACE => cse_replace(w, n, t, m, NEW, p, size, o, n, a, 1),
            DIVISOR => cse_replace_divisor(w, n, t, m, NEW, o, n, a, 1),
            _ => cse_replace_outside_arms(w, n, t, m, NEW, o, n, a, 1),
        }
    })
}

// ---- lists

const OCCURRENCES: usize = 1024;

/// Shapes of a chain: what each link is, with `.` for the chain so far, and how many occurrences it has beside that.
/// Node 0 is a symbol, node 1 the index of switches, node 2 a constant.
const LINKS: [(&str, usize); 12] = [
    ("Sin,.", 1), ("Neg,.", 1), ("Add,.,0", 2), ("Add,0,.", 2), ("Mul,.,0", 2), ("Mul,0,.", 2), ("Div,.,2", 2),
    ("Div,2,.", 2), ("Pow,0,.", 2), ("Clamp,0,2,.", 3), ("Select,.,0", 2), ("Branch,.,0,2", 3),
];

/// So many chains share the list, with arms around each, or between its links.
const CHAINS: [(usize, bool); 4] = [(1, false), (2, false), (4, false), (1, true)];

fn is_switch(form: &str) -> bool {
    form.starts_with("Select") || form.starts_with("Branch")
}

/// A list of at most 1,024 occurrences: chains of one shape over sin(a) * sin(a) or 2 / 2, each below so many arms.
fn chain_sheet(link: usize, chains: usize, arms: usize) -> String {
    let (form, size) = LINKS[link];
    let (roots, between) = CHAINS[chains];
    // a switch has arms of its own
    let arms = arms - usize::from(arms > 0 && is_switch(form));
    let shared = ["Sym,a", "Sym,i", "Const,2", "Sin,0", "Mul,3,3", "Div,2,2"];
    let mut records: Vec<String> = shared.map(String::from).to_vec();
    let mut ends = Vec::new();
    for root in 0..roots {
        // the third and fourth chain are others than the first two, and of much the same worth
        let mut last = if root >= 2 { 3 } else { 4 + usize::from(form == "Div,2,.") };
        let links = ((OCCURRENCES - 6) / roots - 5 - 2 * arms) / size;
        for n in 0..links + arms {
            let before = |n: usize| if between { n * arms / (links + arms) } else { n.saturating_sub(links) };
            let arm = before(n + 1) > before(n);
            records.push(if arm { format!("Select,1,{last}") } else { form.replace('.', &last.to_string()) });
            last = records.len() - 1;
        }
        ends.push(last);
    }
    records.extend(ends.iter().map(|n| format!("Root,{n}")));
    records.join("\r\n")
}

/// One chain over the symbol, as long as a list may be; or a division by such a chain, or two.
fn whole_sheet(link: usize, divisions: usize) -> String {
    let (form, size) = LINKS[link];
    let mut records = vec![String::from("Sym,a")];
    if size > 1 || divisions > 1 {
        records.extend(["Sym,i", "Const,2"].map(String::from));
    }
    let trees = divisions.max(1);
    let links = (OCCURRENCES / trees - 1 - 2 * usize::from(divisions > 0)) / size;
    let mut last = 0;
    for _ in 0..links {
        records.push(form.replace('.', &last.to_string()));
        last = records.len() - 1;
    }
    records.extend((0..divisions).map(|n| format!("Div,{n},{last}")));
    let first = records.len() - trees;
    records.extend((first..first + trees).map(|n| format!("Root,{n}")));
    records.join("\r\n")
}

/// Two divisions by a chain of so many divisors, `3 / (3 / ..)` around select(1, 2), and their sum below so many arms.
/// Each reciprocal holds a copy of the switch, so that a scope holds far more than it is given.
fn divisor_sheet(divisors: usize, arms: usize, switches: usize) -> String {
    let mut records: Vec<String> = ["Sym,i", "Const,1", "Const,2", "Const,3"].map(String::from).to_vec();
    let mut last = 2;
    for _ in 0..switches {
        records.push(format!("Select,1,{last}"));
        last = records.len() - 1;
    }
    for _ in 0..divisors {
        records.push(format!("Div,3,{last}"));
        last = records.len() - 1;
    }
    records.push(format!("Div,1,{last}"));
    records.push(format!("Div,2,{last}"));
    let sum = records.len();
    records.push(format!("Add,{},{}", sum - 2, sum - 1));
    for n in 0..arms {
        records.push(format!("Select,0,{}", sum + n));
    }
    records.push(format!("Root,{}", sum + arms));
    records.join("\r\n")
}

/// So many sums that occur twice each, and divisions by one divisor in one another to the left, below so many arms. A
/// scope of more than 64 statements has larger tables, and a reciprocal is taken while they are on the stack.
fn sums_sheet(sums: usize, divisions: usize, arms: usize) -> String {
    let mut records: Vec<String> = ["Sym,i", "Sym,a", "Sym,b"].map(String::from).to_vec();
    let mut all = 1;
    for n in 0..sums {
        let at = records.len();
        records.push(format!("Const,{}", n + 3));
        records.push(format!("Add,1,{at}"));
        records.push(format!("Mul,{0},{0}", at + 1));
        records.push(format!("Add,{all},{}", at + 2));
        all = at + 3;
    }
    for _ in 0..divisions {
        records.push(format!("Div,{all},2"));
        all = records.len() - 1;
    }
    for _ in 0..arms {
        records.push(format!("Select,0,{all}"));
        all = records.len() - 1;
    }
    records.push(format!("Root,{all}"));
    records.join("\r\n")
}

fn lists(cases: &mut Vec<Case>) {
    type Made = Box<dyn Fn() -> String>;
    let mut put = |function: usize, name: String, number: u64, slow: bool, sheet: Made| {
        cases.push(Case { function, name, number, slow, input: Box::new(move || Input::Sheet(sheet())) });
    };
    for link in 0..LINKS.len() {
        let form = LINKS[link].0;
        for divisions in 0..3 {
            for function in [LOAD, FLAT, SCOPED] {
                let name = format!("{form} as long as may be, divisions {divisions}");
                put(function, name, 0, false, Box::new(move || whole_sheet(link, divisions)));
            }
        }
        for chains in 0..CHAINS.len() {
            for arms in [0, 4, 7, 8] {
                let alone = CHAINS[chains].0 == 1 && ["Div,2,.", "Branch,.,0,2"].contains(&form);
                let slow = alone || arms == 4 || arms == 7;
                for function in [FLAT, SCOPED] {
                    let name = format!("{form}, chains {:?}, arms {arms}", CHAINS[chains]);
                    put(function, name, 0, slow, Box::new(move || chain_sheet(link, chains, arms)));
                }
            }
        }
    }
    for arms in 0..8 {
        for (divisors, switches) in [(60, 1), (85, 1), (120, 1), (151, 1), (200, 1), (85, 8 - arms)] {
            let name = format!("{divisors} divisors, switches {switches}, arms {arms}");
            put(SCOPED, name, 0, divisors == 200, Box::new(move || divisor_sheet(divisors, arms, switches)));
        }
    }
    for arms in [0, 7, 8] {
        for divisors in [85, 200, 248] {
            for function in [FLAT, SCOPED] {
                let name = format!("{divisors} divisors, no switches, arms {arms}");
                put(function, name, 0, arms == 7, Box::new(move || divisor_sheet(divisors, arms, 0)));
            }
        }
        for (sums, divisions) in [(60, 200), (66, 0), (66, 200), (120, 10)] {
            for function in [FLAT, SCOPED] {
                let name = format!("{sums} sums, divisions {divisions}, arms {arms}");
                put(function, name, 0, false, Box::new(move || sums_sheet(sums, divisions, arms)));
            }
        }
    }
    // sheets that are long, or that have records of many fields or digits
    let mut load = |name: &str, number: u64, sheet: fn() -> String| {
        put(LOAD, name.to_string(), number, false, Box::new(sheet));
    };
    load("many fields", BAD_RECORD, || format!("Sym,a\r\nSelect{}", ",0".repeat(32_000)));
    load("many digits", NO_SUCH_NODE, || format!("Sym,a\r\nSin,{}", "1".repeat(65_000)));
    load("many records", TOO_LARGE, || "Sym,a\r\n".repeat(9_000));
    load("many bytes", TOO_LARGE, || "Sym,a\r\n".repeat(100_000));
    load("sums of sums", TOO_LARGE, || {
        let sums: String = (0..1_000).map(|n| format!("Add,{n},{n}\r\n")).collect();
        format!("Sym,a\r\n{sums}Root,1000")
    });
}

// ---- words

const BELOW: u64 = 64;
const A: u64 = 0;
const ONE: u64 = 1 + 2 * BELOW;
const MINUS: u64 = 2 + BELOW;
const SUM: u64 = 3 + 2 * BELOW;
const PRODUCT: u64 = 5 + 2 * BELOW;
const QUOTIENT: u64 = 6 + 2 * BELOW;
const SINE: u64 = 8 + BELOW;
const SELECT: u64 = 27 + 2 * BELOW;
const BRANCH: u64 = 26 + 3 * BELOW;
const LET: u64 = 29;
const NAME: u64 = 33;
const ARM: u64 = 34;
const VALUE: u64 = 35;
const RESULT: u64 = 36;
/// The name `__x0` as a word, and the symbol with the number 1.
const NEW: u64 = BELOW;
const B: u64 = 3 * BELOW;

/// So many operations in one another over a leaf, each with some words before the next one and some after.
fn nested(many: usize, before: &[u64], leaf: u64, after: &[u64]) -> Vec<u64> {
    [before.repeat(many), vec![leaf], after.repeat(many)].concat()
}

/// So many matches in one another, as the kind of row has arms, with a tree in the innermost: its key, or its value.
fn matches(many: usize, row: u64, key: &[u64], value: &[u64]) -> Vec<u64> {
    let other = row != 31;
    let mut words = Vec::new();
    for n in 0..many {
        let last = n + 1 == many;
        words.push(row + BELOW * (3 + u64::from(other)));
        words.extend(if last { key } else { &[A] });
        words.push(NAME + BELOW * (3 * n as u64 + 2));
        // an arm that is bare stands before the one that holds the next match
        words.extend(if other { &[ARM + BELOW, VALUE, A][..] } else { &[] });
        words.push(ARM + BELOW * if last { 1 } else { 2 });
    }
    for n in 0..many {
        words.push(VALUE);
        words.extend(if n == 0 { value } else { &[A] });
    }
    words
}

/// What stands before the next of operations in one another, and what after it.
const SHAPES: [(&str, &[u64], &[u64]); 7] = [
    ("Neg", &[MINUS], &[]),
    ("Sin", &[SINE], &[]),
    ("Add to the left", &[SUM], &[A]),
    ("Mul to the right", &[PRODUCT, A], &[]),
    ("Div to the right", &[QUOTIENT, A], &[]),
    ("Select by its key", &[SELECT], &[A]),
    ("Branch by its arm", &[BRANCH, A, A], &[]),
];

fn texts(cases: &mut Vec<Case>) {
    let mut put = |function: usize, name: String, number: u64, words: Box<dyn Fn() -> Vec<u64>>| {
        cases.push(Case { function, name, number, slow: false, input: Box::new(move || Input::Words(words())) });
    };
    for (shape, before, after) in SHAPES {
        let deep = move |levels: usize| nested(levels - 1, before, A, after);
        let below = move |row: u64, levels: usize| [vec![row], deep(levels - 1)].concat();
        put(TEXT, format!("{shape}, {DEEPEST} deep"), 0, Box::new(move || deep(DEEPEST)));
        put(PRINT, format!("result of {shape}, {DEEPEST} deep"), 0, Box::new(move || below(RESULT, DEEPEST)));
        put(PRINT, format!("let of {shape}, {DEEPEST} deep"), 0, Box::new(move || below(LET + NEW, DEEPEST)));
        for levels in FAR {
            put(TEXT, format!("{shape}, {levels} deep"), BROKEN, Box::new(move || deep(levels)));
            let name = format!("result of {shape}, {levels} deep");
            put(PRINT, name, BAD_ANSWER, Box::new(move || below(RESULT, levels)));
        }
        for (function, number) in [(TEXT, BROKEN), (PRINT, BAD_ANSWER)] {
            put(function, format!("{shape} without an end"), number, Box::new(|| before.repeat(1_000_000)));
        }
    }
    for row in [30, 31, 32] {
        let signs = |levels: usize| nested(levels - 1, &[MINUS], A, &[]);
        // a match and its arm are two rows, the value one
        for many in [8, 260, 519] {
            let left = DEEPEST - 2 * many;
            for more in [0, 1] {
                let name = |what: &str| format!("{many} matches of row {row} and a {what}, {} deep", DEEPEST + more);
                let number = if more == 0 { 0 } else { BAD_ANSWER };
                put(PRINT, name("value"), number, Box::new(move || matches(many, row, &[A], &signs(left - 1 + more))));
                put(PRINT, name("key"), number, Box::new(move || matches(many, row, &signs(left + 1 + more), &[A])));
            }
        }
        for many in [520, 6_000, 300_000] {
            let name = format!("{many} matches of row {row}");
            put(PRINT, name, BAD_ANSWER, Box::new(move || matches(many, row, &[A], &[A])));
        }
    }
    // rows of any sort that have one of the like below them
    for row in [ARM + BELOW, VALUE, RESULT, LET, 31 + BELOW, 63 + BELOW] {
        put(PRINT, format!("rows of {row}"), BAD_ANSWER, Box::new(move || vec![row; 1_000_000]));
        put(TEXT, format!("rows of {row}"), BROKEN, Box::new(move || vec![row; 1_000_000]));
    }
}

/// The same for rewritings, with how many rows each takes.
const PRODUCTS: [(&str, usize, &[u64], &[u64]); 8] = [
    ("products to the left", 1, &[PRODUCT], &[B]),
    ("products to the right", 1, &[PRODUCT, B], &[]),
    ("products to the right by 1", 1, &[PRODUCT, ONE], &[]),
    ("signs", 1, &[MINUS], &[]),
    ("products of signs", 2, &[PRODUCT, B, MINUS], &[]),
    ("products of a and a sine", 2, &[PRODUCT, A, SINE], &[]),
    ("products of a and a quotient", 2, &[PRODUCT, A, QUOTIENT, B], &[]),
    ("quotients to the left", 1, &[QUOTIENT], &[B]),
];

const TARGETS: [(&str, &[u64]); 5] =
    [("a * b", &[PRODUCT, A, B]), ("a * 1", &[PRODUCT, A, ONE]), ("b * b", &[PRODUCT, B, B]), ("a", &[A]), ("b", &[B])];

fn rewritings(cases: &mut Vec<Case>) {
    type Made = Box<dyn Fn() -> Vec<u64>>;
    let mut put = |function: usize, name: String, number: u64, words: Made, target: Made| {
        let input = Box::new(move || Input::Pair(words(), target()));
        cases.push(Case { function, name, number, slow: false, input });
    };
    let just = |words: &'static [u64]| -> Made { Box::new(|| words.to_vec()) };
    let both = TARGETS[0].1;
    for (shape, rows, before, after) in PRODUCTS {
        let made = move |levels: usize| nested((levels - 1) / rows, before, A, after);
        let deep = |levels: usize| -> Made { Box::new(move || made(levels)) };
        // a product is flattened through all of it
        let product = || -> Made { Box::new(move || [vec![PRODUCT], made(DEEPEST - 1), vec![B]].concat()) };
        let name = format!("{shape}, {DEEPEST} deep");
        for (sought, target) in TARGETS {
            put(REPLACE, format!("{sought} in {name}"), 0, deep(DEEPEST), just(target));
        }
        put(REPLACE, format!("a * b in a product with {name}"), 0, product(), just(both));
        put(REPLACE, format!("{name}, in a"), 0, just(&[A]), deep(DEEPEST));
        put(REPLACE, format!("{name}, in themselves"), 0, deep(DEEPEST), deep(DEEPEST));
        put(REPLACE, format!("a product with {name}, in a"), 0, just(&[A]), product());
        put(DIVISOR, format!("b in {name}"), 0, deep(DEEPEST), just(&[B]));
        put(OUTSIDE, format!("b in {name}"), 0, deep(DEEPEST), just(&[B]));
        for levels in FAR {
            // two rows at a time
            let levels = levels + usize::from(rows == 2);
            put(REPLACE, format!("a * b in {shape}, {levels} deep"), BROKEN, deep(levels), just(both));
            put(REPLACE, format!("{shape}, {levels} deep, in a"), BROKEN, just(&[A]), deep(levels));
            for function in [DIVISOR, OUTSIDE] {
                put(function, format!("b in {shape}, {levels} deep"), BROKEN, deep(levels), just(&[B]));
                put(function, format!("{shape}, {levels} deep, in a"), BROKEN, just(&[A]), deep(levels));
            }
        }
    }
    let keys = || -> Made { Box::new(|| nested(DEEPEST - 1, &[SELECT], A, &[A])) };
    put(OUTSIDE, format!("a in keys, {DEEPEST} deep"), 0, keys(), just(&[A]));
    put(OUTSIDE, format!("b in keys, {DEEPEST} deep"), 0, keys(), just(&[B]));
    for levels in FAR {
        let deeper: Made = Box::new(move || nested(levels - 1, &[SELECT], A, &[A]));
        put(OUTSIDE, format!("a in keys, {levels} deep"), BROKEN, deeper, just(&[A]));
    }
}

pub fn cases() -> Vec<Case> {
    let mut cases = Vec::new();
    lists(&mut cases);
    texts(&mut cases);
    rewritings(&mut cases);
    cases
}
