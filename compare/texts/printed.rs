//! The source's own answers to random lists, laid out as answer rows (AnswerRows.antt in
//! crates/spec_cse/specs) and printed by the port: the text is that of `Display` for `Intermediate` and
//! `Expr`, a line feed after each binding and each result.
use crate::arael::E;
use crate::asked::{Answer, asked, text};
use crate::cse::{Intermediate, Switch};
use crate::deep::{self, Depths};
use crate::depth::{DEEPEST, depth};
use crate::lists;
use crate::port::{Call, Expected, NO_ANSWER, Port, Writer};
use crate::random::Random;
use crate::rows::{RESULT, Rows, laid_out};
use crate::tree::Maker;
use crate::words::BELOW;
use crate::{DEEP_ONE_IN, nothing, show, spoil};
use std::time::{Duration, Instant};

const SEED: u64 = 20_261_116;
/// Of a hundred answers so many are damaged too.
const DAMAGED: usize = 5;

/// 01's numbers: words that are no answer's rows, and a text longer than what is lent.
pub const NOT_LAID_OUT: u64 = 13;
pub const TOO_LONG: u64 = 14;

/// One list, or two or three together, with node rows for its symbols.
fn list(r: &mut Random) -> (Rows, Vec<E>) {
    let mut maker = Maker::new(r.chance(50));
    let count = if r.chance(70) { 1 } else { 2 + r.below(2) };
    let trees: Vec<_> = (0..count).flat_map(|_| lists::list(r)).collect();
    let es: Vec<E> = trees.iter().map(|t| maker.make(t)).collect();
    let mut rows = Rows::new();
    let mut names: Vec<String> = es.iter().flat_map(|e| e.free_vars()).collect();
    names.sort();
    names.dedup();
    while !names.is_empty() {
        if r.chance(20) {
            rows.put_other(r);
        }
        rows.put_symbol(&names.remove(r.below(names.len())));
    }
    (rows, es)
}

// ---- what was met

#[derive(Clone, Copy)]
pub enum Form {
    Let,
    IfBare,
    IfWithStatements,
    Default,
    Panic,
    ArmBare,
    ArmInBraces,
    OneName,
    SeveralNames,
    LetInArm,
    MatchInArm,
}

pub const FORMS: [&str; 11] = [
    "lets",
    "sides of an if without statements",
    "with statements",
    "defaults",
    "panics",
    "arms without statements",
    "arms in braces",
    "matches of one name",
    "of several names",
    "lets in arms",
    "matches in arms",
];

pub type Forms = [bool; FORMS.len()];

pub fn mark(inters: &[Intermediate], inside: bool, forms: &mut Forms) {
    for it in inters {
        match it {
            Intermediate::Let { .. } => forms[if inside { Form::LetInArm } else { Form::Let } as usize] = true,
            Intermediate::Match { switch, names, arms, default } => {
                let sign = matches!(switch, Switch::Sign(_));
                forms[Form::MatchInArm as usize] |= inside;
                let many = if names.len() == 1 { Form::OneName } else { Form::SeveralNames };
                forms[many as usize] = true;
                if !sign {
                    forms[if default.is_some() { Form::Default } else { Form::Panic } as usize] = true;
                }
                for arm in arms.iter().chain(default) {
                    let form = match (sign, arm.inters.is_empty()) {
                        (true, true) => Form::IfBare,
                        (true, false) => Form::IfWithStatements,
                        (false, true) => Form::ArmBare,
                        (false, false) => Form::ArmInBraces,
                    };
                    forms[form as usize] = true;
                    mark(&arm.inters, true, forms);
                }
            }
        }
    }
}

#[derive(Default)]
struct Tally {
    answers: usize,
    refused: usize,
    too_long: usize,
    damaged: usize,
    no_answer: usize,
    forms: [usize; FORMS.len()],
    rows: usize,
    bytes: usize,
    differ: usize,
    depths: Depths,
    source: Duration,
}

// ---- calls

fn call(r: &mut Random, rows: &Rows, words: Vec<u64>, length: usize) -> Call {
    Call {
        writer: Writer::Print,
        rows: rows.words.clone(),
        words,
        to: 0,
        out: match r.below(10) {
            0 => r.below(length + 1),
            1 => length.saturating_sub(1),
            2..=6 => length,
            _ => length + r.below(30),
        },
        answer: 1 + r.below(2),
    }
}

fn expected(c: &Call, text: &str) -> Expected {
    if text.len() > c.out {
        return nothing(TOO_LONG);
    }
    Expected {
        number: 0,
        bytes: text.as_bytes().to_vec(),
        answer: vec![text.len() as u64],
    }
}

/// An answer that stands about as deep as is taken, or far deeper: the call, what it should do, and how deep it stands.
fn deep_answer(r: &mut Random) -> (Call, Expected, usize) {
    let rows = deep::rows();
    if r.chance(20) {
        let (many, sort) = (deep::far(r), r.below(4));
        let c = call(r, &rows, deep::far_answer(sort, many), 0);
        let levels = depth(&c.words);
        return (c, nothing(NOT_LAID_OUT), levels);
    }
    let levels = DEEPEST - 3 + r.below(6);
    let a = deep::answer(r, levels);
    let text = text(&a);
    let c = call(r, &rows, laid_out(&rows, &a), text.len());
    assert_eq!(depth(&c.words), levels, "as deep as it should be");
    let given = if levels > DEEPEST { nothing(NOT_LAID_OUT) } else { expected(&c, &text) };
    (c, given, levels)
}

/// Words that are no answer's rows; the number that is to be returned.
fn damage(r: &mut Random, c: &mut Call) -> u64 {
    let i = r.below(c.words.len());
    match r.below(5) {
        0 => {
            c.words.pop();
        }
        1 => c.words.push(RESULT),
        2 => c.words[i] = c.words[i] - c.words[i] % BELOW + RESULT + 1 + r.below(27) as u64,
        // a name that nothing binds, as a result
        3 => c.words.extend([RESULT, BELOW * (3 * 999_999 + 1)]),
        _ => {
            c.answer = 0;
            return NO_ANSWER;
        }
    }
    NOT_LAID_OUT
}

impl Tally {
    fn hold(&mut self, port: &mut Port, c: &Call, given: &Expected, text: &str) {
        if let Some(difference) = port.difference(c, given) {
            self.differ += 1;
            if self.differ <= 10 {
                show(&difference, c, given, text);
            }
        }
    }

    fn hold_answer(&mut self, r: &mut Random, port: &mut Port, rows: &Rows, a: &Answer) {
        let began = Instant::now();
        let text = text(a);
        self.source += began.elapsed();
        let mut forms = [false; FORMS.len()];
        mark(&a.inters, false, &mut forms);
        self.forms.iter_mut().zip(forms).for_each(|(n, met)| *n += usize::from(met));
        let words = laid_out(rows, a);
        self.answers += 1;
        self.rows += words.len();
        self.bytes += text.len();
        let mut c = call(r, rows, words, text.len());
        let given = expected(&c, &text);
        self.too_long += usize::from(given.number == TOO_LONG);
        self.hold(port, &c, &given, &text);
        if r.chance(DAMAGED) {
            let number = damage(r, &mut c);
            *(if number == NO_ANSWER { &mut self.no_answer } else { &mut self.damaged }) += 1;
            self.hold(port, &c, &nothing(number), &text);
        }
    }

    fn say(&self, port: &Port) -> bool {
        let forms: Vec<String> = FORMS.iter().zip(self.forms).map(|(name, n)| format!("{name} {n}")).collect();
        println!(
            "{} answers, {} differ; refused by 13 {}, by 14 {}, no room for an answer {}; lists that the source refuses {}; answers with {}; {}",
            self.answers,
            self.differ,
            self.damaged,
            self.too_long,
            self.no_answer,
            self.refused,
            forms.join(", "),
            self.depths.said()
        );
        let answers = self.answers as f64;
        println!(
            "  {:.1} rows and {:.1} bytes an answer; {:.2} microseconds a call in the port, {:.2} in the source",
            self.rows as f64 / answers,
            self.bytes as f64 / answers,
            port.time.as_secs_f64() * 1e6 / (answers + (self.damaged + self.no_answer) as f64),
            self.source.as_secs_f64() * 1e6 / answers
        );
        let met = [self.damaged, self.too_long, self.no_answer, self.depths.fewest()];
        self.differ == 0 && !met.contains(&0) && !self.forms.contains(&0)
    }
}

// ---- runs

pub fn compare(count: usize) -> bool {
    let mut r = Random(SEED);
    let mut port = Port::new();
    let mut tally = Tally::default();
    let none = Answer {
        inters: Vec::new(),
        results: Vec::new(),
        reciprocals: 0,
    };
    let empty = call(&mut r, &Rows::new(), laid_out(&Rows::new(), &none), 0);
    tally.hold(&mut port, &empty, &expected(&empty, ""), "no roots");
    let mut lists = 0;
    while tally.answers < count {
        if lists % DEEP_ONE_IN == 0 {
            let (c, given, levels) = deep_answer(&mut r);
            tally.depths.count(levels);
            tally.hold(&mut port, &c, &given, "deep rows");
        }
        lists += 1;
        let (rows, es) = list(&mut r);
        for scoped in [false, true] {
            match asked(&es, scoped) {
                Ok(answer) => tally.hold_answer(&mut r, &mut port, &rows, &answer),
                Err(_) => tally.refused += 1,
            }
        }
    }
    tally.say(&port)
}

/// How many of so many wrong expectations are noticed.
pub fn noticed(r: &mut Random, port: &mut Port, wrong: usize) -> usize {
    let mut tried = 0;
    let mut noticed = 0;
    while tried < wrong {
        let (rows, es) = list(r);
        let Ok(answer) = asked(&es, tried % 2 == 0) else {
            continue;
        };
        let mut text = text(&answer);
        let mut c = call(r, &rows, laid_out(&rows, &answer), text.len());
        let mut given = expected(&c, &text);
        if tried % DEEP_ONE_IN == 0 {
            (c, given, _) = deep_answer(r);
            text = String::from("deep rows");
        }
        assert_eq!(port.difference(&c, &given), None, "a true one: {text}");
        spoil(r, &mut given);
        noticed += usize::from(port.difference(&c, &given).is_some());
        tried += 1;
    }
    noticed
}
