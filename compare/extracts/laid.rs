//! Lists as node rows and as the source's expressions: the rows are made from trees, with shared rows and
//! rows that no root reaches, and the expressions from the rows.
use crate::arael::{E, Expr};
use crate::large::MOST;
use crate::random::Random;
use crate::reading;
use crate::rows::{Rows, WIDTH, name};
use crate::tree::{SELECT, SELECT_OR, T, Tree, expr, size};
use std::collections::HashMap;
use std::rc::Rc;

pub struct List {
    pub rows: Rows,
    pub roots: Vec<u64>,
}

// ---- rows from trees

struct Laying<'a> {
    r: &'a mut Random,
    rows: Rows,
    /// of a hundred nodes that have a row so many are not laid out again
    shared: usize,
    of_tree: HashMap<*const Tree, usize>,
    names: HashMap<&'static str, String>,
    /// how many rows can be laid out that nothing reaches, and of a hundred rows so many have one before them
    spare: usize,
    unreached: usize,
}

pub fn lay_out(r: &mut Random, es: &[T]) -> List {
    let shared = *r.pick(&[0, 50, 100, 100]);
    let unreached = *r.pick(&[0, 0, 3, 20]);
    let plain = r.chance(40);
    let mut laying = Laying {
        rows: Rows::new(),
        shared,
        of_tree: HashMap::new(),
        names: HashMap::new(),
        spare: MOST - es.iter().map(size).sum::<usize>(),
        unreached,
        r,
    };
    if plain {
        for name in ["a", "b", "c", "d", "i", "j", "k", "p", "q", "y", "z"] {
            laying.names.insert(name, name.to_string());
        }
    }
    laying.list(es)
}

/// As a generator lays out its list: a row for each tree however often it is held, no others, and symbols by their own names.
pub fn as_made(es: &[T]) -> List {
    as_made_after(Rows::new(), es)
}

/// The same, after rows that no root reaches.
pub fn as_made_after(rows: Rows, es: &[T]) -> List {
    let mut names = HashMap::new();
    es.iter().for_each(|t| own_names(t, &mut names));
    let laying = Laying {
        // nothing is left to it
        r: &mut Random(0),
        rows,
        shared: 100,
        of_tree: HashMap::new(),
        names,
        spare: 0,
        unreached: 0,
    };
    laying.list(es)
}

fn own_names(t: &T, names: &mut HashMap<&'static str, String>) {
    match t.as_ref() {
        Tree::Sym(name) => {
            names.insert(name, name.to_string());
        }
        Tree::Const(_) => {}
        Tree::Op(_, parts) => parts.iter().for_each(|t| own_names(t, names)),
    }
}

impl Laying<'_> {
    fn list(mut self, es: &[T]) -> List {
        let roots = es.iter().map(|t| self.tree(t) as u64).collect();
        if self.rows.words.is_empty() {
            // a sheet without records is no sheet
            self.rows.put_symbol("a");
        }
        List {
            rows: self.rows,
            roots,
        }
    }

    fn tree(&mut self, t: &T) -> usize {
        let made = self.of_tree.get(&Rc::as_ptr(t)).copied();
        if let (Some(row), true) = (made, self.r.chance(self.shared)) {
            return row;
        }
        let row = match t.as_ref() {
            Tree::Sym(name) => {
                self.unreached();
                let name = self.named(name);
                self.rows.put_symbol(&name)
            }
            Tree::Const(n) => self.rows.put_constant(*n),
            Tree::Op(kind, parts) => {
                let operands: Vec<usize> = parts.iter().map(|t| self.tree(t)).collect();
                self.unreached();
                self.rows.put_operation(*kind, &operands)
            }
        };
        self.of_tree.insert(Rc::as_ptr(t), row);
        row
    }

    /// Each symbol gets a name that no other has.
    fn named(&mut self, symbol: &'static str) -> String {
        while !self.names.contains_key(symbol) {
            let name = name(self.r);
            if !self.names.values().any(|n| *n == name) {
                self.names.insert(symbol, name);
            }
        }
        self.names[symbol].clone()
    }

    fn unreached(&mut self) {
        if self.spare == 0 || !self.r.chance(self.unreached) {
            return;
        }
        self.spare -= 1;
        let names = self.rows.symbols();
        match self.r.below(3) {
            // a name for the second time: its first row is its number
            0 if !names.is_empty() => {
                let name = self.r.pick(&names).clone();
                self.rows.put_symbol(&name);
            }
            1 => {
                self.rows.put_symbol(&name(self.r));
            }
            _ => self.rows.put_other(self.r),
        }
    }
}

// ---- the source's expressions from rows

/// The roots' expressions. Where `share` is set, a row that is read at several places is one node there.
pub fn expressions(list: &List, share: bool) -> Vec<E> {
    let mut made = HashMap::new();
    let roots = list.roots.iter();
    roots.map(|n| expression(&list.rows.words, *n as usize, share, &mut made)).collect()
}

fn expression(words: &[u64], n: usize, share: bool, made: &mut HashMap<usize, E>) -> E {
    if let (true, Some(e)) = (share, made.get(&n)) {
        return e.clone();
    }
    let row = &words[n * WIDTH..(n + 1) * WIDTH];
    let fields = &row[3..3 + row[2] as usize];
    let e = E::from(match row[0] {
        0 => Expr::Sym(fields.iter().map(|b| *b as u8 as char).collect()),
        1 => {
            let size = fields[1] as f64;
            Expr::Const(if fields[0] == 1 { -size } else { size })
        }
        kind => {
            let kind = if row[1] == 1 { SELECT_OR } else { kind as usize };
            expr(kind, fields.iter().map(|f| expression(words, *f as usize, share, made)).collect())
        }
    });
    made.insert(n, e.clone());
    e
}

// ---- 9: rows that load couldn't lay out

/// Whether the rows and roots are what some sheet loads as: the sheet is written from them, read by the
/// reading of the paper, and what it reads compared.
pub fn could_be_loaded(words: &[u64], roots: &[u64]) -> bool {
    let Some(sheet) = sheet(words, roots) else {
        return false;
    };
    let read = reading::load(reading::ROWS * WIDTH, reading::ROOTS, &sheet);
    read.is_ok_and(|table| table.words() == words && table.roots == roots)
}

/// The rows and then the roots as a sheet, where each row has the form of a record.
pub fn sheet(words: &[u64], roots: &[u64]) -> Option<Vec<u8>> {
    let records: Option<Vec<Vec<u8>>> = words.chunks(WIDTH).map(record).collect();
    let mut records = records?;
    records.extend(roots.iter().map(|n| format!("Root,{n}").into_bytes()));
    Some(records.join(&b"\r\n"[..]))
}

/// A row as a record, where it has the form of one.
fn record(row: &[u64]) -> Option<Vec<u8>> {
    let (kind, default) = (*row.first()? as usize, *row.get(1)?);
    let count = usize::try_from(*row.get(2)?).ok()?;
    let fields = row.get(3..count.checked_add(3)?)?;
    let (word, _, _) = reading::KINDS.get(kind)?;
    let mut record = if kind == SELECT && default == 1 { "SelectOr".to_string() } else { word.to_string() }.into_bytes();
    record.push(b',');
    match (kind, fields) {
        (0, _) => {
            for f in fields {
                record.push(u8::try_from(*f).ok()?);
            }
        }
        (1, [sign @ 0..=1, size]) => record.extend(format!("{}{size}", ["", "-"][*sign as usize]).bytes()),
        (1, _) => return None,
        _ => {
            let numbers: Vec<String> = fields.iter().map(u64::to_string).collect();
            record.extend(numbers.join(",").bytes());
        }
    }
    Some(record)
}

/// One thing changed in rows or roots, mostly so that load couldn't lay them out.
pub fn damage(r: &mut Random, rows: &mut Vec<u64>, roots: &mut Vec<u64>) {
    let count = rows.len() / WIDTH;
    let row = r.below(count) * WIDTH;
    match r.below(22) {
        // any word of a row
        0 => rows[row + r.below(WIDTH)] = r.below(40) as u64,
        1 => rows[row + r.below(5)] ^= 1 << r.below(64),
        2 => rows[row] = r.below(40) as u64,
        3 => rows[row + 1] ^= 1,
        4 => rows[row + 2] = r.below(36) as u64,
        // what is left of a row
        5 => rows[row + WIDTH - 1 - r.below(16)] += 1,
        6 => rows.truncate(row + 1 + r.below(WIDTH)),
        7 => rows.extend(vec![0; 1 + r.below(WIDTH)]),
        8 => {
            rows.clear();
            if r.chance(50) {
                roots.clear();
            }
        }
        9 => roots.push((count + r.below(2)) as u64),
        10 => roots.resize(65, 0),
        11 => {
            let more = roots.repeat(8);
            roots.extend(more);
        }
        way => damage_of_kind(r, way, row, rows, roots),
    }
}

/// The rest of these, most of them for rows of one kind.
fn damage_of_kind(r: &mut Random, way: usize, row: usize, rows: &mut Vec<u64>, roots: &mut [u64]) {
    let count = rows.len() / WIDTH;
    let kind = rows[row] as usize;
    match way {
        // a reference to a row that isn't earlier
        12 if kind > 1 => rows[row + 3] = (row / WIDTH) as u64 + r.below(2) as u64,
        // names
        13 if kind == 0 => rows[row + 3] = *r.pick(&[b'0', b'-', b'A', b'_', 0, b',', 13]) as u64,
        14 if kind == 0 => put_fields(rows, row, b"__x17"),
        15 if kind == 0 => put_fields(rows, row, b"__m"),
        // constants
        16 if kind == 1 => rows[row + 3..row + 5].copy_from_slice(&[1, 0]),
        17 if kind == 1 => rows[row + 4] = 1_000_000_000_000_000 - r.below(2) as u64,
        // a row too many
        18 => {
            while rows.len() <= MOST * WIDTH {
                rows.extend_from_within(row..row + WIDTH);
            }
        }
        // arms nested one after another
        19 if count + 10 <= MOST && !roots.is_empty() => {
            for _ in 0..r.below(10) {
                let mut arm = vec![27, 0, 2, 0, (rows.len() / WIDTH - 1) as u64];
                arm.resize(WIDTH, 0);
                rows.extend(arm);
            }
            roots[0] = (rows.len() / WIDTH - 1) as u64;
        }
        // an operation with an operand too many
        20 if kind > 1 => {
            rows[row + 2] += 1;
            rows[row + 3 + 2] = 0;
        }
        _ => rows.swap(row, row + WIDTH * (count - row / WIDTH - 1)),
    }
}

fn put_fields(rows: &mut [u64], row: usize, name: &[u8]) {
    rows[row + 2] = name.len() as u64;
    rows[row + 3..row + WIDTH].fill(0);
    for (i, b) in name.iter().enumerate() {
        rows[row + 3 + i] = u64::from(*b);
    }
}
