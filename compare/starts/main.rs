//! What csesheet does, in Rust: a sheet on standard input is read by `sheets/reading.rs`, extracted by the source, and
//! printed.
#![allow(dead_code)]

mod arael;
mod cse;
mod fmt;
mod reading;
mod tree;

// cse.rs and fmt.rs look for these at the top of the crate
pub use arael::{E, Expr, FuncKind, symbol};
pub(crate) use arael::{as_exact_int, expand_func};

use reading::{ROOTS, ROWS, Table, WIDTH};
use std::io::{Read, Write, stdin, stdout};
use tree::{SELECT_OR, expr};

/// An expression for each row, of those of its operands.
fn expressions(table: &Table) -> Vec<E> {
    let mut made: Vec<E> = Vec::new();
    for row in table.words().chunks(WIDTH) {
        let fields = &row[3..3 + row[2] as usize];
        made.push(E::from(match row[0] {
            0 => Expr::Sym(fields.iter().map(|b| *b as u8 as char).collect()),
            1 => Expr::Const(if fields[0] == 1 { -(fields[1] as f64) } else { fields[1] as f64 }),
            kind => {
                let kind = if row[1] == 1 { SELECT_OR } else { kind as usize };
                expr(kind, fields.iter().map(|n| made[*n as usize].clone()).collect())
            }
        }));
    }
    table.roots.iter().map(|n| made[*n as usize].clone()).collect()
}

fn main() {
    let mut sheet = Vec::new();
    stdin().read_to_end(&mut sheet).expect("a sheet");
    let mut said = String::new();
    match reading::load(ROWS * WIDTH, ROOTS, &sheet) {
        Err(r) => said += &format!("refused {} {}\n", r.number, r.record),
        Ok(table) => {
            let (lets, results) = cse::cse(&expressions(&table));
            lets.iter().for_each(|(name, e)| said += &format!("let {name} = {e};\n"));
            results.iter().for_each(|e| said += &format!("{e}\n"));
        }
    }
    stdout().write_all(said.as_bytes()).expect("room for the answer");
}
