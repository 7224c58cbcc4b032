//! Measures how much stack the proved functions need: the least thread, in steps of 16 KB, in which each of them
//! returns what it should on the inputs of worst.rs. Each try is a process of its own, since one with too little stack
//! is ended by the system. Arguments: numbers of functions, or none for all.
// which calls are slow matters to the gate alone
#[allow(dead_code)]
mod worst;

use std::process::{Command, Stdio};

const STEP: usize = 16;
const PLENTY: usize = 65_536;

/// Whether a call returns what it should in so many KB.
fn runs(case: usize, kilobytes: usize) -> bool {
    let mut child = Command::new(std::env::current_exe().unwrap());
    child.arg("--case").args([case, kilobytes].map(|n| n.to_string())).stderr(Stdio::null());
    child.status().unwrap().success()
}

/// The least stack for the calls of a function, and the call that needs it.
fn least(function: usize, cases: &[worst::Case]) -> (usize, String) {
    let (mut most, mut by) = (STEP, String::from("any"));
    for (n, case) in cases.iter().enumerate().filter(|(_, c)| c.function == function) {
        if runs(n, most) {
            continue;
        }
        if !runs(n, PLENTY) {
            println!("  FAILS with plenty: {}, which returns {}", case.name, case.run(PLENTY << 10));
            continue;
        }
        let (mut few, mut enough) = (most / STEP, PLENTY / STEP);
        while few + 1 < enough {
            let middle = (few + enough) / 2;
            if runs(n, middle * STEP) { enough = middle } else { few = middle }
        }
        (most, by) = (enough * STEP, case.name.clone());
    }
    (most, by)
}

fn main() {
    let words: Vec<String> = std::env::args().skip(1).collect();
    let cases = worst::cases();
    let number = |w: &String| w.parse::<usize>().expect("a number");
    if let [first, case, kilobytes] = &words[..] && first == "--case" {
        let case = &cases[number(case)];
        std::process::exit(i32::from(case.run(number(kilobytes) << 10) != case.number));
    }
    let asked: Vec<usize> = words.iter().map(number).collect();
    for (function, name) in worst::FUNCTIONS.iter().enumerate().filter(|(n, _)| asked.is_empty() || asked.contains(n)) {
        let (kilobytes, by) = least(function, &cases);
        println!("{name}: {kilobytes} KB ({by})");
    }
}
