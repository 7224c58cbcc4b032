//! Runs every exported function on the inputs that take the most stack (worst.rs), each in a thread of just the stack
//! that paddlecrook.h states for its function, and checks the number that it returns. bindings/run builds and runs it.
//!
//! The calls of a function run in a process of its own, which is ended by the system where the stack is too small; the
//! last line that it wrote names the call.
mod worst;

use std::process::Command;

const HEADER: &str = include_str!("paddlecrook.h");

/// The bytes that the header states for a function: `#define CSE_STACK_LOAD (.. * 1024)` for `cse_load`.
fn stated(function: &str) -> usize {
    let name = function.trim_start_matches("cse_").to_uppercase();
    let head = format!("#define CSE_STACK_{name} (");
    let line = HEADER.lines().find_map(|l| l.strip_prefix(head.as_str())).expect("a stack in the header");
    let kilobytes = line.strip_suffix(" * 1024)").expect("a count of KB").parse::<usize>().expect("a number");
    kilobytes * 1024
}

/// The calls of one function; whether all return what they should.
fn run(function: usize) -> bool {
    let stack = stated(worst::FUNCTIONS[function]);
    let mut well = true;
    for case in worst::cases().iter().filter(|c| c.function == function && !c.slow) {
        println!("{}", case.name);
        let number = case.run(stack);
        if number != case.number {
            eprintln!("deep: {} returned {number} and not {}: {}", worst::FUNCTIONS[function], case.number, case.name);
            well = false;
        }
    }
    well
}

fn main() {
    if let Some(function) = std::env::args().nth(1) {
        let well = run(function.parse().expect("a number"));
        std::process::exit(i32::from(!well));
    }
    let mut well = true;
    let mut calls = 0;
    for (function, name) in worst::FUNCTIONS.iter().enumerate() {
        let output = Command::new(std::env::current_exe().expect("this program")).arg(function.to_string()).output();
        let output = output.expect("a process");
        let said = String::from_utf8_lossy(&output.stdout);
        calls += said.lines().count();
        if !output.status.success() {
            let last = said.lines().last().unwrap_or("nothing");
            print!("{}", String::from_utf8_lossy(&output.stderr));
            println!("deep: FAILED: {name} in {} KB, {}; last: {last}", stated(name) / 1024, output.status);
            well = false;
        }
    }
    if !well {
        std::process::exit(1);
    }
    println!("deep: {calls} calls of {} functions return what they should in the stack stated", worst::FUNCTIONS.len());
}
