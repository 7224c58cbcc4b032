//! Runs programs on a sheet, in turn, and says how long each takes from its start to its end, the least time and the
//! middle one. Arguments: the sheet, how often each is run, and the programs. They have to print the same.
use std::fs::File;
use std::process::{Command, Stdio};
use std::time::{Duration, Instant};

fn command(program: &str, sheet: &str) -> Command {
    let mut command = Command::new(program);
    command.stdin(File::open(sheet).expect("the sheet"));
    command
}

fn time(program: &str, sheet: &str) -> Duration {
    let mut command = command(program, sheet);
    command.stdout(Stdio::null());
    let began = Instant::now();
    let ended = command.status().expect("a program");
    let time = began.elapsed();
    assert!(ended.success(), "{program} ends well");
    time
}

fn printed(program: &str, sheet: &str) -> Vec<u8> {
    command(program, sheet).output().expect("a program").stdout
}

fn main() {
    let words: Vec<String> = std::env::args().skip(1).collect();
    let (sheet, runs, programs) = (&words[0], words[1].parse::<usize>().expect("how often"), &words[2..]);
    assert!(programs.iter().all(|p| printed(p, sheet) == printed(&programs[0], sheet)), "the programs print the same");
    let mut times = vec![Vec::new(); programs.len()];
    for _ in 0..runs {
        for (program, times) in programs.iter().zip(&mut times) {
            times.push(time(program, sheet));
        }
    }
    for (program, times) in programs.iter().zip(&mut times) {
        times.sort();
        println!("{program}: {:?} at least, {:?} in the middle of {runs} runs", times[0], times[runs / 2]);
    }
}
