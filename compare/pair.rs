//! The two files of a program that is run on stored cases: what it reads, and what it has to write.
use std::fs;
use std::path::Path;

#[derive(Default)]
pub struct Pair {
    pub stdin: String,
    pub stdout: String,
}

impl Pair {
    pub fn write(&self, folder: &str) {
        let folder = Path::new(folder);
        fs::write(folder.join("stdin"), &self.stdin).expect("a place for the cases");
        fs::write(folder.join("stdout"), &self.stdout).expect("a place for what is expected");
    }
}
