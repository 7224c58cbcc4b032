//! The theorems: for each list one that the definitions give, in both forms, what the source gave,
//! proved by computing.
use crate::Case;
use crate::answers::Outcome;
use crate::tree::antt;
use std::fmt::Write;
use std::fs;

/// Lists to a module, so that no module is long to check.
const LISTS: usize = 50;

const USES: &str = include_str!("uses.txt");

/// The modules in turn go to the folders, for as many crates, which can be checked side by side.
pub fn write(cases: &[Case], folders: &[String]) -> std::io::Result<()> {
    let mut roots = vec![String::new(); folders.len()];
    for (m, part) in cases.chunks(LISTS).enumerate() {
        let at = m % folders.len();
        writeln!(roots[at], "pub mod Lists{m}").unwrap();
        fs::write(
            format!("{}/Lists{m}.antt", folders[at]),
            module(m * LISTS, part),
        )?;
    }
    for (root, folder) in roots.iter().zip(folders) {
        fs::write(format!("{folder}/Lib.antt"), root)?;
    }
    Ok(())
}

fn module(first: usize, cases: &[Case]) -> String {
    let mut s = USES.to_string();
    for (i, case) in cases.iter().enumerate() {
        theorem(&mut s, first + i, case);
    }
    s
}

fn theorem(s: &mut String, n: usize, case: &Case) {
    let roots: String = case
        .es
        .iter()
        .map(|t| format!("({}) ∷ ", antt(t)))
        .collect();
    let (flat, scoped) = (outcome(&case.flat), outcome(&case.scoped));
    write!(s, "\n-- {}\n", case.text).unwrap();
    write!(
        s,
        "pub list{n} : Both ({roots}[])\n    ({flat})\n    ({scoped})\n"
    )
    .unwrap();
    write!(s, "unfolding summary\nlist{n} = (refl, refl)\n").unwrap();
}

fn outcome(o: &Outcome) -> String {
    match o {
        Outcome::Refused(n) => format!("turned_down {n}"),
        Outcome::Given {
            rows,
            extracted,
            text,
        } => {
            format!("given {rows} {extracted} \"{}\"", text.replace('\n', "\\n"))
        }
    }
}

/// Makes one expectation of a list wrong, by turns in each form and each part.
pub fn spoil(n: usize, case: &mut Case) {
    let form = if n % 2 == 0 {
        &mut case.flat
    } else {
        &mut case.scoped
    };
    match form {
        Outcome::Refused(number) => *number = 21 - *number,
        Outcome::Given {
            rows,
            extracted,
            text,
        } => match n / 2 % 3 {
            0 => *rows += 1,
            1 => *extracted += 1,
            _ => text.push('\n'),
        },
    }
}
