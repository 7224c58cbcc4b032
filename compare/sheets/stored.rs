//! What the program `replay_load` is run on and what it has to print (stdin and stdout in
//! crates/replay_load): sheets, and the answers that the reading gives.
//!
//! A line of stdin has five digits for the words lent, three for the places lent, and the sheet, a
//! space between them. In the sheet `/` is a CRLF and `\HH` the byte of that number; `|` parts it, and
//! a part `*NNNNN:piece` is the piece so many times, with `#` for the number of the turn. The same line
//! of stdout has 01's number or 0, the record or the count of rows, the count of roots, and a digest of
//! all words lent as the call leaves them. A line that begins with `#` says what follows it, and is the
//! same in both.
use crate::damage;
use crate::area::Filler;
use crate::good;
use crate::pair::Pair;
use crate::port::{ENOUGH, Lent};
use crate::random::Random;
use crate::reading;

/// After this line the sheets are random, made anew from a seed.
const RANDOM: &str = "# random sheets, good and damaged";
const SEED: u64 = 1;
const RANDOM_SHEETS: usize = 60;
/// Random sheets longer than this are left out.
const SHORT: usize = 150;

/// A prime above 2^32, and a factor: a change of one word changes the digest.
const PRIME: u64 = 4_294_967_311;
const FACTOR: u64 = 1_000_003;

/// The sheets of the list, the random ones made anew, and their answers.
pub fn renewed(list: &str) -> Pair {
    let mut pair = Pair::default();
    for line in list.lines().take_while(|line| *line != RANDOM) {
        if line.starts_with('#') {
            remark(&mut pair, line);
        } else {
            let lent = Lent {
                words: line[0..5].parse().expect("words lent"),
                places: line[6..9].parse().expect("places lent"),
                ..ENOUGH
            };
            put_case(&mut pair, lent, &line[10..]);
        }
    }
    remark(&mut pair, RANDOM);
    let mut r = Random(SEED);
    let mut count = 0;
    while count < RANDOM_SHEETS {
        let good = good::sheet(&mut r);
        let (bytes, lent) = if r.chance(30) {
            (good.bytes(), ENOUGH)
        } else {
            damage::copy(&mut r, &good)
        };
        if bytes.len() <= SHORT {
            put_case(&mut pair, lent, &recipe(&bytes));
            count += 1;
        }
    }
    pair
}

fn remark(pair: &mut Pair, line: &str) {
    pair.stdin += &format!("{line}\n");
    pair.stdout += &format!("{line}\n");
}

fn put_case(pair: &mut Pair, lent: Lent, recipe: &str) {
    pair.stdin += &format!("{:05} {:03} {recipe}\n", lent.words, lent.places);
    pair.stdout += &answered(lent, &expanded(recipe));
}

fn answered(lent: Lent, sheet: &[u8]) -> String {
    let mut rows: Vec<u64> = (0..lent.words).map(u64::filler).collect();
    let mut roots: Vec<u64> = (0..lent.places).map(u64::filler).collect();
    let (number, count, more) = match reading::load(lent.words, lent.places, sheet) {
        Ok(table) => {
            let words = table.words();
            rows[..words.len()].copy_from_slice(&words);
            roots[..table.roots.len()].copy_from_slice(&table.roots);
            (0, table.nodes.len() as u64, table.roots.len())
        }
        Err(refused) => (refused.number, refused.record, 0),
    };
    let digest = digest(digest(0, &rows), &roots);
    format!("{number} {count} {more} {digest}\n")
}

/// The digest goes on with both halves of each word.
fn digest(from: u64, words: &[u64]) -> u64 {
    let step = |d: u64, half: u64| (d * FACTOR + half) % PRIME;
    let both = |d, w: &u64| step(step(d, w >> 32), w & 0xffff_ffff);
    words.iter().fold(from, both)
}

/// The bytes that a sheet in a line stands for.
fn expanded(recipe: &str) -> Vec<u8> {
    let mut bytes = Vec::new();
    for part in recipe.split('|') {
        if let Some(repeated) = part.strip_prefix('*') {
            let times: usize = repeated[..5].parse().expect("how many times");
            (0..times).for_each(|turn| put(&repeated[6..], turn, &mut bytes));
        } else {
            put(part, 0, &mut bytes);
        }
    }
    bytes
}

fn put(piece: &str, turn: usize, bytes: &mut Vec<u8>) {
    let mut rest = piece.bytes();
    while let Some(b) = rest.next() {
        match b {
            b'/' => bytes.extend(b"\r\n"),
            b'#' => bytes.extend(turn.to_string().bytes()),
            b'\\' => {
                let digits: String = rest.by_ref().take(2).map(char::from).collect();
                bytes.push(u8::from_str_radix(&digits, 16).expect("two hexadecimal digits"));
            }
            _ => bytes.push(b),
        }
    }
}

/// Bytes as a line has them; two parts without a byte stand for none, so that no line ends in a
/// space.
fn recipe(bytes: &[u8]) -> String {
    let mut text = String::new();
    if bytes.is_empty() {
        text.push('|');
    }
    let mut rest = bytes;
    while let [first, more @ ..] = rest {
        rest = more;
        if rest.first() == Some(&b'\n') && *first == b'\r' {
            text.push('/');
            rest = &rest[1..];
        } else if b"/\\#|*".contains(first) || !(b'!'..=b'~').contains(first) {
            text += &format!("\\{first:02x}");
        } else {
            text.push(char::from(*first));
        }
    }
    text
}
