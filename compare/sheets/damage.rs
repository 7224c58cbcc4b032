//! Damaged copies of good sheets: bytes, fields, records, line ends, numbers, names and constants
//! changed, limits crossed, and too little lent.
use crate::good::Sheet;
use crate::port::{ENOUGH, Lent};
use crate::random::Random;
use crate::reading::{BYTES, ROOTS, ROWS, WIDTH};

/// A copy of a good sheet with one to three faults, and what is lent with it.
pub fn copy(r: &mut Random, good: &Sheet) -> (Vec<u8>, Lent) {
    let mut sheet = good.clone();
    let mut lent = ENOUGH;
    let faults = *r.pick(&[1, 1, 1, 2, 3]);
    let mut in_bytes = 0;
    for _ in 0..faults {
        match r.below(100) {
            0..=29 => in_bytes += 1,
            30..=51 => a_field(r, &mut sheet),
            52..=63 => the_records(r, &mut sheet),
            64..=71 => a_number(r, &mut sheet),
            72..=83 => a_leaf(r, &mut sheet),
            84..=93 => a_limit(r, &mut sheet),
            94 => sheet.records.clear(),
            _ => lent = other_lengths(r),
        }
    }
    let mut bytes = sheet.bytes();
    for _ in 0..in_bytes {
        some_bytes(r, &mut bytes);
    }
    (bytes, lent)
}

/// Bytes that mean something in a sheet, and some that don't.
const BYTES_OF_NOTE: &[u8] = b"\",\r\n \t-+.0123456789_xmaSR\x00\x7f\xc3\xff";

/// A byte changed, dropped or put in, or a CRLF broken.
fn some_bytes(r: &mut Random, bytes: &mut Vec<u8>) {
    if bytes.is_empty() {
        return;
    }
    let at = r.below(bytes.len());
    match r.below(8) {
        0 => bytes[at] ^= 1 << r.below(8),
        1 => bytes[at] = *r.pick(BYTES_OF_NOTE),
        2 => {
            bytes.remove(at);
        }
        3 => bytes.insert(at, *r.pick(BYTES_OF_NOTE)),
        4 => bytes.truncate(at),
        5 => {
            bytes.drain(..at);
        }
        _ => a_line_end(r, bytes),
    }
}

/// What stands in a CRLF's place.
const BROKEN: [&[u8]; 7] = [
    b"\r",
    b"\n",
    b"\n\r",
    b"\r\r\n",
    b"\r\n\n",
    b"\r\n\r\n",
    b"",
];

fn a_line_end(r: &mut Random, bytes: &mut Vec<u8>) {
    let ends: Vec<usize> = (1..bytes.len())
        .filter(|i| bytes[i - 1..=*i] == *b"\r\n")
        .collect();
    if ends.is_empty() {
        bytes.extend(*r.pick(&BROKEN));
        return;
    }
    let at = *r.pick(&ends) - 1;
    let broken = *r.pick(&BROKEN);
    bytes.splice(at..at + 2, broken.iter().copied());
}

/// The fields of a record, its word among them, changed and put back.
fn with_fields(r: &mut Random, sheet: &mut Sheet, change: impl Fn(&mut Random, &mut Vec<Vec<u8>>)) {
    if sheet.records.is_empty() {
        return;
    }
    let i = r.below(sheet.records.len());
    let mut fields: Vec<Vec<u8>> = sheet.records[i]
        .split(|b| *b == b',')
        .map(<[u8]>::to_vec)
        .collect();
    change(r, &mut fields);
    sheet.records[i] = fields.join(&b","[..]);
}

const WORDS: [&str; 16] = [
    "Sym",
    "Const",
    "Add",
    "Neg",
    "Clamp",
    "Branch",
    "Select",
    "SelectOr",
    "Root",
    "root",
    "Selec",
    "Selecto",
    "Log",
    "NamedConst",
    "Func",
    "",
];

fn a_field(r: &mut Random, sheet: &mut Sheet) {
    with_fields(r, sheet, |r, fields| {
        let (i, k) = (r.below(fields.len()), r.below(fields.len()));
        match r.below(7) {
            0 => fields.swap(i, k),
            1 => {
                fields.remove(i);
            }
            2 => fields.insert(i, fields[k].clone()),
            3 => fields[i].clear(),
            4 => fields[0] = r.pick(&WORDS).as_bytes().to_vec(),
            5 => fields[i].extend(b" "),
            _ => fields.resize(1 + r.below(20), fields[k].clone()),
        }
    });
}

fn the_records(r: &mut Random, sheet: &mut Sheet) {
    let records = &mut sheet.records;
    if records.is_empty() {
        return;
    }
    let (i, k) = (r.below(records.len()), r.below(records.len()));
    match r.below(6) {
        0 => {
            records.remove(i);
        }
        1 => records.insert(i, records[i].clone()),
        2 => records.insert(i, records[k].clone()),
        3 => records.swap(i, k),
        4 => records.insert(i, Vec::new()),
        _ => records.truncate(i),
    }
}

/// A field that should be a node's number.
fn a_number(r: &mut Random, sheet: &mut Sheet) {
    let nodes = sheet.records.len();
    with_fields(r, sheet, |r, fields| {
        let i = r.below(fields.len());
        let text = match r.below(8) {
            0 => format!("0{}", String::from_utf8_lossy(&fields[i])),
            1 => format!("-{}", r.below(3)),
            2 => r.below(nodes + 2).to_string(),
            3 => "18446744073709551616".to_string(),
            4 => "9".repeat(1 + r.below(60)),
            5 => "1".to_string() + &"0".repeat(r.below(40)),
            6 => format!("{}x", r.below(9)),
            _ => "1024".to_string(),
        };
        fields[i] = text.into_bytes();
    });
}

/// A symbol's name or a constant, good or bad.
fn a_leaf(r: &mut Random, sheet: &mut Sheet) {
    let long = "n".repeat(31 + r.below(4));
    let names = [
        "__x7", "__m7", "__x", "__m", "__x7a", "__x07", "__m0", "7a", "", "a b", " a", "a-b",
        "\u{e9}", "_", &long,
    ];
    let constants = [
        "0",
        "-0",
        "00",
        "007",
        "-07",
        "",
        "-",
        "--1",
        "+1",
        "1.0",
        "1e3",
        " 1",
        "1 ",
        "999999999999999",
        "-999999999999999",
        "1000000000000000",
        "-1000000000000000",
        "18446744073709551617",
        "99999999999999999999999999",
    ];
    let record = if r.chance(50) {
        format!("Sym,{}", r.pick(&names))
    } else {
        format!("Const,{}", r.pick(&constants))
    };
    let i = r.below(sheet.records.len() + 1);
    if i < sheet.records.len() && r.chance(60) {
        sheet.records[i] = record.into_bytes();
    } else {
        sheet.records.insert(i, record.into_bytes());
    }
}

/// Nodes, roots, occurrences, nesting or bytes around or past their limits.
fn a_limit(r: &mut Random, sheet: &mut Sheet) {
    let root = |record: &&Vec<u8>| record.starts_with(b"Root");
    let roots = sheet.records.iter().filter(root).count();
    let nodes = sheet.records.len() - roots;
    let records = &mut sheet.records;
    let mut add = |text: String| records.push(text.into_bytes());
    match r.below(5) {
        0 => {
            for _ in nodes..ROWS - 1 + r.below(3) {
                add("Const,1".to_string());
            }
        }
        1 => {
            for _ in roots..ROOTS - 1 + r.below(3) {
                add("Root,0".to_string());
            }
        }
        2 => {
            add("Sym,q".to_string());
            for n in nodes..nodes + 9 + r.below(4) {
                add(format!("Mul,{n},{n}"));
            }
            let last = nodes + 9 - r.below(2);
            add(format!("Root,{last}"));
        }
        3 => {
            let depth = 7 + r.below(4);
            add("Sym,q".to_string());
            for n in nodes..nodes + depth {
                let arm = r.pick(&["Branch,K,0,N", "Select,K,N", "SelectOr,K,0,N"]);
                add(arm.replace('K', "0").replace('N', &n.to_string()));
            }
            add(format!("Root,{}", nodes + depth));
        }
        _ => {
            let size: usize = records.iter().map(|l| l.len() + 2).sum();
            let left = (BYTES + 3).saturating_sub(size + 9 + r.below(6));
            records.push([b"Const,".to_vec(), vec![b'1'; left]].concat());
        }
    }
}

/// One place or row too few, or more than is needed.
fn other_lengths(r: &mut Random) -> Lent {
    let words = ROWS * WIDTH;
    Lent {
        words: *r.pick(&[0, 34, words - 35, words - 1, words, words + 1, words + 40]),
        places: *r.pick(&[0, 1, ROOTS - 1, ROOTS, ROOTS, ROOTS + 1, ROOTS + 9]),
        answer: *r.pick(&[0, 1, 2, 2, 2, 2, 2, 3, 5]),
    }
}
