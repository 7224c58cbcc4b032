//! Good sheets from a fixed seed: every kind, shared nodes, roots between nodes, and several
//! shapes, some of them at the limits.
use crate::random::Random;
use crate::reading::{BYTES, KINDS, ROOTS, ROWS};

/// Records, and whether a CRLF stands after the last.
#[derive(Clone)]
pub struct Sheet {
    pub records: Vec<Vec<u8>>,
    pub ended: bool,
}

impl Sheet {
    pub fn bytes(&self) -> Vec<u8> {
        let mut bytes = self.records.join(&b"\r\n"[..]);
        if self.ended {
            bytes.extend(b"\r\n");
        }
        bytes
    }
}

/// A sheet that is loaded.
pub fn sheet(r: &mut Random) -> Sheet {
    let mut grown = Growing::new();
    match r.below(100) {
        0..=54 => mixed(r, &mut grown, 40),
        55..=74 => mixed(r, &mut grown, 200),
        75..=79 => chain(r, &mut grown),
        80..=84 => nested(r, &mut grown),
        85..=88 => mixed(r, &mut grown, ROWS),
        89..=91 => many_nodes(r, &mut grown),
        92..=95 => many_roots(r, &mut grown),
        96..=97 => doubled(r, &mut grown),
        _ => long(r, &mut grown),
    }
    Sheet {
        records: grown.records,
        ended: r.chance(50),
    }
}

/// Records so far, with each node's occurrences and how deep arms nest in it.
struct Growing {
    records: Vec<Vec<u8>>,
    nodes: Vec<(usize, usize)>,
    roots: usize,
    occurrences: usize,
}

impl Growing {
    fn new() -> Growing {
        Growing {
            records: Vec::new(),
            nodes: Vec::new(),
            roots: 0,
            occurrences: 0,
        }
    }

    fn leaf(&mut self, r: &mut Random) {
        let record = if r.chance(60) {
            format!("Sym,{}", name(r))
        } else {
            format!("Const,{}", constant(r))
        };
        self.records.push(record.into_bytes());
        self.nodes.push((1, 0));
    }

    /// An operation on earlier nodes.
    fn operation(&mut self, word: &str, operands: &[usize]) {
        let fields: Vec<String> = operands.iter().map(|n| n.to_string()).collect();
        let switch = ["Branch", "Select", "SelectOr"].contains(&word);
        let (mut count, mut depth) = (1usize, 0);
        for (i, n) in operands.iter().enumerate() {
            let (occurrences, nesting) = self.nodes[*n];
            count = count.saturating_add(occurrences);
            depth = depth.max(nesting + usize::from(switch && i > 0));
        }
        let record = format!("{word},{}", fields.join(","));
        self.records.push(record.into_bytes());
        self.nodes.push((count, depth));
    }

    /// An operation of any kind on nodes near the last ones, or on any.
    fn any(&mut self, r: &mut Random) {
        let (word, fewest, most) = KINDS[2 + r.below(KINDS.len() - 2)];
        let or = word == "Select" && r.chance(50);
        let count = fewest + r.below(most - fewest + 1) + usize::from(or);
        let all = self.nodes.len();
        let near = if r.chance(70) { all.min(8) } else { all };
        let operands: Vec<usize> = (0..count).map(|_| all - 1 - r.below(near)).collect();
        self.operation(if or { "SelectOr" } else { word }, &operands);
    }

    /// A root, where the limits allow it.
    fn root(&mut self, n: usize) -> bool {
        let (occurrences, nesting) = self.nodes[n];
        let sum = self.occurrences.saturating_add(occurrences);
        let fits = self.roots < ROOTS && sum <= 1024 && nesting <= 8;
        if fits {
            self.records.push(format!("Root,{n}").into_bytes());
            self.roots += 1;
            self.occurrences = sum;
        }
        fits
    }
}

const FIRST: &[u8] = b"abcxyzABCXYZ_";
const LATER: &[u8] = b"abcxyzABCXYZ_0123456789";

/// Mostly short names; some of 32 bytes, and some that are nearly a made name.
fn name(r: &mut Random) -> String {
    if r.chance(10) {
        return r
            .pick(&[
                "__x", "__m", "__x7a", "__y7", "_x7", "x7", "__m7_", "_", "___7",
            ])
            .to_string();
    }
    let length = if r.chance(80) {
        1 + r.below(4)
    } else {
        1 + r.below(32)
    };
    let mut name = vec![*r.pick(FIRST)];
    while name.len() < length {
        name.push(*r.pick(LATER));
    }
    // `__x7` is no symbol's name; with a letter after it, it is
    if name.starts_with(b"__") {
        name[1] = b'a';
    }
    String::from_utf8(name).expect("ASCII")
}

/// Mostly small; some of 15 digits.
fn constant(r: &mut Random) -> String {
    let sizes = [3, 20, 1000, 1_000_000, 999_999_999_999_999];
    let most = *r.pick(&sizes);
    let size = r.below(1 + most);
    let size = if r.chance(3) {
        999_999_999_999_999
    } else {
        size
    };
    let minus = size > 0 && r.chance(40);
    format!("{}{size}", if minus { "-" } else { "" })
}

/// Nodes of any kind, with roots among them.
fn mixed(r: &mut Random, g: &mut Growing, most: usize) {
    let count = 1 + r.below(most);
    let leaves = 10 + r.below(40);
    while g.nodes.len() < count {
        if g.nodes.is_empty() || r.chance(leaves) {
            g.leaf(r);
        } else {
            g.any(r);
        }
        if r.chance(10) {
            g.root(g.nodes.len() - 1);
        }
    }
    for _ in 0..r.below(4) {
        g.root(r.below(g.nodes.len()));
    }
}

/// One operand after another: with its root, up to 1,024 occurrences.
fn chain(r: &mut Random, g: &mut Growing) {
    let count = if r.chance(40) {
        ROWS
    } else {
        2 + r.below(ROWS)
    };
    g.leaf(r);
    while g.nodes.len() < count.min(ROWS) {
        let unary = KINDS[*r.pick(&[2, 8, 13, 18, 20, 22, 24])].0;
        g.operation(unary, &[g.nodes.len() - 1]);
    }
    g.root(g.nodes.len() - 1);
}

/// Arms in arms, up to 8 deep, and keys in keys, which add nothing.
fn nested(r: &mut Random, g: &mut Growing) {
    g.leaf(r);
    g.leaf(r);
    let depth = if r.chance(60) { 8 } else { 1 + r.below(8) };
    for _ in 0..depth {
        let last = g.nodes.len() - 1;
        match r.below(4) {
            0 => g.operation("Branch", &[0, last, 1]),
            1 => g.operation("Branch", &[1, 0, last]),
            2 => g.operation("Select", &[0, last]),
            _ => g.operation("SelectOr", &[0, 1, last]),
        }
        if r.chance(50) {
            let last = g.nodes.len() - 1;
            g.operation("Select", &[last, 0]);
        }
        if r.chance(30) {
            let last = g.nodes.len() - 1;
            g.operation("Clamp", &[0, 1, last]);
        }
    }
    g.root(g.nodes.len() - 1);
}

/// Exactly 1,024 nodes.
fn many_nodes(r: &mut Random, g: &mut Growing) {
    while g.nodes.len() < ROWS {
        if g.nodes.len() < 3 || r.chance(50) {
            g.leaf(r);
        } else {
            g.any(r);
        }
    }
    for _ in 0..40 {
        g.root(r.below(ROWS));
    }
}

/// Exactly 64 roots, and 1,024 occurrences where each has 16.
fn many_roots(r: &mut Random, g: &mut Growing) {
    g.leaf(r);
    let full = r.chance(50);
    for _ in 0..if full { 15 } else { r.below(6) } {
        g.operation("Exp", &[g.nodes.len() - 1]);
    }
    while g.roots < ROOTS {
        let n = if full { 15 } else { r.below(g.nodes.len()) };
        g.root(n);
    }
}

/// Sums of a node with itself: 2^n - 1 occurrences, all of 1,024 by ten roots more.
fn doubled(r: &mut Random, g: &mut Growing) {
    g.leaf(r);
    let count = 9 + r.below(30);
    for n in 0..count {
        g.operation("Add", &[n, n]);
    }
    let mut n = 9;
    while n > 0 {
        if !g.root(n) || r.chance(10) {
            n -= 1;
        }
    }
    g.root(0);
}

/// Close to 65,535 bytes, or just as many.
fn long(r: &mut Random, g: &mut Growing) {
    let mut bytes = 0;
    while bytes + 120 < BYTES && g.nodes.len() + 4 < ROWS {
        if g.nodes.len() < 400 {
            let name: String = (0..32).map(|_| *r.pick(FIRST) as char).collect();
            let name = name.replace("__", "_a");
            g.records.push(format!("Sym,{name}").into_bytes());
            g.nodes.push((1, 0));
        } else {
            let all = g.nodes.len();
            let operands: Vec<usize> = (0..18).map(|_| all - 1 - r.below(300)).collect();
            g.operation("SelectOr", &operands);
        }
        bytes += g.records.last().map_or(0, |l| l.len() + 2);
    }
    // symbols that leave room for no byte more where the last has its CRLF
    while bytes + 8 < BYTES && g.nodes.len() < ROWS {
        let left = BYTES - bytes - 6;
        let length = if left <= 32 { left } else { (left - 7).min(32) };
        g.records
            .push(["Sym,", &"z".repeat(length)].concat().into_bytes());
        g.nodes.push((1, 0));
        bytes += length + 6;
    }
}
