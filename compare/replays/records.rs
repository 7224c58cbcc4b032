//! The sheet of a list, a slash for each CRLF.
use crate::tree::{T, Tree, WORDS};
use std::collections::HashMap;

/// Where `share` is set, equal records are one node, the roots stand last, and the last CRLF is there;
/// otherwise each place has a node of its own, a root stands after its tree, and the last CRLF is missing.
pub fn sheet(es: &[T], share: bool) -> String {
    let mut made = Records {
        share,
        ..Records::default()
    };
    let mut roots = Vec::new();
    for t in es {
        let n = made.put(t);
        if share {
            roots.push(format!("Root,{n}"));
        } else {
            made.records.push(format!("Root,{n}"));
        }
    }
    made.records.extend(roots);
    let end = if share { "/" } else { "" };
    made.records.join("/") + end
}

#[derive(Default)]
struct Records {
    share: bool,
    records: Vec<String>,
    nodes: usize,
    /// the node of each record
    known: HashMap<String, usize>,
}

impl Records {
    /// The number of the tree's node.
    fn put(&mut self, t: &T) -> usize {
        let record = match t.as_ref() {
            Tree::Sym(s) => format!("Sym,{s}"),
            Tree::Const(n) => format!("Const,{n}"),
            Tree::Op(k, l) => {
                let operands: Vec<String> = l.iter().map(|c| self.put(c).to_string()).collect();
                format!("{},{}", WORDS[*k], operands.join(","))
            }
        };
        if let (true, Some(n)) = (self.share, self.known.get(&record)) {
            return *n;
        }
        let n = self.nodes;
        self.nodes += 1;
        self.known.insert(record.clone(), n);
        self.records.push(record);
        n
    }
}
