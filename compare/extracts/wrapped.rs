//! The wrapper for generators, bindings/paddlecrook.rs, on a list: from its sheet and node by node, and its answer
//! as text and as trees, against the source's.
use crate::Given;
use crate::arael::{E, Expr};
use crate::cse::{Arm, Intermediate, Switch};
use crate::laid::{self, List};
use crate::paddlecrook::{self, Answer, Extractor, Kind, Node, Statement, Tree};
use crate::rows::WIDTH;
use crate::tree::{SELECT_OR, expr};

/// What the wrapper gives otherwise than the source.
pub fn difference(extractor: &mut Extractor, list: &List, given: &Given) -> Option<String> {
    let sheet = laid::sheet(&list.rows.words, &list.roots)?;
    let loaded = match paddlecrook::List::from_sheet(&sheet) {
        Ok(loaded) => loaded,
        Err(refused) => return Some(format!("wrapper: load {refused}")),
    };
    if loaded != by_nodes(list) {
        return Some("wrapper: the sheet and the nodes give different lists".to_string());
    }
    let told_by = if given.scoped { extractor.extract_scoped(&loaded) } else { extractor.extract(&loaded) };
    match told_by {
        Ok(answer) => told(&answer, given),
        Err(refused) => (refused.refusal.number() != given.number).then(|| format!("wrapper: extract {refused}")),
    }
}

fn told(answer: &Answer, given: &Given) -> Option<String> {
    if given.number != 0 {
        return Some("wrapper: extracted, and should be refused".to_string());
    }
    if answer.extracted() != given.extracted || answer.rows() != given.words {
        return Some("wrapper: another answer".to_string());
    }
    if answer.print().ok().as_ref() != Some(&given.printed) {
        return Some("wrapper: another text".to_string());
    }
    let code = answer.code();
    let statements = code.statements.iter().map(|s| format!("{}\n", intermediate(s)));
    let text: String = statements.chain(code.results.iter().map(|t| format!("{}\n", source(t)))).collect();
    (text != given.printed).then(|| "wrapper: other trees".to_string())
}

/// The source's expression.
fn source(t: &Tree) -> E {
    E::from(match t {
        Tree::Symbol(name) => Expr::Sym(name.clone()),
        Tree::Constant(n) => Expr::Const(*n as f64),
        Tree::Operation(kind, parts) => expr(*kind as usize, parts.iter().map(source).collect()),
    })
}

/// The source's statement.
fn intermediate(s: &Statement) -> Intermediate {
    match s {
        Statement::Let(name, t) => Intermediate::Let {
            name: name.clone(),
            expr: source(t),
        },
        Statement::Match(m) => {
            let mut arms: Vec<Arm> = m.arms.iter().map(arm).collect();
            let default = if m.kind == Kind::Select { None } else { arms.pop() };
            let key = source(&m.key);
            Intermediate::Match {
                switch: if m.kind == Kind::Branch { Switch::Sign(key) } else { Switch::Index(key) },
                names: m.names.clone(),
                arms,
                default,
            }
        }
    }
}

fn arm(a: &paddlecrook::Arm) -> Arm {
    Arm {
        inters: a.statements.iter().map(intermediate).collect(),
        values: a.values.iter().map(source).collect(),
    }
}

/// The list made again, a node for each row.
fn by_nodes(list: &List) -> paddlecrook::List {
    let mut made = paddlecrook::List::new();
    let mut nodes: Vec<Node> = Vec::new();
    for row in list.rows.words.chunks(WIDTH) {
        let fields = &row[3..3 + row[2] as usize];
        nodes.push(match row[0] {
            0 => made.symbol(&fields.iter().map(|b| *b as u8 as char).collect::<String>()),
            1 => made.constant(if fields[0] == 1 { -(fields[1] as i64) } else { fields[1] as i64 }),
            kind => {
                let number = if row[1] == 1 { SELECT_OR } else { kind as usize };
                let kind = Kind::ALL.into_iter().find(|k| *k as usize == number).expect("a kind");
                let operands: Vec<Node> = fields.iter().map(|n| nodes[*n as usize]).collect();
                made.operation(kind, &operands).expect("nodes of this list")
            }
        });
    }
    list.roots.iter().for_each(|n| made.root(nodes[*n as usize]).expect("a node of this list"));
    made
}
