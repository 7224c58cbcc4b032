//! Tests that a node serves only the list that it belongs to. Of the wrapper's functions `operation` and `root` take
//! nodes; each must refuse another list's at once and leave the list as it was. bindings/run builds and runs this.
mod paddlecrook;

use paddlecrook::{Extractor, ForeignNode, Kind, List, Node};

/// A list of symbols, with their nodes. Two such lists number their rows alike, so that a row's number tells nothing.
fn symbols<const N: usize>(names: [&str; N]) -> (List, [Node; N]) {
    let mut list = List::new();
    let nodes = names.map(|name| list.symbol(name));
    (list, nodes)
}

/// Neither function takes the node, wherever it stands among nodes of the list, and the list stays as it was.
fn refused(list: &mut List, own: Node, foreign: Node) {
    let before = list.clone();
    for kind in Kind::ALL {
        for (count, place) in [(1, 0), (2, 0), (2, 1), (3, 1), (4, 3)] {
            let mut operands = vec![own; count];
            operands[place] = foreign;
            assert_eq!(list.operation(kind, &operands), Err(ForeignNode), "{kind:?}");
        }
    }
    assert_eq!(list.root(foreign), Err(ForeignNode));
    assert_eq!(*list, before);
    // what belongs to it is taken as ever
    assert!(list.operation(Kind::Sin, &[own]).is_ok() && list.root(own).is_ok());
}

fn text(list: &List) -> String {
    Extractor::new().extract(list).expect("an answer").print().expect("a text")
}

#[test]
fn a_node_of_another_list_is_refused() {
    let (mut one, [a, _]) = symbols(["a", "b"]);
    let (mut other, [c, d]) = symbols(["c", "d"]);
    // rows that the lists have both, one that only the other has, and the other way round
    let far = (0..9).fold(d, |n, _| other.operation(Kind::Sin, &[n]).expect("its own node"));
    for foreign in [c, d, far] {
        refused(&mut one, a, foreign);
    }
    refused(&mut other, c, a);
}

#[test]
fn every_way_to_a_list_makes_one_of_its_own() {
    let (mut list, [a]) = symbols(["a"]);
    let sheet = List::from_sheet(b"Sym,a\r\nRoot,0\r\n").expect("a sheet");
    for mut made in [List::new(), List::default(), sheet.clone(), sheet] {
        let own = made.symbol("b");
        refused(&mut made, own, a);
        refused(&mut list, a, own);
    }
    // a list that is moved takes its nodes with it, and what is left is another
    let mut moved = std::mem::take(&mut list);
    let own = list.symbol("a");
    refused(&mut list, own, a);
    refused(&mut moved, a, own);
}

#[test]
fn a_clone_has_the_nodes_made_before() {
    let (mut list, [a, b]) = symbols(["a", "b"]);
    let sum = list.operation(Kind::Add, &[a, b]).expect("its own nodes");
    let mut clone = list.clone();
    // from here on the two rows of one number differ
    let sine = list.operation(Kind::Sin, &[sum]).expect("its own node");
    let cosine = clone.operation(Kind::Cos, &[sum]).expect("a node of both");
    for (l, n) in [(&mut list, sine), (&mut clone, cosine)] {
        l.root(n).expect("its own node");
        l.root(a).expect("a node of both");
    }
    assert_eq!([text(&list), text(&clone)], ["sin(a + b)\na\n", "cos(a + b)\na\n"]);
    refused(&mut list, sum, cosine);
    refused(&mut clone, sum, sine);
}

#[test]
fn a_clone_of_a_clone_has_the_nodes_of_both() {
    let (mut first, [a]) = symbols(["a"]);
    let mut second = first.clone();
    let b = second.symbol("b");
    let late = first.symbol("late");
    let mut third = second.clone();
    let after = second.symbol("after");
    drop(second);
    let product = third.operation(Kind::Mul, &[a, b]).expect("nodes from before");
    third.root(product).expect("its own node");
    assert_eq!(text(&third), "a * b\n");
    for foreign in [late, after] {
        refused(&mut third, a, foreign);
    }
    for foreign in [b, after, product] {
        refused(&mut first, a, foreign);
    }
}

#[test]
fn lists_are_equal_by_what_they_hold() {
    let (mut one, [a]) = symbols(["a"]);
    let (other, _) = symbols(["a"]);
    assert_eq!(one, other);
    one.root(a).expect("its own node");
    assert_ne!(one, other);
    assert_eq!(one.clone(), one);
}

#[test]
fn the_error_says_what_is_wrong() {
    let error: Box<dyn std::error::Error + Send + Sync> = Box::new(ForeignNode);
    assert_eq!(error.to_string(), "the node belongs to another list than the one that it is given to");
}
