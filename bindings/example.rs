//! Extracts the common subexpressions of the paper's sheet and of a list that is made node by node, and shows a refusal.
mod paddlecrook;

use paddlecrook::{Extractor, Kind, List, Statement, Tree};

const SHEET: &str = "Sym,a\r\nSym,b\r\nAdd,0,1\r\nSym,c\r\nMul,2,3\r\nSin,2\r\nRoot,4\r\nRoot,5\r\n";

const SWITCHES: &str = "Sym,i\r\nSym,a\r\nSym,b\r\nAdd,1,2\r\nSin,3\r\nCos,3\r\nMul,4,5\r\nSelect,0,6,1\r\nSelect,0,2,1\r\nRoot,7\r\nRoot,8\r\n";

fn main() -> Result<(), Box<dyn std::error::Error>> {
    let mut extractor = Extractor::new();

    // a sheet, and its answer as text
    let sheet = List::from_sheet(SHEET.as_bytes())?;
    let answer = extractor.extract(&sheet)?;
    print!("{}", answer.print()?);
    println!("{} extracted", answer.extracted());

    // sin(x / n) and cos(x / n), and the answer taken apart
    let mut list = List::new();
    let [x, n] = ["x", "n"].map(|name| list.symbol(name));
    let quotient = list.operation(Kind::Div, &[x, n])?;
    for kind in [Kind::Sin, Kind::Cos] {
        let root = list.operation(kind, &[quotient])?;
        list.root(root)?;
    }
    let code = extractor.extract(&list)?.code();
    let divided = vec![Tree::Symbol("x".to_string()), Tree::Symbol("n".to_string())];
    assert_eq!(code.statements, [Statement::Let("__x0".to_string(), Tree::Operation(Kind::Div, divided))]);
    for result in &code.results {
        println!("{result:?}");
    }

    // two switches on one key are one match in the scoped form, and what only an arm needs is computed there
    let sheet = List::from_sheet(SWITCHES.as_bytes())?;
    print!("{}", extractor.extract_scoped(&sheet)?.print()?);

    // refused: a node that isn't there yet, a constant that is too large, and a name that is too long
    println!("{}", List::from_sheet(b"Sym,a\r\nSin,1\r\n").unwrap_err());
    let mut large = List::new();
    large.constant(1_000_000_000_000_000);
    let mut long = List::new();
    long.symbol("a_name_of_more_bytes_than_32_bytes");
    for list in [large, long] {
        println!("{}", extractor.extract(&list).unwrap_err());
    }
    Ok(())
}
