//! Load as the paper has it (01, "Expressions and facts", "Sheet and printing", "Turned down":
//! Load), read from the paper, and from DECISIONS.md where it settles an open point. Nothing here
//! is taken from the Rattle code.

/// The words of a node's row: kind, default, count of fields, and 32 fields.
pub const WIDTH: usize = 35;
pub const ROWS: usize = 1024;
pub const ROOTS: usize = 64;
pub const BYTES: usize = 65_535;
const OCCURRENCES: u64 = 1024;
const NESTING: u64 = 8;

const SYM: usize = 0;
const CONST: usize = 1;
const BRANCH: usize = 26;
const SELECT: usize = 27;

/// The kinds as 01 lists them, with the fewest and the most fields of their records.
pub const KINDS: [(&str, usize, usize); 28] = [
    ("Sym", 1, 1),
    ("Const", 1, 1),
    ("Neg", 1, 1),
    ("Add", 2, 2),
    ("Sub", 2, 2),
    ("Mul", 2, 2),
    ("Div", 2, 2),
    ("Pow", 2, 2),
    ("Sin", 1, 1),
    ("Cos", 1, 1),
    ("Tan", 1, 1),
    ("Asin", 1, 1),
    ("Acos", 1, 1),
    ("Atan", 1, 1),
    ("Atan2", 2, 2),
    ("Sinh", 1, 1),
    ("Cosh", 1, 1),
    ("Tanh", 1, 1),
    ("Exp", 1, 1),
    ("Ln", 1, 1),
    ("Log2", 1, 1),
    ("Log10", 1, 1),
    ("Sqrt", 1, 1),
    ("Abs", 1, 1),
    ("Heaviside", 1, 1),
    ("Clamp", 3, 3),
    ("Branch", 3, 3),
    ("Select", 2, 17),
];

/// 01's number, and the record.
#[derive(Clone, Copy, Debug, PartialEq, Eq)]
pub struct Refused {
    pub number: u64,
    pub record: u64,
}

/// A node: its kind, whether it has a default, and its fields as words.
pub struct Node {
    kind: usize,
    default: bool,
    fields: Vec<u64>,
}

#[derive(Default)]
pub struct Table {
    pub nodes: Vec<Node>,
    pub roots: Vec<u64>,
}

/// Load, given how many words the row table and how many places the root list has.
pub fn load(words: usize, places: usize, sheet: &[u8]) -> Result<Table, Refused> {
    let before = |number| Err(Refused { number, record: 0 });
    if words / WIDTH < ROWS || places < ROOTS {
        return before(7);
    }
    if sheet.is_empty() {
        return before(1);
    }
    if sheet.len() > BYTES {
        return before(6);
    }
    let mut table = Table::default();
    let mut record = 0;
    for bytes in records(sheet) {
        let read = table.read(bytes);
        read.map_err(|number| Refused { number, record })?;
        record += 1;
    }
    if table.occurrences() > OCCURRENCES || table.nesting() > NESTING {
        return Err(Refused { number: 6, record });
    }
    Ok(table)
}

/// CRLF ends a record, and may be missing after the last.
pub fn records(sheet: &[u8]) -> Vec<&[u8]> {
    let mut found = Vec::new();
    let mut rest = sheet;
    while !rest.is_empty() {
        let end = rest.windows(2).position(|w| w == b"\r\n");
        found.push(&rest[..end.unwrap_or(rest.len())]);
        rest = end.map_or(&[], |end| &rest[end + 2..]);
    }
    found
}

impl Table {
    /// One record more, or the number that it is refused by: 2 over all its fields, then 3 or 4,
    /// then 5, then 6.
    fn read(&mut self, record: &[u8]) -> Result<(), u64> {
        if record.iter().any(|b| b"\"\r\n".contains(b)) {
            return Err(2);
        }
        let mut fields = record.split(|b| *b == b',');
        let word = fields.next().ok_or(2u64)?;
        let fields: Vec<&[u8]> = fields.collect();
        let read = self.fields(word, &fields)?;
        match read {
            Some(node) if self.nodes.len() < ROWS => self.nodes.push(node),
            None if self.roots.len() < ROOTS => self.roots.push(number(fields[0]).ok_or(2u64)?),
            _ => return Err(6),
        }
        Ok(())
    }

    /// A record's node, or none for a root.
    fn fields(&self, word: &[u8], fields: &[&[u8]]) -> Result<Option<Node>, u64> {
        if word == b"Root" {
            if fields.len() != 1 {
                return Err(2);
            }
            self.operands(fields)?;
            return Ok(None);
        }
        // a Select with a default has a word of its own, and one field more
        let default = word == b"SelectOr";
        let name = if default { b"Select" } else { word };
        let kind = KINDS.iter().position(|k| k.0.as_bytes() == name);
        let kind = kind.ok_or(2u64)?;
        let (_, fewest, most) = KINDS[kind];
        let more = usize::from(default);
        if fields.len() < fewest + more || fields.len() > most + more {
            return Err(2);
        }
        let fields = match kind {
            SYM if is_name(fields[0]) => fields[0].iter().map(|b| u64::from(*b)).collect(),
            SYM => return Err(3),
            CONST => constant(fields[0]).ok_or(4u64)?,
            _ => self.operands(fields)?,
        };
        Ok(Some(Node {
            kind,
            default,
            fields,
        }))
    }

    /// Node numbers: each of the right form, or 2, and then each an earlier node's, or 5.
    fn operands(&self, fields: &[&[u8]]) -> Result<Vec<u64>, u64> {
        let numbers: Option<Vec<u64>> = fields.iter().map(|f| number(f)).collect();
        let numbers = numbers.ok_or(2u64)?;
        if numbers.iter().any(|n| *n >= self.nodes.len() as u64) {
            return Err(5);
        }
        Ok(numbers)
    }

    /// Over all roots, a shared node counted once for each path.
    fn occurrences(&self) -> u64 {
        let mut counts: Vec<u64> = Vec::new();
        for node in &self.nodes {
            let below = node.operands().map(|n| counts[n]);
            counts.push(below.fold(1, |sum, n| sum.saturating_add(n)));
        }
        let roots = self.roots.iter().map(|n| counts[*n as usize]);
        roots.fold(0, |sum, n| sum.saturating_add(n))
    }

    /// How many arms and sides stand one in another on some path from a root. All operands of
    /// Select and Branch after the first are arms or sides.
    fn nesting(&self) -> u64 {
        let mut depths: Vec<u64> = Vec::new();
        for node in &self.nodes {
            let switch = node.kind == SELECT || node.kind == BRANCH;
            let inside = |i: usize| u64::from(switch && i > 0);
            let below = node.operands().enumerate();
            depths.push(below.map(|(i, n)| depths[n] + inside(i)).max().unwrap_or(0));
        }
        let roots = self.roots.iter().map(|n| depths[*n as usize]);
        roots.max().unwrap_or(0)
    }

    /// The rows as they are laid out: words that a row doesn't use are 0.
    pub fn words(&self) -> Vec<u64> {
        let mut words = vec![0; WIDTH * self.nodes.len()];
        for (row, node) in words.chunks_mut(WIDTH).zip(&self.nodes) {
            row[0] = node.kind as u64;
            row[1] = u64::from(node.default);
            row[2] = node.fields.len() as u64;
            row[3..3 + node.fields.len()].copy_from_slice(&node.fields);
        }
        words
    }
}

impl Node {
    fn operands(&self) -> impl Iterator<Item = usize> {
        let fields = if self.kind <= CONST {
            &[]
        } else {
            &self.fields[..]
        };
        fields.iter().map(|n| *n as usize)
    }
}

/// Decimal digits without leading zeros. One of more than 18 digits is no node's number, and
/// neither is the largest u64 that stands for it.
fn number(field: &[u8]) -> Option<u64> {
    let digits = !field.is_empty() && field.iter().all(u8::is_ascii_digit);
    if !digits || field.len() > 1 && field[0] == b'0' {
        return None;
    }
    if field.len() > 18 {
        return Some(u64::MAX);
    }
    let digit = |b: &u8| u64::from(b - b'0');
    Some(field.iter().fold(0, |n, b| n * 10 + digit(b)))
}

/// Sign and size of an integer of magnitude below 10^15: a minus sign or none, no leading zeros,
/// no minus zero.
fn constant(field: &[u8]) -> Option<Vec<u64>> {
    let minus = field.first() == Some(&b'-');
    let size = number(&field[usize::from(minus)..])?;
    let good = size < 10u64.pow(15) && !(minus && size == 0);
    good.then(|| vec![u64::from(minus), size])
}

/// 1 to 32 bytes: a letter or an underscore, then letters, digits, underscores; not `__x` or
/// `__m` followed only by one or more digits.
fn is_name(name: &[u8]) -> bool {
    let letter = |b: &u8| b.is_ascii_alphabetic() || *b == b'_';
    let formed = matches!(name, [first, rest @ ..]
        if letter(first) && rest.iter().all(|b| letter(b) || b.is_ascii_digit()));
    let made = matches!(name, [b'_', b'_', b'x' | b'm', digits @ ..]
        if !digits.is_empty() && digits.iter().all(u8::is_ascii_digit));
    name.len() <= 32 && formed && !made
}
