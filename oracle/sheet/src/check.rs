//! Refusals 1 to 7 and 31 to 33, read forward as docs/RULES.md tells them: the lines first, then the walk of the tree.
//!
//! `check` stops at the first thing that is wrong. (The crate `judge` reads the same rules the other way round: it
//! lists all that is wrong and takes the least.)

use crate::{kind, Node, Refusal, MAX_ATTRS, MAX_BYTES, MAX_DEPTH, MAX_NODES};

/// The nodes of an accepted sheet, or the refusal with its place.
pub fn check(bytes: &[u8]) -> Result<Vec<Node>, Refusal> {
    if bytes.len() > MAX_BYTES {
        return refuse(1, 0);
    }
    let nodes = read(bytes)?;
    walk(&nodes)?;
    Ok(nodes)
}

fn refuse<T>(number: u32, place: usize) -> Result<T, Refusal> {
    // A place is at most the length of the longest sheet, so it fits.
    Err(Refusal { number, place: place as u32 })
}

// ---- The lines: refusals 2, 3 and 31 to 33

// The refusals of a value that has its form and is wrong, by its line.
/// On `nodes=`, `kind=` and `kids=`.
const VALUE: u32 = 3;
/// On `flag=`.
const FLAG: u32 = 31;
/// On `text=`.
const TEXT: u32 = 32;
/// On `from=` and `to=`.
const RANGE: u32 = 33;

/// The line reader: the sheet, the place of the next line, and the place of the line just read.
struct Lines<'a> {
    bytes: &'a [u8],
    next: usize,
    line: usize,
}

/// A decimal number. One of more than ten digits is over every limit, and which one no longer matters.
#[derive(Clone, Copy)]
enum Decimal {
    Small(u64),
    Huge,
}

impl Decimal {
    fn at_most(self, limit: u64) -> Option<u64> {
        match self {
            Decimal::Small(value) if value <= limit => Some(value),
            _ => None,
        }
    }
}

impl<'a> Lines<'a> {
    /// The value of the next line, which must begin with the key and have its end.
    fn value(&mut self, key: &str) -> Result<&'a [u8], Refusal> {
        self.line = self.next;
        let rest = &self.bytes[self.next..];
        let Some(end) = rest.iter().position(|&byte| byte == b'\n') else {
            return self.malformed();
        };
        let Some(value) = rest[..end].strip_prefix(key.as_bytes()) else {
            return self.malformed();
        };
        self.next += end + 1;
        Ok(value)
    }

    fn malformed<T>(&self) -> Result<T, Refusal> {
        refuse(2, self.line)
    }

    fn outside<T>(&self, number: u32) -> Result<T, Refusal> {
        refuse(number, self.line)
    }

    fn decimal(&self, digits: &[u8]) -> Result<Decimal, Refusal> {
        let leading_zero = digits.len() > 1 && digits[0] == b'0';
        if digits.is_empty() || leading_zero || !digits.iter().all(u8::is_ascii_digit) {
            return self.malformed();
        }
        if digits.len() > 10 {
            return Ok(Decimal::Huge);
        }
        Ok(Decimal::Small(digits.iter().fold(0, |sum, digit| sum * 10 + u64::from(digit - b'0'))))
    }

    /// The number of the next line, which is to be from `least` to `most`, or else is refused with `outside`.
    fn number(&mut self, key: &str, least: u64, most: u64, outside: u32) -> Result<u64, Refusal> {
        let digits = self.value(key)?;
        match self.decimal(digits)?.at_most(most) {
            Some(value) if value >= least => Ok(value),
            _ => self.outside(outside),
        }
    }

    fn kids(&mut self, nodes: u64) -> Result<Vec<Option<u32>>, Refusal> {
        let list = self.value("kids=")?;
        if list.is_empty() {
            return Ok(Vec::new());
        }
        // The form of the whole line comes before the range of any number on it.
        let mut kids = Vec::new();
        for item in list.split(|&byte| byte == b',') {
            kids.push(if item == b"-" { None } else { Some(self.decimal(item)?) });
        }
        let mut numbers = Vec::new();
        for kid in kids {
            match kid {
                None => numbers.push(None),
                Some(number) => match number.at_most(nodes - 1) {
                    Some(value) => numbers.push(Some(value as u32)),
                    None => return self.outside(VALUE),
                },
            }
        }
        Ok(numbers)
    }

    fn text(&mut self) -> Result<Vec<u8>, Refusal> {
        let digits = self.value("text=")?;
        if digits.len() % 2 == 1 {
            return self.malformed();
        }
        let mut text = Vec::with_capacity(digits.len() / 2);
        for pair in digits.chunks(2) {
            match (nibble(pair[0]), nibble(pair[1])) {
                (Some(high), Some(low)) => text.push(16 * high + low),
                _ => return self.malformed(),
            }
        }
        Ok(text)
    }
}

fn nibble(digit: u8) -> Option<u8> {
    match digit {
        b'0'..=b'9' => Some(digit - b'0'),
        b'a'..=b'f' => Some(digit - b'a' + 10),
        _ => None,
    }
}

fn read(bytes: &[u8]) -> Result<Vec<Node>, Refusal> {
    let mut lines = Lines { bytes, next: 0, line: 0 };
    let count = lines.number("nodes=", 1, MAX_NODES as u64, VALUE)?;
    let mut nodes = Vec::new();
    for i in 0..count {
        nodes.push(read_node(&mut lines, i, count)?);
    }
    if lines.next < bytes.len() {
        return refuse(2, lines.next);
    }
    Ok(nodes)
}

fn read_node(lines: &mut Lines, own: u64, count: u64) -> Result<Node, Refusal> {
    let (least, most) = if own == 0 { (21, 21) } else { (1, 33) };
    let kind = lines.number("kind=", least, most, VALUE)? as u8;
    let from = lines.number("from=", 0, u64::from(u32::MAX), RANGE)?;
    let to = lines.number("to=", from, u64::from(u32::MAX), RANGE)?;
    let flag = lines.number("flag=", 0, u64::from(highest_flag(kind)), FLAG)? as u8;
    let kids = lines.kids(count)?;
    let text = lines.text()?;
    if !text_fits(kind, flag, &text) {
        return lines.outside(TEXT);
    }
    Ok(Node { kind, from: from as u32, to: to as u32, flag, kids, text })
}

/// "A flag or text not named is 0 or empty."
fn highest_flag(kind: u8) -> u8 {
    match kind {
        kind::BIN_OP => 15,
        kind::UNARY_OP => 2,
        kind::FLOAT | kind::ATTR_SET | kind::IDENT | kind::PATTERN => 1,
        _ => 0,
    }
}

fn text_fits(kind: u8, flag: u8, text: &[u8]) -> bool {
    match (kind, flag) {
        (kind::PATH | kind::LITERAL_PART, _) | (kind::IDENT, 1) => true,
        (kind::FLOAT, 1) => <[u8; 8]>::try_from(text).is_ok_and(|bits| u64::from_be_bytes(bits) <= 0x7ff0_0000_0000_0000),
        (kind::INTEGER, _) => !text.is_empty() && text.iter().all(u8::is_ascii_digit),
        _ => text.is_empty(),
    }
}

// ---- The walk: refusals 4 to 7

/// What a place takes.
#[derive(Clone, Copy, PartialEq)]
enum Slot {
    Expression,
    Path,
    Attribute,
    Entry,
    Part,
    Parameter,
    From,
    Ident,
    Bind,
    PatternEntry,
}

fn takes(slot: Slot, kind: u8) -> bool {
    match slot {
        Slot::Expression => (1..=22).contains(&kind),
        Slot::Path => kind == kind::ATTRPATH,
        Slot::Attribute => matches!(kind, kind::STR | kind::IDENT | kind::DYNAMIC),
        Slot::Entry => matches!(kind, kind::ATTRPATH_VALUE | kind::INHERIT),
        Slot::Part => matches!(kind, kind::LITERAL_PART | kind::INTERPOLATION),
        Slot::Parameter => matches!(kind, kind::IDENT_PARAM | kind::PATTERN),
        Slot::From => kind == kind::INHERIT_FROM,
        Slot::Ident => kind == kind::IDENT,
        Slot::Bind => kind == kind::PAT_BIND,
        Slot::PatternEntry => kind == kind::PAT_ENTRY,
    }
}

/// The counted places of a kind, which may be absent, and what a list after them takes, if there is one.
fn places(kind: u8) -> (&'static [Slot], Option<Slot>) {
    use Slot::*;
    match kind {
        kind::APPLY | kind::WITH | kind::BIN_OP | kind::ASSERT => (&[Expression, Expression], None),
        kind::IF_ELSE => (&[Expression, Expression, Expression], None),
        kind::SELECT => (&[Expression, Path, Expression], None),
        kind::HAS_ATTR => (&[Expression, Path], None),
        kind::STR | kind::PATH => (&[], Some(Part)),
        kind::LAMBDA => (&[Parameter, Expression], None),
        kind::LET_IN => (&[Expression], Some(Entry)),
        kind::LIST => (&[], Some(Expression)),
        kind::PAREN | kind::UNARY_OP | kind::ROOT => (&[Expression], None),
        kind::ATTR_SET => (&[], Some(Entry)),
        kind::ATTRPATH => (&[], Some(Attribute)),
        kind::DYNAMIC | kind::INHERIT_FROM | kind::INTERPOLATION => (&[Expression], None),
        kind::ATTRPATH_VALUE => (&[Path, Expression], None),
        kind::INHERIT => (&[From], Some(Attribute)),
        kind::IDENT_PARAM | kind::PAT_BIND => (&[Ident], None),
        kind::PATTERN => (&[Bind], Some(PatternEntry)),
        kind::PAT_ENTRY => (&[Ident, Expression], None),
        _ => (&[], None),
    }
}

fn walk(nodes: &[Node]) -> Result<(), Refusal> {
    let mut highest = 0;
    walk_node(nodes, 0, 1, &mut highest)?;
    if highest + 1 < nodes.len() {
        return refuse(7, highest + 1);
    }
    Ok(())
}

/// Walks a node at its depth. `highest` is the highest node met: met nodes are always those from 0 up to it.
fn walk_node(nodes: &[Node], own: usize, depth: usize, highest: &mut usize) -> Result<(), Refusal> {
    let node = &nodes[own];
    let (counted, list) = places(node.kind);
    let most = match (list, node.kind) {
        (None, _) => counted.len(),
        (Some(_), kind::ATTRPATH) => MAX_ATTRS,
        (Some(_), _) => usize::MAX,
    };
    if node.kids.len() < counted.len() || node.kids.len() > most {
        return refuse(4, own);
    }
    for (i, kid) in node.kids.iter().enumerate() {
        let slot = counted.get(i).copied().or(list);
        match kid {
            None if i < counted.len() => {}
            None => return refuse(5, own),
            Some(number) => {
                let number = *number as usize;
                if number != *highest + 1 || !slot.is_some_and(|slot| takes(slot, nodes[number].kind)) {
                    return refuse(5, own);
                }
                if depth >= MAX_DEPTH {
                    return refuse(6, own);
                }
                *highest = number;
                walk_node(nodes, number, depth + 1, highest)?;
            }
        }
    }
    Ok(())
}
