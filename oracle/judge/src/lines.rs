//! The rules of single lines: refusal 2 for a line's key, form and end, refusals 3 and 31 to 33 for its value.

use crate::{grammar, Cause, Line, Order, Violation};
use sheet::Node;

/// A line as it is found: where it begins, its bytes without the line end, and whether the line end is there.
struct Found<'a> {
    start: usize,
    bytes: &'a [u8],
    ended: bool,
}

/// The lines of a sheet by number: `nodes=` is line 0, and node n's six begin at line 6n + 1.
struct Lines<'a> {
    found: Vec<Found<'a>>,
    length: usize,
}

/// The nodes of a sheet whose lines break no rule, or all that the lines break.
pub fn nodes(bytes: &[u8]) -> Result<Vec<Node>, Vec<Violation>> {
    let lines = Lines::new(bytes);
    let count = lines.count().map_err(|violation| vec![violation])?;
    let formal = (0..count).flat_map(|node| Line::OF_NODE.map(|line| lines.formal_fault(line, node)));
    let valued = (0..count).flat_map(|node| Line::OF_NODE.map(|line| lines.value_fault(line, node, count)));
    let violations: Vec<_> = formal.chain(valued).flatten().chain(lines.trailing(count)).collect();
    if violations.is_empty() {
        Ok((0..count).filter_map(|node| lines.node(node)).collect())
    } else {
        Err(violations)
    }
}

impl<'a> Lines<'a> {
    fn new(bytes: &'a [u8]) -> Self {
        let mut found = Vec::new();
        let mut start = 0;
        for piece in bytes.split_inclusive(|&byte| byte == b'\n') {
            let ended = piece.ends_with(b"\n");
            found.push(Found { start, bytes: &piece[..piece.len() - usize::from(ended)], ended });
            start += piece.len();
        }
        Lines { found, length: bytes.len() }
    }

    /// What `nodes=` says, or its violation.
    fn count(&self) -> Result<usize, Violation> {
        if let Some(violation) = self.formal_fault(Line::Nodes, 0) {
            return Err(violation);
        }
        let value = self.number(Line::Nodes, 0).unwrap_or(0);
        let count = usize::try_from(value).unwrap_or(usize::MAX);
        if (1..=sheet::MAX_NODES).contains(&count) {
            Ok(count)
        } else {
            Err(Violation::new(Order::Line { line: 0, check: 3 }, 0, Cause::NodesRange))
        }
    }

    fn place(&self, line: usize) -> usize {
        self.found.get(line).map_or(self.length, |found| found.start)
    }

    /// The violation of refusal 2 by this line of this node.
    fn formal_fault(&self, line: Line, node: usize) -> Option<Violation> {
        let number = line_number(line, node);
        let cause = match self.found.get(number) {
            None => Some(Cause::MissingLine(line)),
            Some(found) => match found.bytes.strip_prefix(line.key()) {
                None => Some(Cause::WrongKey(line)),
                Some(value) if !has_form(line, value) => Some(Cause::BadForm(line)),
                Some(_) if !found.ended => Some(Cause::NoLineEnd(line)),
                Some(_) => None,
            },
        };
        cause.map(|cause| Violation::new(Order::Line { line: number, check: 2 }, self.place(number), cause))
    }

    /// Bytes after the last line of the last node.
    fn trailing(&self, count: usize) -> Option<Violation> {
        let line = line_number(Line::Kind, count);
        let found = self.found.get(line)?;
        Some(Violation::new(Order::Line { line, check: 2 }, found.start, Cause::Trailing))
    }

    /// The wrong value of this line of this node: refusal 3 or 31 to 33. A line without its form has no value, and a
    /// value that another line is needed for is only judged where that line is in order: that line comes first and
    /// decides by itself.
    fn value_fault(&self, line: Line, node: usize, count: usize) -> Option<Violation> {
        let cause = match line {
            Line::Nodes => None,
            Line::Kind => self.kind_fault(node),
            Line::From => self.above(Line::From, node, u64::from(u32::MAX), Cause::FromRange),
            Line::To => self.to_fault(node),
            Line::Flag => self.kind(node).and_then(|kind| {
                let (family, most) = grammar::flag_family(kind);
                self.above(Line::Flag, node, most, Cause::FlagRule(family))
            }),
            Line::Kids => self.kids(node)?.iter().flatten().any(|&kid| kid >= count as u64).then_some(Cause::KidRange),
            Line::Text => {
                let text = self.text(node)?;
                grammar::text_fault(self.kind(node)?, self.number(Line::Flag, node)?, &text).map(Cause::TextRule)
            }
        }?;
        let number = line_number(line, node);
        Some(Violation::new(Order::Line { line: number, check: 3 }, self.place(number), cause))
    }

    fn above(&self, line: Line, node: usize, most: u64, cause: Cause) -> Option<Cause> {
        (self.number(line, node)? > most).then_some(cause)
    }

    fn kind_fault(&self, node: usize) -> Option<Cause> {
        match self.number(Line::Kind, node)? {
            0 => Some(Cause::KindRange),
            kind if kind > u64::from(grammar::KINDS) => Some(Cause::KindRange),
            kind => (node == 0 && kind != u64::from(sheet::kind::ROOT)).then_some(Cause::RootKind),
        }
    }

    fn to_fault(&self, node: usize) -> Option<Cause> {
        let to = self.number(Line::To, node)?;
        let out_of_range = (to > u64::from(u32::MAX)).then_some(Cause::ToRange);
        out_of_range.or_else(|| (self.number(Line::From, node)? > to).then_some(Cause::FromAboveTo))
    }

    /// The bytes after the key, where the line is there and has its key and form.
    fn value(&self, line: Line, node: usize) -> Option<&'a [u8]> {
        let value = self.found.get(line_number(line, node))?.bytes.strip_prefix(line.key())?;
        has_form(line, value).then_some(value)
    }

    fn number(&self, line: Line, node: usize) -> Option<u64> {
        self.value(line, node).map(decimal)
    }

    /// The kind where it is one.
    fn kind(&self, node: usize) -> Option<u8> {
        u8::try_from(self.number(Line::Kind, node)?).ok().filter(|kind| (1..=grammar::KINDS).contains(kind))
    }

    fn kids(&self, node: usize) -> Option<Vec<Option<u64>>> {
        let value = self.value(Line::Kids, node)?;
        Some(items(value).map(|item| (item != b"-").then(|| decimal(item))).collect())
    }

    fn text(&self, node: usize) -> Option<Vec<u8>> {
        let value = self.value(Line::Text, node)?;
        Some(value.chunks(2).map(|pair| pair.iter().fold(0, |byte, &digit| byte * 16 + hex(digit).unwrap_or(0))).collect())
    }

    fn node(&self, node: usize) -> Option<Node> {
        let kids = self.kids(node)?.into_iter().map(|kid| kid.map(|kid| kid as u32)).collect();
        Some(Node {
            kind: self.kind(node)?,
            from: u32::try_from(self.number(Line::From, node)?).ok()?,
            to: u32::try_from(self.number(Line::To, node)?).ok()?,
            flag: u8::try_from(self.number(Line::Flag, node)?).ok()?,
            kids,
            text: self.text(node)?,
        })
    }
}

fn line_number(line: Line, node: usize) -> usize {
    match Line::OF_NODE.iter().position(|&own| own == line) {
        Some(index) => 6 * node + 1 + index,
        None => 0,
    }
}

fn has_form(line: Line, value: &[u8]) -> bool {
    match line {
        Line::Kids => items(value).all(|item| item == b"-" || is_decimal(item)),
        Line::Text => value.len().is_multiple_of(2) && value.iter().all(|&digit| hex(digit).is_some()),
        _ => is_decimal(value),
    }
}

/// What stands between the commas; nothing at all is no item.
fn items(value: &[u8]) -> impl Iterator<Item = &[u8]> {
    value.split(|&byte| byte == b',').filter(|_| !value.is_empty())
}

/// Digits, and no 0 before another one.
fn is_decimal(value: &[u8]) -> bool {
    value.iter().all(u8::is_ascii_digit) && (value == b"0" || !matches!(value.first(), None | Some(b'0')))
}

/// The value of a decimal; all that are too large for a word are the largest, which is outside every range here.
fn decimal(digits: &[u8]) -> u64 {
    digits.iter().fold(0, |value: u64, &digit| value.saturating_mul(10).saturating_add(u64::from(digit.wrapping_sub(b'0'))))
}

fn hex(digit: u8) -> Option<u8> {
    match digit {
        b'0'..=b'9' => Some(digit - b'0'),
        b'a'..=b'f' => Some(digit - b'a' + 10),
        _ => None,
    }
}
