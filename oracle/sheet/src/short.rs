//! A short notation for trees, for tests and for people: `kind(kids)`, `"text"` after the kind, `!flag`, `-` for an
//! absent kid, and `@from..to` for a pointer of one's own. `21(11(28(18"x"),18"x"))` is `x: x`.
//!
//! An Ident or a Float with a text has flag 1 unless a flag is given. In a text `\xHH` is a byte, `\"` and `\\` are
//! themselves. Where no pointer is given a node goes from its own number to the number after its subtree's last, so
//! that no two nodes have the same.

use crate::{kind, Node};

/// The nodes of a tree in the notation, numbered in preorder; or what is wrong with it.
pub fn parse(notation: &str) -> Result<Vec<Node>, String> {
    let mut reader = Reader { bytes: notation.as_bytes(), at: 0, nodes: Vec::new() };
    reader.node(0)?;
    reader.blanks();
    if reader.at < reader.bytes.len() {
        return Err(format!("column {}: something follows the tree", reader.at + 1));
    }
    Ok(reader.nodes)
}

struct Reader<'a> {
    bytes: &'a [u8],
    at: usize,
    nodes: Vec<Node>,
}

impl Reader<'_> {
    fn blanks(&mut self) {
        while self.bytes.get(self.at).is_some_and(u8::is_ascii_whitespace) {
            self.at += 1;
        }
    }

    fn takes(&mut self, byte: u8) -> bool {
        self.blanks();
        let found = self.bytes.get(self.at) == Some(&byte);
        self.at += usize::from(found);
        found
    }

    fn number(&mut self) -> Result<u32, String> {
        let start = self.at;
        while self.bytes.get(self.at).is_some_and(u8::is_ascii_digit) {
            self.at += 1;
        }
        let digits = std::str::from_utf8(&self.bytes[start..self.at]).unwrap_or("");
        digits.parse().map_err(|_| format!("column {}: a number below 4294967296 is wanted here", start + 1))
    }

    fn node(&mut self, depth: usize) -> Result<u32, String> {
        self.blanks();
        if depth > 1_000 {
            return Err("the tree is more than 1000 levels deep".to_string());
        }
        let own = self.nodes.len();
        let kind = u8::try_from(self.number()?).map_err(|_| "a kind is below 256".to_string())?;
        self.nodes.push(Node { kind, from: own as u32, to: 0, flag: 0, kids: Vec::new(), text: Vec::new() });
        let (mut flag, mut pointer) = (None, None);
        loop {
            if self.takes(b'"') {
                self.nodes[own].text = self.text()?;
                if matches!(kind, kind::IDENT | kind::FLOAT) && flag.is_none() {
                    flag = Some(1);
                }
            } else if self.takes(b'!') {
                flag = Some(u8::try_from(self.number()?).map_err(|_| "a flag is below 256".to_string())?);
            } else if self.takes(b'@') {
                let from = self.number()?;
                if !(self.takes(b'.') && self.takes(b'.')) {
                    return Err(format!("column {}: `..` is wanted between from and to", self.at + 1));
                }
                pointer = Some((from, self.number()?));
            } else {
                break;
            }
        }
        if self.takes(b'(') && !self.takes(b')') {
            self.kids(own, depth)?;
        }
        self.nodes[own].flag = flag.unwrap_or(0);
        let (from, to) = pointer.unwrap_or((own as u32, self.nodes.len() as u32));
        self.nodes[own].from = from;
        self.nodes[own].to = to;
        Ok(own as u32)
    }

    fn kids(&mut self, own: usize, depth: usize) -> Result<(), String> {
        loop {
            let kid = if self.takes(b'-') { None } else { Some(self.node(depth + 1)?) };
            self.nodes[own].kids.push(kid);
            if self.takes(b')') {
                return Ok(());
            }
            if !self.takes(b',') {
                return Err(format!("column {}: `,` or `)` is wanted here", self.at + 1));
            }
        }
    }

    /// The text after its opening quote.
    fn text(&mut self) -> Result<Vec<u8>, String> {
        let mut out = Vec::new();
        let unfinished = || "a text without its closing quote".to_string();
        loop {
            let byte = *self.bytes.get(self.at).ok_or_else(unfinished)?;
            self.at += 1;
            match byte {
                b'"' => return Ok(out),
                b'\\' => {
                    let escaped = *self.bytes.get(self.at).ok_or_else(unfinished)?;
                    self.at += 1;
                    if escaped == b'x' {
                        let digits = self.bytes.get(self.at..self.at + 2).ok_or_else(unfinished)?;
                        let digits = std::str::from_utf8(digits).unwrap_or("");
                        out.push(u8::from_str_radix(digits, 16).map_err(|_| format!("column {}: two hex digits are wanted", self.at + 1))?);
                        self.at += 2;
                    } else {
                        out.push(escaped);
                    }
                }
                _ => out.push(byte),
            }
        }
    }
}
