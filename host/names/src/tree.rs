//! The nodes of a sheet that was accepted. The store keeps what names mean; where an inherit begins and which keys are
//! written again only the sheet tells, and a rename in the Nix text wants both.

use lang_ast::Pointer;

pub mod kind {
    pub const STR: u32 = 6;
    pub const LET_IN: u32 = 12;
    pub const PAREN: u32 = 15;
    pub const ATTR_SET: u32 = 16;
    pub const IDENT: u32 = 18;
    pub const ATTRPATH: u32 = 23;
    pub const DYNAMIC: u32 = 24;
    pub const ATTRPATH_VALUE: u32 = 25;
    pub const INHERIT: u32 = 26;
    pub const LITERAL_PART: u32 = 32;
}

/// A node as docs/SHEET.md has it.
#[derive(Debug, Clone, PartialEq, Eq)]
pub struct Node {
    pub pointer: Pointer,
    pub kids: Vec<Option<usize>>,
    pub text: Vec<u8>,
}

/// The nodes by their numbers.
#[derive(Debug, Clone, Default)]
pub struct Tree {
    nodes: Vec<Node>,
}

impl Tree {
    /// The nodes of a sheet. Of one that a load refuses, those before the first line that can't be read.
    pub fn read(sheet: &[u8]) -> Self {
        let lines: Vec<&[u8]> = sheet.split(|&byte| byte == b'\n').skip(1).collect();
        Tree { nodes: lines.chunks_exact(6).map_while(node).collect() }
    }

    pub fn nodes(&self) -> impl Iterator<Item = (usize, &Node)> {
        self.nodes.iter().enumerate()
    }

    pub fn node(&self, number: usize) -> Option<&Node> {
        self.nodes.get(number)
    }

    /// A node's kids from a place on, without absent ones.
    pub fn kids<'a>(&'a self, node: &'a Node, first: usize) -> impl Iterator<Item = (usize, &'a Node)> {
        node.kids.iter().skip(first).flatten().filter_map(|&kid| Some((kid, self.node(kid)?)))
    }

    /// The kid at a counted place.
    pub fn kid(&self, node: &Node, place: usize) -> Option<&Node> {
        self.node((*node.kids.get(place)?)?)
    }

    /// The Inherit that has an attribute with this pointer.
    pub fn inherit_with(&self, attribute: Pointer) -> Option<&Node> {
        let inherits = self.nodes.iter().filter(|node| node.pointer.kind == kind::INHERIT);
        inherits.into_iter().find(|inherit| self.kids(inherit, 1).any(|(_, kid)| kid.pointer == attribute))
    }

    /// The key that an attribute is, where it is known without an evaluation: a name, or a string without
    /// interpolation.
    pub fn key(&self, attribute: &Node) -> Option<Vec<u8>> {
        match attribute.pointer.kind {
            kind::IDENT => Some(attribute.text.clone()),
            kind::STR => self.string(attribute),
            kind::DYNAMIC => {
                let mut inside = self.kid(attribute, 0)?;
                while inside.pointer.kind == kind::PAREN {
                    inside = self.kid(inside, 0)?;
                }
                (inside.pointer.kind == kind::STR).then(|| self.string(inside))?
            }
            _ => None,
        }
    }

    fn string(&self, string: &Node) -> Option<Vec<u8>> {
        match string.kids[..] {
            [] => Some(Vec::new()),
            [Some(part)] => self.node(part).filter(|part| part.pointer.kind == kind::LITERAL_PART).map(|part| part.text.clone()),
            _ => None,
        }
    }
}

/// The node of six lines: kind, from, to, flag, kids, text.
fn node(lines: &[&[u8]]) -> Option<Node> {
    let [kind, from, to, _flag, kids, text] = lines else { return None };
    let pointer = Pointer::new(number(kind, "kind=")?, number(from, "from=")?, number(to, "to=")?);
    let kids = std::str::from_utf8(kids.strip_prefix(b"kids=")?).ok()?;
    let kids = kids.split(',').filter(|kid| !kid.is_empty()).map(|kid| kid.parse().ok()).collect();
    Some(Node { pointer, kids, text: bytes(text.strip_prefix(b"text=")?)? })
}

fn number(line: &[u8], key: &str) -> Option<u32> {
    std::str::from_utf8(line.strip_prefix(key.as_bytes())?).ok()?.parse().ok()
}

/// The bytes of a text in hex, two digits a byte.
pub fn bytes(hex: &[u8]) -> Option<Vec<u8>> {
    if hex.len() % 2 == 1 {
        return None;
    }
    let digit = |byte: u8| char::from(byte).to_digit(16);
    hex.chunks_exact(2).map(|pair| u8::try_from(16 * digit(pair[0])? + digit(pair[1])?).ok()).collect()
}

#[cfg(test)]
mod tests {
    use super::*;

    #[test]
    fn the_nodes_of_a_sheet_are_read() {
        let tree = Tree::read(include_bytes!("../../../examples/lambda.sheet"));
        let nodes: Vec<(u32, Vec<u8>)> = tree.nodes().map(|(_, node)| (node.pointer.kind, node.text.clone())).collect();
        assert_eq!(nodes, [(21, vec![]), (11, vec![]), (28, vec![]), (18, b"x".to_vec()), (18, b"x".to_vec())]);
        assert_eq!(tree.node(1).map(|node| node.kids.clone()), Some(vec![Some(2), Some(4)]));
    }

    #[test]
    fn what_is_no_sheet_has_no_nodes() {
        for bytes in [b"".as_slice(), b"nodes=1\nkind=x\n", b"nodes=1\n\n\n\n\n\n\n\n", b"\xff\n\xff\n"] {
            assert_eq!(Tree::read(bytes).nodes().count(), 0);
        }
    }
}
