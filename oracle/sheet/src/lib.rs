//! The syntax sheet of docs/RULES.md: its nodes, how they are written as bytes, and a short notation for trees.

pub mod check;
pub mod short;

/// Numbers of the 33 node kinds.
pub mod kind {
    pub const APPLY: u8 = 1;
    pub const IF_ELSE: u8 = 2;
    pub const SELECT: u8 = 3;
    pub const WITH: u8 = 4;
    pub const HAS_ATTR: u8 = 5;
    pub const STR: u8 = 6;
    pub const PATH: u8 = 7;
    pub const FLOAT: u8 = 8;
    pub const INTEGER: u8 = 9;
    pub const URI: u8 = 10;
    pub const LAMBDA: u8 = 11;
    pub const LET_IN: u8 = 12;
    pub const LIST: u8 = 13;
    pub const BIN_OP: u8 = 14;
    pub const PAREN: u8 = 15;
    pub const ATTR_SET: u8 = 16;
    pub const UNARY_OP: u8 = 17;
    pub const IDENT: u8 = 18;
    pub const ASSERT: u8 = 19;
    pub const ERROR: u8 = 20;
    pub const ROOT: u8 = 21;
    pub const LEGACY_LET: u8 = 22;
    pub const ATTRPATH: u8 = 23;
    pub const DYNAMIC: u8 = 24;
    pub const ATTRPATH_VALUE: u8 = 25;
    pub const INHERIT: u8 = 26;
    pub const INHERIT_FROM: u8 = 27;
    pub const IDENT_PARAM: u8 = 28;
    pub const PATTERN: u8 = 29;
    pub const PAT_BIND: u8 = 30;
    pub const PAT_ENTRY: u8 = 31;
    pub const LITERAL_PART: u8 = 32;
    pub const INTERPOLATION: u8 = 33;
}

/// The longest sheet, in bytes.
pub const MAX_BYTES: usize = 1_048_576;
/// The most nodes of a sheet.
pub const MAX_NODES: usize = 4_096;
/// The deepest node; Root is at depth 1.
pub const MAX_DEPTH: usize = 256;
/// The most attributes of an Attrpath.
pub const MAX_ATTRS: usize = 16;

/// One node of a sheet. Its number is its place in the list of nodes.
#[derive(Debug, Clone, PartialEq, Eq)]
pub struct Node {
    pub kind: u8,
    pub from: u32,
    pub to: u32,
    pub flag: u8,
    /// Node numbers; `None` is an absent one, written `-`.
    pub kids: Vec<Option<u32>>,
    pub text: Vec<u8>,
}

/// A refusal: its number and its place.
#[derive(Debug, Clone, Copy, PartialEq, Eq, Hash, PartialOrd, Ord)]
pub struct Refusal {
    pub number: u32,
    pub place: u32,
}

const HEX: &[u8; 16] = b"0123456789abcdef";

/// The sheet of these nodes, six lines for each. It writes what it is given: a list that breaks a rule gives a sheet
/// that is refused.
pub fn write(nodes: &[Node]) -> Vec<u8> {
    let mut out = format!("nodes={}\n", nodes.len()).into_bytes();
    for node in nodes {
        out.extend(format!("kind={}\nfrom={}\nto={}\nflag={}\nkids=", node.kind, node.from, node.to, node.flag).into_bytes());
        for (i, kid) in node.kids.iter().enumerate() {
            if i > 0 {
                out.push(b',');
            }
            match kid {
                Some(number) => out.extend(number.to_string().into_bytes()),
                None => out.push(b'-'),
            }
        }
        out.extend(b"\ntext=");
        for byte in &node.text {
            out.extend([HEX[usize::from(byte / 16)], HEX[usize::from(byte % 16)]]);
        }
        out.push(b'\n');
    }
    out
}
