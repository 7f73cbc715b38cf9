//! Values in the right form that a node may not have: kinds, places, flags, kids and texts.

use crate::rng::Rng;
use sheet::kind::*;

/// Numbers above the largest `from` and `to`; the last two would be small ones to an arithmetic that drops the carry.
const TOO_LARGE: [&str; 4] = ["4294967296", "9999999999999999999999", "18446744073709551616", "4294967301"];

/// What is wrong to write for a kind.
pub fn kind(rng: &mut Rng) -> String {
    rng.pick(&["0", "34", "99", "256", "18446744073709551637"]).to_string()
}

/// A `from` that is too large, or above this `to`.
pub fn from(rng: &mut Rng, to: u32) -> String {
    match to.checked_add(1).filter(|_| rng.chance(60)) {
        Some(above) => rng.pick(&[above, above, u32::MAX]).to_string(),
        None => rng.pick(&TOO_LARGE).to_string(),
    }
}

/// A `to` that is too large, or below this `from`.
pub fn to(rng: &mut Rng, from: u32) -> String {
    match from.checked_sub(1).filter(|_| rng.chance(60)) {
        Some(below) => rng.pick(&[below, below, 0]).to_string(),
        None => rng.pick(&TOO_LARGE).to_string(),
    }
}

/// A flag that this kind does not have: a kind without flags is given one, the others get one that is too large.
pub fn flag(rng: &mut Rng, kind: u8) -> u8 {
    let highest = match kind {
        BIN_OP => 15,
        UNARY_OP => 2,
        FLOAT | ATTR_SET | IDENT | PATTERN => 1,
        _ => 0,
    };
    rng.pick(&[highest + 1, highest + 1, highest + 2, 17, 255])
}

/// The same as it is written, now and then with more digits than a byte or a word has room for.
pub fn written_flag(rng: &mut Rng, kind: u8) -> String {
    match rng.chance(70) {
        true => flag(rng, kind).to_string(),
        false => rng.pick(&["256", "257", "4294967296", "4294967297", "99999999999999999999"]).to_string(),
    }
}

/// A kid's number that is not below the number of nodes, alone or beside others.
pub fn kids(rng: &mut Rng, nodes: usize) -> String {
    let kid = rng.pick(&[nodes.to_string(), (nodes + 1).to_string(), "4294967296".to_string(), "18446744073709551616".to_string()]);
    rng.pick(&[kid.clone(), format!("-,{kid}"), format!("0,{kid}"), format!("{kid},-")])
}

/// A text that a node of this kind and flag does not have; nothing where it may have any.
pub fn text(rng: &mut Rng, kind: u8, flag: u8) -> Option<Vec<u8>> {
    let float = rng.pick(&[0x7ff0_0000_0000_0001_u64, 0x7ff8_0000_0000_0000, 0x8000_0000_0000_0000, 0xfff0_0000_0000_0000, u64::MAX]);
    match (kind, flag) {
        (PATH | LITERAL_PART, _) | (IDENT, 1) => None,
        (INTEGER, _) => Some(rng.pick(&[&b""[..], b"", b"12a", b"-1", b"1.0", b" 1", b"1 ", b"/", b":", b"\xb2"]).to_vec()),
        (FLOAT, 1) => Some(match rng.chance(50) {
            true => vec![0; rng.pick(&[0, 1, 7, 9, 16])],
            false => float.to_be_bytes().to_vec(),
        }),
        _ => Some(rng.pick(&[&b"x"[..], b"0", b"\0", b"12345678", b"a text"]).to_vec()),
    }
}
