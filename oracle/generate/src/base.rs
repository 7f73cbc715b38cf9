//! What damage starts from: valid sheets, and where in them it strikes.

use crate::preset::Preset;
use crate::rng::Rng;
use sheet::{short, Node};

/// A sheet with every kind, in the short notation; no kid is absent where a counted place can be filled.
pub const ZOO: &str = concat!(
    r#"21(13(1(18"f",18"x"),2(18"a",9"1",9"2"),3(18"s",23(18"a",6(32"b")),10),4(18"n",22),5(18"s",23(24(18"k"))),"#,
    r#"7"./p"(32"./",33(18"p")),8"\x3f\xf0\x00\x00\x00\x00\x00\x00",11(29!1(30(18"b"),31(18"c",20)),18"b"),"#,
    r#"11(28(18"x"),18"x"),12(18"a",25(23(18"a"),9"3"),26(27(18"s"),18"t")),14!1(18"l",18"r"),"#,
    r#"15(16!1(25(23(18"u"),17!1(18"u")))),19(18"c",18"d")))"#,
);

/// A valid sheet to damage, mostly a small one, so that damage meets first and last nodes often.
pub fn valid(rng: &mut Rng) -> Vec<Node> {
    let small = [(400, Preset::Tiny), (500, Preset::Small), (40, Preset::Medium), (30, Preset::Keys)];
    let extreme = [(4, Preset::Large), (4, Preset::Deep), (2, Preset::Wide), (2, Preset::Merging), (4, Preset::Withs)];
    let preset = rng.weighted(&[&small[..], &extreme[..]].concat());
    preset.sheet(rng.draw())
}

/// The number of a node of this kind in the nodes. Where there is none they are replaced by others that have one.
pub fn node_of_kind(rng: &mut Rng, nodes: &mut Vec<Node>, kind: u8) -> usize {
    for _ in 0..20 {
        let own: Vec<usize> = (0..nodes.len()).filter(|&node| nodes[node].kind == kind).collect();
        if !own.is_empty() {
            return own[spot(rng, own.len())];
        }
        *nodes = Preset::Small.sheet(rng.draw());
    }
    *nodes = short::parse(ZOO).unwrap_or_default();
    nodes.iter().position(|node| node.kind == kind).unwrap_or(0)
}

/// A number below `count`: the first, the middle one or the last as often as any other.
pub fn spot(rng: &mut Rng, count: usize) -> usize {
    let last = count.saturating_sub(1);
    match rng.below(6) {
        0 => 0,
        1 => last / 2,
        2 => last,
        _ => rng.below(count),
    }
}

/// A kind by chance, 1 to 33.
pub fn any_kind(rng: &mut Rng) -> u8 {
    rng.between(1, usize::from(sheet::kind::INTERPOLATION)) as u8
}

/// Flags that may be wrong or right for any kind.
pub fn any_flag(rng: &mut Rng) -> u8 {
    rng.pick(&[0, 1, 2, 3, 14, 15, 16, 17, 255])
}

/// Texts that may be wrong or right for any kind: no text, digits, floats at and around infinity, seven and nine bytes,
/// letters.
pub fn any_text(rng: &mut Rng) -> Vec<u8> {
    let float = rng.pick(&[0x7ff0_0000_0000_0000_u64, 0x7ff0_0000_0000_0001, 0x7ff8_0000_0000_0000, 0x8000_0000_0000_0000, u64::MAX]);
    match rng.below(9) {
        0 | 1 => Vec::new(),
        2 => b"007".to_vec(),
        3 => b"12a".to_vec(),
        4 => b"x".to_vec(),
        5 => vec![0; 7],
        6 => vec![0; 9],
        _ => float.to_be_bytes().to_vec(),
    }
}
