//! Small sheets for the rules of scopes and answers, in the short notation of the oracle's `sheet::short`.

use crate::lower::points::point;
use crate::lower::{sheets, Named};
use generate::names::BUILTINS;
use generate::tree::Tree;
use sheet::kind::{IDENT_PARAM, LAMBDA, LIST};

/// What a sheet is about, and the sheet.
const POINTS: &[(&str, &str)] = &[
    ("a parameter", r#"21(11(28(18"x"),18"x"))"#),
    ("a parameter that a field hides", r#"21(11(29(30(18"x"),31(18"x",-)),18"x"))"#),
    ("a builtin under a With", r#"21(4(18"a",18"map"))"#),
    ("Withs inside one another", r#"21(4(18"a",4(18"b",18"c")))"#),
    ("a definition outside a With", r#"21(11(28(18"y"),4(18"y",18"y")))"#),
    ("a definition between two Withs", r#"21(4(18"a",11(28(18"b"),4(18"c",13(18"a",18"b",18"c",18"map")))))"#),
    ("a function without names", r#"21(11(29(-),18"q"))"#),
    ("a plain inherit in a let", r#"21(11(28(18"x"),12(18"x",26(-,18"x"))))"#),
    ("an inherit from a source in a let", r#"21(11(28(18"x"),12(18"x",26(27(18"x"),18"x"))))"#),
    ("a plain inherit in a rec set", r#"21(11(28(18"x"),16!1(26(-,18"x"),25(23(18"y"),18"x"))))"#),
    ("an inherit from a source in a rec set", r#"21(11(28(18"x"),16!1(26(27(18"x"),18"x"),25(23(18"y"),18"x"))))"#),
    ("a plain inherit in a plain set", r#"21(11(28(18"x"),16(26(-,18"x"),25(23(18"y"),18"x"))))"#),
    ("a replaced value", r#"21(11(28(18"x"),16(25(23(18"a"),18"x"),25(23(18"a"),9"2"))))"#),
    ("a replaced inherit with a source that is walked", r#"21(11(28(18"x"),16!1(26(27(18"x"),18"a"),25(23(18"a"),18"x"))))"#),
    ("the left side of a flag-0 BinOp", r#"21(11(28(18"x"),14(13(18"x",18"map",4(18"x",18"y")),18"x")))"#),
    ("the names of a plain set", r#"21(16(25(23(18"a"),18"b"),25(23(18"b"),18"a")))"#),
    ("the names of a rec set", r#"21(16!1(25(23(18"a"),18"b"),25(23(18"b"),18"a")))"#),
    ("the names of a let", r#"21(12(13(18"a",18"b",18"c"),25(23(18"b"),18"a"),25(23(18"a"),18"b")))"#),
    ("a path in a let", r#"21(12(13(18"a",18"b"),25(23(18"a",18"b"),13(18"a",18"b"))))"#),
    ("a path in a rec set", r#"21(16!1(25(23(18"a",18"b"),13(18"a",18"b")),25(23(18"c"),18"a")))"#),
    ("a rec set whose rec is dropped", r#"21(16(25(23(18"a",18"b"),18"c"),25(23(18"a"),16!1(25(23(18"c"),18"b")))))"#),
    ("a set merged into a path of a rec set", r#"21(16!1(25(23(18"a",18"b"),18"a"),25(23(18"a"),16(25(23(18"c"),18"b")))))"#),
    ("a let and a rec set with dynamics alone", r#"21(12(18"k",25(23(24(18"k")),16!1(25(23(24(18"k")),18"v")))))"#),
    ("a dynamic beside statics", r#"21(12(18"k",25(23(24(18"k")),18"v"),25(23(18"v"),18"k"),25(23(18"k"),-)))"#),
    ("a let without entries", r#"21(11(28(18"x"),12(18"x")))"#),
    ("a With without a body", r#"21(4(18"a",-))"#),
    ("a With in a namespace", r#"21(4(4(18"a",18"b"),18"c"))"#),
    ("a let in a namespace", r#"21(4(12(18"x",25(23(18"x"),9"1")),18"x"))"#),
    ("Withs beside each other", r#"21(13(4(18"a",18"x"),4(18"b",18"x"),18"x"))"#),
    ("an Assert's body before its condition", r#"21(19(11(28(18"a"),18"a"),11(28(18"b"),18"b")))"#),
    ("defaults before the body", r#"21(11(29(-,31(18"a",11(28(18"b"),18"a"))),11(28(18"c"),18"a")))"#),
    ("defaults that use other fields", r#"21(11(29(30(18"p"),31(18"a",18"b"),31(18"b",18"a"),31(-,18"p")),18"c"))"#),
    ("fields without names", r#"21(11(29(-,31(-,18"a"),31(-,-)),18"a"))"#),
    ("equal names one inside the other", r#"21(11(28(18"a"),11(28(18"a"),13(18"a",11(29(30(18"a"),31(18"a",18"a")),18"a"),18"a"))))"#),
    ("equal names beside each other", r#"21(13(11(28(18"a"),18"a"),11(28(18"a"),18"a"),18"a"))"#),
    ("a builtin's name defined", r#"21(12(13(18"map",18"maps",18"ma"),25(23(18"map"),18"map")))"#),
    ("the empty text", r#"21(11(28(18),13(18"",18"a",11(28(18"a"),18""))))"#),
    ("a name twice in a pattern, with a With inside", r#"21(11(29(-,31(18"x",-),31(18"x",18"x")),4(18"x",13(18"x",18"y"))))"#),
    ("bytes above 127", r#"21(11(28(18"\xff\x80"),13(18"\xff\x80",18"\xff",18"\x80",18"\xc3\xbf")))"#),
    (
        "uses in all sorts of places",
        r#"21(11(28(18"a"),13(6(32"a",33(18"a")),7"./a"(33(18"a")),3(18"a",23(18"a",24(18"a")),18"a"),5(18"a",23(24(18"a"))))))"#,
    ),
    ("names that hide each other and are followed", r#"21(11(29(30(18"a"),31(18"a",18"b"),31(18"b",18"a")),18"a"))"#),
    ("an inherited name and one beside it", r#"21(11(28(18"a"),12(13(18"a",18"b",18"c"),26(-,18"a"),25(23(18"b"),18"a"))))"#),
    ("names inherited from a source", r#"21(11(28(18"a"),12(18"a",26(27(18"a"),18"a",18"b"))))"#),
    ("rec sets in a rec set", r#"21(16!1(25(23(18"a"),18"b"),25(23(18"b"),16!1(25(23(18"a"),18"a"),25(23(18"c"),18"b")))))"#),
    (
        "a set that is merged, with an inherit",
        r#"21(11(28(18"a"),16(25(23(18"a",18"b"),18"a"),25(23(18"a"),16!1(25(23(18"c"),18"b"),26(-,18"a"))))))"#,
    ),
    (
        "a let with a function, a With and a dynamic",
        r#"21(12(4(18"c",18"a"),25(23(18"a"),11(28(18"b"),18"a")),25(23(18"b"),18"c"),25(23(24(18"a")),18"b")))"#,
    ),
];

/// The points, a sheet that uses every builtin and texts that are nearly one, and one whose texts are longer than any
/// new text.
pub fn points() -> Result<Vec<Named>, String> {
    let points = POINTS.iter().copied().map(point);
    points.chain([Ok(builtins()), Ok(long_texts())]).collect()
}

/// Some of the texts are longer than any that can be set.
pub fn long_texts() -> Named {
    let ident = |length| Tree::ident(&vec![b'l'; length]);
    let uses = Tree::full(LIST, [255, 256, 300].map(ident).to_vec());
    sheets::tree("texts of 255, 256 and 300 bytes", Tree::full(LAMBDA, vec![Tree::full(IDENT_PARAM, vec![ident(300)]), uses]))
}

fn builtins() -> Named {
    let shorter = BUILTINS.iter().map(|text| &text[..text.len() - 1]);
    let mut texts: Vec<Vec<u8>> = BUILTINS.iter().copied().chain(shorter).map(<[u8]>::to_vec).collect();
    texts.extend(BUILTINS.iter().map(|text| [text, b"s".as_slice()].concat()));
    let list = Tree::full(LIST, texts.iter().map(|text| Tree::ident(text)).collect());
    sheets::tree("every builtin, and texts that are a byte shorter or longer", list)
}

#[cfg(test)]
mod tests {
    use crate::lower::assert_accepted;

    #[test]
    fn all_are_accepted() {
        assert_accepted(super::points().unwrap());
    }
}
