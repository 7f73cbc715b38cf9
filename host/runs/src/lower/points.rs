//! Small sheets for the points of lowering that need care, in the short notation of the oracle's `sheet::short`.

use super::Named;
use sheet::short;

/// What a sheet is about, and the sheet.
const POINTS: &[(&str, &str)] = &[
    ("no expression", "21(-)"),
    ("an Error", "21(20)"),
    ("a LegacyLet", "21(22)"),
    ("an Ident without text", "21(18)"),
    ("an Ident with the empty text", r#"21(18"")"#),
    ("a Float that can't be read", "21(8)"),
    ("a Float", r#"21(8"\x3f\xf0\x00\x00\x00\x00\x00\x00")"#),
    ("the Float infinity", r#"21(8"\x7f\xf0\x00\x00\x00\x00\x00\x00")"#),
    ("the largest Integer", r#"21(9"9223372036854775807")"#),
    ("an Integer that is too large", r#"21(9"9223372036854775808")"#),
    ("an Integer with leading zeros", r#"21(9"00000000000000000000000000000000000042")"#),
    ("a Uri", "21(10)"),
    ("Parens and Roots", "21(15(21(15(10@3..4))))"),
    ("a Paren around nothing", "21(13(15(-),21(-)))"),
    ("absent places of an Apply", r#"21(13(1(-,-),1(18"f",-),1(-,18"x")))"#),
    ("absent places of an if", r#"21(13(2(-,-,-),2(18"a",-,18"b"),2(-,18"c",-)))"#),
    ("absent places of a With", r#"21(13(4(-,-),4(18"n",-),4(-,18"b")))"#),
    ("absent places of an Assert", r#"21(13(19(-,-),19(18"c",-),19(-,18"b")))"#),
    ("a Select without anything", "21(3(-,-,-))"),
    ("a Select without attributes", r#"21(3(18"s",23,18"d"))"#),
    ("an Ident without text in a Select's path", "21(3(-,23(18),-))"),
    ("a HasAttr without a path", r#"21(13(5(-,-),5(18"s",23)))"#),
    ("an Ident without text in a HasAttr's path", r#"21(5(18"s",23(18,18"a",18)))"#),
    (
        "all attributes in a Select's path",
        r#"21(3(18"s",23(18"a",6(32"b"),6,6(32"c",32"d"),6(33(18"e")),24(18"f"),24(-),24(6(32"g"))),18"d"))"#,
    ),
    ("a flag-0 BinOp with a left side", r#"21(11(28(18"x"),14(18"x",18"y")))"#),
    ("a flag-0 BinOp without sides", "21(14(-,-))"),
    ("flag-0 BinOps in a list", r#"21(13(18"a",14(13(18"b",18"c"),18"d"),18"e"))"#),
    ("absent sides of a BinOp", r#"21(13(14!1(-,-),14!15(18"l",-),14!9(-,18"r")))"#),
    ("a flag-0 UnaryOp", r#"21(17(18"x"))"#),
    ("absent operands", "21(13(17!1(-),17!2(-)))"),
    ("a Str without parts", "21(6)"),
    ("a Str with an empty part", r#"21(6(32""))"#),
    ("a Str of two literal parts", r#"21(6(32"a",32"b"))"#),
    ("a Str with an absent interpolation", r#"21(6(32"a",33(-),32"b"))"#),
    ("a Path without parts", r#"21(7"./p")"#),
    ("a Path of literal parts", r#"21(7"./ab"(32"./a",32"b"))"#),
    ("a Path with an interpolation", r#"21(7"./ab"(32"./a",33(18"b"),33(-)))"#),
    ("a Lambda without anything", "21(11(-,-))"),
    ("an IdentParam without an Ident", r#"21(11(28(-),18""))"#),
    ("an Ident without text as a parameter", r#"21(11(28(18),18""))"#),
    ("a pattern without anything", "21(11(29(-),-))"),
    ("a pattern that is an ellipsis", "21(11(29!1(-),-))"),
    ("a pattern's bind without an Ident", r#"21(11(29!1(30(-),31(18"a",-)),18"a"))"#),
    ("all fields of a pattern", r#"21(11(29(30(18"p"),31(-,-),31(18"a",-),31(-,18"b"),31(18"c",18"a")),18"p"))"#),
    ("Idents without text in a pattern", r#"21(11(29(30(18),31(18,-),31(-,-)),18""))"#),
    ("a default with names in it", r#"21(11(29(-,31(18"a",11(28(18"b"),-)),31(18"c",-)),-))"#),
    ("a name twice in a pattern", r#"21(11(29(30(18"x"),31(18"x",-),31(18"x",-)),18"x"))"#),
    ("a let without entries", "21(12(-))"),
    ("a let's body after its entries", r#"21(12(9"2",25(23(18"a"),9"1")))"#),
    ("an entry without a path", "21(16(25(-,-)))"),
    ("an entry with an empty path", r#"21(16(25(23,18"v")))"#),
    ("an entry with an absent value", r#"21(16(25(23(18"a"),-)))"#),
    ("an Ident without text as a key", "21(16(25(23(18),-)))"),
    ("the empty key three ways", r#"21(16(25(23(18),9"1"),25(23(6),9"2"),25(23(18""),9"3")))"#),
    ("a Str of two parts as a key", r#"21(16(25(23(6(32"a",32"b")),-)))"#),
    ("an interpolated Str as a key", r#"21(16(25(23(6(33(18"x"))),-)))"#),
    ("a plain Str inside Parens inside a Dynamic", r#"21(16(25(23(24@3..9(15(15(6(32"a"))))),9"1")))"#),
    ("a Str inside a Root inside a Dynamic", r#"21(16(25(23(24(21(6(32"a")))),-)))"#),
    ("a Dynamic with an Ident", r#"21(16(25(23(24(18"a")),9"1")))"#),
    ("a Dynamic around nothing", "21(16(25(23(24(-)),-),25(23(24(15(-))),-)))"),
    ("a Dynamic with Parens around an Ident", r#"21(16(25(23(24(15(15(18"a")))),-)))"#),
    ("keys in the order of bytes", r#"21(16(25(23(18"b"),-),25(23(18"\xff"),-),25(23(18"ab"),-),25(23(18"a"),-),25(23(18"B"),-)))"#),
    ("keys that begin with one another", r#"21(16(26(-,18"aaaa",18"aaa",18"aaaaa",18"",18"aa",18"a")))"#),
    ("a replaced plain inherit", r#"21(11(28(18"x"),16(26(-,18"x"),25(23(18"x"),9"2"))))"#),
    ("a replaced inherit from a source", r#"21(11(28(18"x"),16(26(27(18"x"),18"a"),25(23(18"a"),9"2"))))"#),
    ("a plain inherit of an Ident without text", "21(16(26(-,18)))"),
    ("an inherit of nothing", r#"21(16(26(-),26(27(-)),26(27(18"s"))))"#),
    ("an inherit from an absent source", r#"21(16(26(27(-),18"a")))"#),
    ("a dynamic inherited one", r#"21(11(28(18"x"),16(26(-,24(18"x"),24(-),6(33(18"x")),6(32"y")),26(27(18"x"),24(18"x"),18"z"))))"#),
    ("inherits in a let", r#"21(11(28(18"y"),12(18"x",25(23(18"x"),9"1"),26(27(18"y"),18"x"),26(-,18"x"))))"#),
    ("a path makes a set", r#"21(16(25(23(18"a"@7..8,18"b"),9"1")))"#),
    ("a path in a rec set", r#"21(16!1(25(23(18"a",18"b"),18"b")))"#),
    ("a path in a let", r#"21(12(18"b",25(23(18"a",18"b"),18"b")))"#),
    ("a path onto a value", r#"21(16(25(23(18"a"@1..2),9"2"),25(23(18"a"@3..4,18"b"),9"1")))"#),
    ("a value onto a path", r#"21(16(25(23(18"a",18"b"),9"1"),25(23(18"a"),9"2")))"#),
    ("a set onto a path", r#"21(16(25(23(18"a",18"b"),9"1"),25(23(18"a"),16!1(25(23(18"c"),18"b")))))"#),
    ("a set in a Paren onto a path", r#"21(16(25(23(18"a",18"b"),9"1"),25(23(18"a"),15(16(25(23(18"c"),9"2"))))))"#),
    ("a set in a Root onto a path", r#"21(16(25(23(18"a",18"b"),9"1"),25(23(18"a"),21(16(25(23(18"c"),9"2"))))))"#),
    ("a path onto a set", r#"21(11(28(18"x"),16(25(23(18"a"),16(25(23(18"b"),18"x"))),25(23(18"a",18"c"),9"1"))))"#),
    ("a set onto a set", r#"21(11(28(18"x"),16(25(23(18"a"),16(25(23(18"b"),18"x"))),25(23(18"a"),16(25(23(18"c"),9"1"))))))"#),
    ("an inherited key onto a path", r#"21(16(25(23(18"a",18"b"),9"1"),26(-,18"a"),26(27(18"s"),18"a")))"#),
    ("a path onto an inherited key", r#"21(16(26(-,18"a"),25(23(18"a",18"b"),9"1")))"#),
    (
        "values, a path, a value, a set and an inherit at one key",
        concat!(
            r#"21(16(25(23(18"a"),9"1"),25(23(18"a",18"b"),9"2"),25(23(18"a"),9"3"),"#,
            r#"25(23(18"a"),16(25(23(18"c"),9"4"))),26(-,18"a")))"#
        ),
    ),
    (
        "a source and an inherit merged into a path",
        r#"21(11(28(18"x"),16(25(23(18"a",18"b"),9"1"),25(23(18"a"),16!1(26(27(18"x"),18"y"),26(-,18"x"))))))"#,
    ),
    ("a dynamic merged into a path", r#"21(16(25(23(18"a",18"b"),9"1"),25(23(18"a"),16(25(23(24(18"k")),9"2"),25(-,-)))))"#),
    ("a duplicate inside a duplicate", r#"21(16(25(23(18"a"),9"1"),25(23(18"a"),16(25(23(18"b"),9"1"),25(23(18"b"),9"2")))))"#),
    ("a duplicate at the end of two paths", r#"21(16(25(23(18"a",18"b"),9"1"),25(23(18"a",18"b"),9"2"),25(23(18"a",18"b",18"c"),9"3")))"#),
    ("sets below a dynamic key", r#"21(16(25(23(24(18"k"),18"b",18"c"),9"1"),25(23(18"d"),9"2")))"#),
    ("a dynamic key inside a path", r#"21(16(25(23(18"a",24(18"k"),18"c"),9"1"),25(23(18"a",18"b"),9"2")))"#),
    ("a dynamic key at the end of a path", r#"21(16(25(23(18"a",18"b",24(18"k")),9"1")))"#),
    ("dynamic keys alone in a path", r#"21(16(25(23(24(18"j"),24(18"k"),24(-)),9"1")))"#),
    (
        "sets in the values of a set",
        r#"21(16(25(23(18"b"),16(25(23(18"d"),-),25(23(18"c",18"e"),-))),25(23(18"a",18"f"),16(26(-,18"g")))))"#,
    ),
    ("names beside values", r#"21(16(25(23(18"a",18"b",18"c"),11(28(18"v"),-)),25(23(18"a",18"d",18"e"),11(28(18"w"),-))))"#),
    (
        "entries of all sorts out of order",
        concat!(
            r#"21(12(4(-,-), 25(23(24(4(-,-))),4(-,-)), 26(27(4(-,-)),18"c"), 25(23(18"d"),4(-,-)), "#,
            r#"25(23(18"b"),4(-,-)), 26(-,18"a")))"#
        ),
    ),
    ("one pointer for many", r#"21(11(28(18"p"@1..2),11(28(18"q"@1..2),13(18"i"@3..4,18"j"@3..4,16(26(-,18"k"@3..4,18"k"@3..4))))))"#),
];

/// The points, and the sheet that has every kind.
pub fn points() -> Result<Vec<Named>, String> {
    let every_kind = ("every kind", generate::ZOO);
    POINTS.iter().copied().chain([every_kind]).map(point).collect()
}

pub fn point((name, notation): (&str, &str)) -> Result<Named, String> {
    let nodes = short::parse(notation).map_err(|why| format!("{name}: {why}"))?;
    Ok(Named { name: format!("{name}: {notation}"), nodes })
}

#[cfg(test)]
mod tests {
    use crate::lower::assert_accepted;

    #[test]
    fn all_are_accepted() {
        assert_accepted(super::points().unwrap());
    }
}
