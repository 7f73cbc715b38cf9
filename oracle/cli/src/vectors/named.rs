//! What documents name: the marked and unmarked examples of docs/RULES.md, its traps and limits, and lines A to E of
//! the request.

use book::Call;

use super::calls::{ask_name, ask_reference, change_name, change_reference};
use super::Vector;
use crate::examples;

/// The sheets of the folder examples/, with the calls of line D.
pub fn examples() -> Result<Vec<Vector>, String> {
    let marked = examples::MARKED.iter().map(|example| (format!("example: {}", example.nix), example));
    let lines = examples::LINES.iter().map(|example| {
        let line = example.name["line-".len()..][..1].to_uppercase();
        (format!("line {line}: {}", example.nix), example)
    });
    marked.chain(lines).map(|(title, example)| Ok(Vector::of_tree(title, example.tree)?.with(example.calls()?))).collect()
}

const TREES: [(&str, &str); 37] = [
    ("every kind at once", generate::ZOO),
    ("the least sheet", "21(-)"),
    ("trap: x: with a; x: an outer definition comes before a With", r#"21(11(28(18"x"),4(18"a",18"x")))"#),
    ("trap: x: with a; y: with b; x", r#"21(11(28(18"x"),4(18"a",11(28(18"y"),4(18"b",18"x")))))"#),
    (
        "trap: b: { a.b = 1; a = rec { c = b; }; }: a merged set's rec is dropped",
        r#"21(11(28(18"b"),16(25(23(18"a",18"b"),9"1"),25(23(18"a"),16!1(25(23(18"c"),18"b"))))))"#,
    ),
    (
        "trap: b: rec { a.b = 1; a = { c = b; }; }: the outer rec is no rec of the merged set",
        r#"21(11(28(18"b"),16!1(25(23(18"a",18"b"),9"1"),25(23(18"a"),16(25(23(18"c"),18"b"))))))"#,
    ),
    ("trap: x: rec { inherit x; y = x; }: a plain inherit is outside", r#"21(11(28(18"x"),16!1(26(-,18"x"),25(23(18"y"),18"x"))))"#),
    ("trap: let inherit x; in x: outside there is none", r#"21(12(18"x",26(-,18"x")))"#),
    ("rec { b = 1; c = b; }", r#"21(16!1(25(23(18"b"),9"1"),25(23(18"c"),18"b")))"#),
    ("{ b = 1; c = b; }: a plain set opens no scope", r#"21(16(25(23(18"b"),9"1"),25(23(18"c"),18"b")))"#),
    ("assert a; b: the body is walked first", r#"21(19(4(-,18"a"),4(-,18"b")))"#),
    ("line A: x: let inherit x; y = x; in y: y's x is the let's", r#"21(11(28(18"x"),12(18"y",26(-,18"x"),25(23(18"y"),18"x"))))"#),
    ("line A: x: let inherit (x) x; in let inherit x; in x", r#"21(11(28(18"x"),12(12(18"x",26(-,18"x")),26(27(18"x"),18"x"))))"#),
    ("line B: with a; with b; true", r#"21(4(18"a",4(18"b",18"true")))"#),
    ("line B: map: with a; map: a definition comes before the builtin", r#"21(11(28(18"map"),4(18"a",18"map")))"#),
    ("line B: with a; [ maps ma Map abort toString ]", r#"21(4(18"a",13(18"maps",18"ma",18"Map",18"abort",18"toString")))"#),
    (
        "line B: all 22 builtins",
        concat!(
            r#"21(4(18"a",13(18"abort",18"baseNameOf",18"builtins",18"derivation",18"dirOf",18"false",18"fetchGit",18"fetchMercurial","#,
            r#"18"fetchTarball",18"fetchTree",18"fetchurl",18"fromTOML",18"import",18"isNull",18"map",18"null",18"placeholder","#,
            r#"18"removeAttrs",18"scopedImport",18"throw",18"toString",18"true")))"#
        ),
    ),
    ("line C: { a = 1; a = 2; }", r#"21(16(25(23(18"a"),9"1"),25(23(18"a"),9"2")))"#),
    ("line C: let a.b = 1; a = x: x; in a", r#"21(12(18"a",25(23(18"a",18"b"),9"1"),25(23(18"a"),11(28(18"x"),18"x"))))"#),
    (
        "line C: { a.b = 1; a.b = 2; a.b.c = 3; }",
        r#"21(16(25(23(18"a",18"b"),9"1"),25(23(18"a",18"b"),9"2"),25(23(18"a",18"b",18"c"),9"3")))"#,
    ),
    ("line C: x: { a = { b = x; }; a.c = 1; }", r#"21(11(28(18"x"),16(25(23(18"a"),16(25(23(18"b"),18"x"))),25(23(18"a",18"c"),9"1"))))"#),
    ("line C: { inherit a; a = 1; inherit (b) a; }", r#"21(16(26(-,18"a"),25(23(18"a"),9"1"),26(27(18"b"),18"a")))"#),
    ("line E: let a = ; in", r#"21(12(-,25(23(18"a"),-)))"#),
    ("line E: x: x +", r#"21(11(28(18"x"),14!3(18"x",-)))"#),
    ("line E: x: + x", r#"21(11(28(18"x"),14!3(-,18"x")))"#),
    ("line E: x: if x then", r#"21(11(28(18"x"),2(18"x",-,-)))"#),
    ("line E: with ; x", r#"21(4(-,18"x"))"#),
    ("line E: x: x.", r#"21(11(28(18"x"),3(18"x",23,-)))"#),
    ("line E: x: x ?", r#"21(11(28(18"x"),5(18"x",-)))"#),
    ("line E: x: let inherit (x", r#"21(11(28(18"x"),12(-,26(27(18"x")))))"#),
    ("line E: : x", r#"21(11(-,18"x"))"#),
    ("line E: { x ? }: x", r#"21(11(29(-,31(18"x",-)),18"x"))"#),
    ("line E: x: \"${", r#"21(11(28(18"x"),6(33(-))))"#),
    ("line E: x: ./a${", r#"21(11(28(18"x"),7"./a"(32"./a",33(-))))"#),
    ("line E: x: x (", r#"21(11(28(18"x"),1(18"x",15(-))))"#),
    ("line E: x: { ${ = x; y = x;", r#"21(11(28(18"x"),16(25(23(24(-)),18"x"),25(23(18"y"),18"x"))))"#),
    ("line E: an Error in every place of a let", r#"21(12(20,25(23(18"a"),20),26(27(20),18"b"),25(23(24(20)),18"a")))"#),
];

pub fn trees() -> Result<Vec<Vector>, String> {
    TREES.iter().map(|(title, tree)| Vector::of_tree(*title, tree)).collect()
}

/// The calls of the traps, and the renames of line D in other trees.
pub fn scripts() -> Result<Vec<Vector>, String> {
    let ask = |number| ask_reference(number, 64);
    let hidden: Vec<Call> = vec![
        ask(0),
        change_name(1, b"y"),
        ask(0),
        ask_name(0, 4),
        ask_name(1, 4),
        change_name(1, b"x"),
        ask(0),
        ask_name(0, 4),
        ask_name(1, 4),
    ];
    let withs = vec![change_name(0, b"b"), ask(1), ask(2), change_name(0, b"map"), ask(2), change_reference(2, b"map"), ask(2)];
    let builtin =
        vec![ask(1), change_reference(1, b"maps"), ask(1), change_reference(1, b"map"), ask(1), change_reference(1, b"a"), ask(1)];
    let inherit = vec![change_name(0, b"y"), ask(0), ask(1), change_name(0, b"x"), ask(0), ask(1), ask_name(0, 4), ask_name(1, 4)];
    let shadow = [b"y" as &[u8], b"x", b"y", b"map", b"x", b"y"].into_iter();
    let shadow = shadow.flat_map(|text| [change_name(1, text), ask(0), ask_name(0, 8), ask_name(1, 8)]).collect();
    Ok(vec![
        Vector::of_tree("trap: x@{x}: x: a changed n1 brings the hidden n0 back", r#"21(11(29(30(18"x"),31(18"x",-)),18"x"))"#)?
            .with(hidden),
        Vector::of_tree("line D: a: with a; with b; c", r#"21(11(28(18"a"),4(18"a",4(18"b",18"c"))))"#)?.with(withs),
        Vector::of_tree("line D: with a; map", r#"21(4(18"a",18"map"))"#)?.with(builtin),
        Vector::of_tree("line D: x: let inherit x; in x", r#"21(11(28(18"x"),12(18"x",26(-,18"x"))))"#)?.with(inherit),
        Vector::of_tree("line D: x: y: [ x y x ]", r#"21(11(28(18"x"),11(28(18"y"),13(18"x",18"y",18"x"))))"#)?.with(shadow),
    ])
}

/// A Root, so many Parens and what is innermost.
pub fn parens(count: usize, innermost: &str) -> String {
    format!("21({}{innermost}{})", "15(".repeat(count), ")".repeat(count))
}

/// "9223372036854775807 and one more; depth 256 and 257; text 255 and 256"; the room is with the other calls.
pub fn limits() -> Result<Vec<Vector>, String> {
    let texts = vec![
        change_name(0, &[b'l'; 255]),
        ask_reference(0, 0),
        change_reference(0, &[b'l'; 255]),
        ask_reference(0, 0),
        change_name(0, &[b'l'; 256]),
        change_reference(0, &[b'l'; 256]),
        ask_reference(0, 0),
        ask_name(0, 4),
    ];
    Ok(vec![
        Vector::of_tree("the integer 9223372036854775807", r#"21(9"9223372036854775807")"#)?,
        Vector::of_tree("the integer 9223372036854775808", r#"21(9"9223372036854775808")"#)?,
        Vector::of_tree(
            "an integer that is too large as a value",
            r#"21(16!1(25(23(18"a"),9"9223372036854775808"),25(23(18"b"),18"a")))"#,
        )?,
        Vector::of_tree("depth 256", &parens(254, r#"18"map""#))?,
        Vector::of_tree("depth 257; D15: 6 at the node at depth 256", &parens(255, r#"18"map""#))?,
        Vector::of_tree("texts of 255 and of 256 bytes", r#"21(11(28(18"x"),18"x"))"#)?.with(texts),
    ])
}
