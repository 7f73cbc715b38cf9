//! The sheets of the folder examples/: the marked examples of docs/RULES.md and lines A to E of the request, each with
//! the Nix text that it is the sheet of, every node's place in that text, and what refsheet says of it.

use canon::{Answer, Facts, Reading};

use crate::refsheet;

/// A Nix text and its sheet.
#[derive(Debug, Clone, Copy)]
pub struct Example {
    /// The name of its file, without the ending.
    pub name: &'static str,
    pub nix: &'static str,
    /// The tree in the short notation, with every node's place in the Nix text.
    pub tree: &'static str,
    /// Calls on it, in the book's script format.
    pub script: Option<&'static str>,
}

const fn example(name: &'static str, nix: &'static str, tree: &'static str) -> Example {
    Example { name, nix, tree, script: None }
}

/// The examples that docs/RULES.md marks.
pub const MARKED: [Example; 12] = [
    example("lambda", "x: x", r#"21@0..4(11@0..4(28@0..1(18"x"@0..1),18"x"@3..4))"#),
    example("pattern-hides-parameter", "x@{x}: x", r#"21@0..8(11@0..8(29@0..5(30@0..2(18"x"@0..1),31@3..4(18"x"@3..4,-)),18"x"@7..8))"#),
    example("builtin-under-with", "with a; map", r#"21@0..11(4@0..11(18"a"@5..6,18"map"@8..11))"#),
    example("with-in-with", "with a; with b; c", r#"21@0..17(4@0..17(18"a"@5..6,4@8..17(18"b"@13..14,18"c"@16..17)))"#),
    example("definition-before-with", "y: with y; y", r#"21@0..12(11@0..12(28@0..1(18"y"@0..1),4@3..12(18"y"@8..9,18"y"@11..12)))"#),
    example("empty-pattern", "{}: q", r#"21@0..5(11@0..5(29@0..2(-),18"q"@4..5))"#),
    example(
        "plain-inherit",
        "x: let inherit x; in x",
        r#"21@0..22(11@0..22(28@0..1(18"x"@0..1),12@3..22(18"x"@21..22,26@7..17(-,18"x"@15..16))))"#,
    ),
    example(
        "inherit-from",
        "x: let inherit (x) x; in x",
        r#"21@0..26(11@0..26(28@0..1(18"x"@0..1),12@3..26(18"x"@25..26,26@7..21(27@15..18(18"x"@16..17),18"x"@19..20))))"#,
    ),
    example(
        "path-then-value",
        "{ a.b = 1; a = 2; }",
        r#"21@0..19(16@0..19(25@2..10(23@2..5(18"a"@2..3,18"b"@4..5),9"1"@8..9),25@11..17(23@11..12(18"a"@11..12),9"2"@15..16)))"#,
    ),
    example(
        "value-then-path",
        "{ a = 2; a.b = 1; }",
        r#"21@0..19(16@0..19(25@2..8(23@2..3(18"a"@2..3),9"2"@6..7),25@9..17(23@9..12(18"a"@9..10,18"b"@11..12),9"1"@15..16)))"#,
    ),
    example(
        "replaced-value",
        "x: { a = x; a = 2; }",
        concat!(
            r#"21@0..20(11@0..20(28@0..1(18"x"@0..1),16@3..20(25@5..11(23@5..6(18"a"@5..6),18"x"@9..10),"#,
            r#"25@12..18(23@12..13(18"a"@12..13),9"2"@16..17))))"#
        ),
    ),
    example("dynamic-key", "{ ${k}.b = 1; }", r#"21@0..15(16@0..15(25@2..13(23@2..8(24@2..6(18"k"@4..5),18"b"@7..8),9"1"@11..12)))"#),
];

/// Lines A to E of the request. The holes of line E are an absent body, an absent value and an Error.
pub const LINES: [Example; 7] = [
    example(
        "line-a-plain-inherit-in-let",
        "base: let inherit base; search = base; in search",
        concat!(
            r#"21@0..48(11@0..48(28@0..4(18"base"@0..4),12@6..48(18"search"@42..48,26@10..23(-,18"base"@18..22),"#,
            r#"25@24..38(23@24..30(18"search"@24..30),18"base"@33..37))))"#
        ),
    ),
    example(
        "line-b-builtin-under-with",
        "with { map = 1; }; map",
        r#"21@0..22(4@0..22(16@5..17(25@7..15(23@7..10(18"map"@7..10),9"1"@13..14)),18"map"@19..22))"#,
    ),
    example(
        "line-c-path-and-value",
        "{ base.dn = 1; base = 2; }",
        concat!(
            r#"21@0..26(16@0..26(25@2..14(23@2..9(18"base"@2..6,18"dn"@7..9),9"1"@12..13),"#,
            r#"25@15..24(23@15..19(18"base"@15..19),9"2"@22..23)))"#
        ),
    ),
    Example {
        script: Some(RENAMES),
        ..example("line-d-rename-and-back", "x: y: x", r#"21@0..7(11@0..7(28@0..1(18"x"@0..1),11@3..7(28@3..4(18"y"@3..4),18"x"@6..7)))"#)
    },
    example(
        "line-e-body-missing",
        "x: let y = x; in",
        r#"21@0..16(11@0..16(28@0..1(18"x"@0..1),12@3..16(-,25@7..13(23@7..8(18"y"@7..8),18"x"@11..12))))"#,
    ),
    example(
        "line-e-value-missing",
        "x: { a = x; b =",
        concat!(
            r#"21@0..15(11@0..15(28@0..1(18"x"@0..1),16@3..15(25@5..11(23@5..6(18"a"@5..6),18"x"@9..10),"#,
            r#"25@12..15(23@12..13(18"b"@12..13),-))))"#
        ),
    ),
    example("line-e-stray-sign", "x: [ x = x ]", r#"21@0..12(11@0..12(28@0..1(18"x"@0..1),13@3..12(18"x"@5..6,20@7..8,18"x"@9..10)))"#),
];

/// Renames of `x: y: x`, each followed by what the use is tied to.
const RENAMES: &str = "\
# Line D on `x: y: x`: rename, rename back, follow again. Texts are in hex: 78 is x, 79 is y, 62617365 is base.
ask-ref 0 buffer=0 reply=20                 # n0
ask-name 0 buffer=4 reply=20                # e0
# x is renamed to base: its definition, then its use.
set-name 0 text=62617365 buffer=4 reply=20  # e0 moves
ask-ref 0 buffer=0 reply=20                 # none: the use still bears the old text
set-ref 0 text=62617365 buffer=4 reply=20   # e0 moves
ask-ref 0 buffer=0 reply=20                 # n0
# And back.
set-name 0 text=78 buffer=4 reply=20        # e0 moves
set-ref 0 text=78 buffer=4 reply=20         # e0 moves
ask-ref 0 buffer=0 reply=20                 # n0
ask-name 0 buffer=4 reply=20                # e0
# y is renamed to x, which takes the use over, and back.
set-name 1 text=78 buffer=4 reply=20        # e0 moves
ask-ref 0 buffer=0 reply=20                 # n1
ask-name 0 buffer=4 reply=20                # no use
set-name 1 text=79 buffer=4 reply=20        # e0 moves
ask-ref 0 buffer=0 reply=20                 # n0
ask-name 0 buffer=4 reply=20                # e0
ask-name 1 buffer=4 reply=20                # no use
";

/// How the folder's README.md begins.
const HEAD: &str = "\
# Sheets to try

The marked examples of docs/RULES.md, and lines A to E of the request: Nix texts, each as a syntax sheet with the places
in the text. docs/SHEET.md has the format. One is run by `(cd crates/refsheet && rt run) <examples/lambda.sheet`. The
calls of a `.script` are run by
`cargo run --offline --quiet --manifest-path oracle/Cargo.toml -- book SHEET SCRIPT`. All of this folder is written by
`oracle examples examples`.

In the last column e is an expression, n a name, and Withs are told by their expressions' numbers.

| Nix text | Files | What refsheet says, in short |
|---|---|---|
";

/// All examples, in the order of the table.
pub fn all() -> impl Iterator<Item = &'static Example> {
    MARKED.iter().chain(&LINES)
}

impl Example {
    /// The nodes of its sheet.
    pub fn nodes(&self) -> Result<Vec<sheet::Node>, String> {
        sheet::short::parse(self.tree).map_err(|error| format!("{}: {error}", self.name))
    }

    /// The calls of its script, none where it has none.
    pub fn calls(&self) -> Result<Vec<book::Call>, String> {
        book::script::parse(self.script.unwrap_or("")).map_err(|error| format!("{}: {error}", self.name))
    }
}

/// The files of the folder: their names and what is in them.
pub fn files() -> Result<Vec<(String, Vec<u8>)>, String> {
    let (mut files, mut table) = (Vec::new(), HEAD.to_string());
    for example in all() {
        let nodes = example.nodes()?;
        let mut names = vec![format!("{}.sheet", example.name)];
        files.push((names[0].clone(), sheet::write(&nodes)));
        if let Some(script) = example.script {
            names.push(format!("{}.script", example.name));
            files.push((names[1].clone(), script.as_bytes().to_vec()));
        }
        let facts = tix::Tix::new(&nodes).facts();
        table += &format!("| `{}` | {} | `{}` |\n", example.nix, names.join(", "), in_short(&facts));
    }
    files.push(("README.md".to_string(), table.into_bytes()));
    Ok(files)
}

/// What refsheet prints, on one line: `exprs=2 names=1 scopes=2 dups=0; e0→n0`.
fn in_short(facts: &Facts) -> String {
    let counts: Vec<String> = refsheet::answers(facts).lines().take(4).map(str::to_string).collect();
    let answers = facts.resolution.answers.iter().map(|(expr, answer)| match answer {
        Answer::None => format!("e{expr} none"),
        Answer::Definition(name) => format!("e{expr}→n{name}"),
        Answer::Builtin(index) => format!("e{expr}→builtin {index}"),
        Answer::Withs(list) => format!("e{expr}→Withs {}", list.iter().map(u32::to_string).collect::<Vec<_>>().join(",")),
    });
    let answers: Vec<String> = answers.collect();
    match answers.is_empty() {
        true => counts.join(" "),
        false => format!("{}; {}", counts.join(" "), answers.join(", ")),
    }
}
