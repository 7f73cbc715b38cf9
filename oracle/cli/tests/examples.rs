//! The examples of docs/RULES.md, marked and unmarked, through both readings.

use canon::{Answer, BindingValue, Expr, Facts, Pointer, Reading};

/// What a tree comes to. The Rust and the second reading must say the same.
fn facts(notation: &str) -> Facts {
    let nodes = sheet::short::parse(notation).expect(notation);
    let nodes = sheet::check::check(&sheet::write(&nodes)).expect(notation);
    let rust = tix::Tix::new(&nodes).facts();
    assert_eq!(rust, reading::Plain::new(&nodes).facts(), "{notation}");
    rust
}

/// `-` for none, `nN`, `bN` for a builtin, or the Withs with commas.
fn answers(facts: &Facts) -> String {
    let show = |(expr, answer): (&u32, &Answer)| {
        let to = match answer {
            Answer::None => "-".to_string(),
            Answer::Definition(name) => format!("n{name}"),
            Answer::Builtin(index) => format!("b{index}"),
            Answer::Withs(list) => list.iter().map(u32::to_string).collect::<Vec<_>>().join(","),
        };
        format!("e{expr}:{to}")
    };
    facts.resolution.answers.iter().map(show).collect::<Vec<_>>().join(" ")
}

fn check_answers(examples: &[(&str, &str, &str)]) {
    for (nix, notation, expected) in examples {
        assert_eq!(answers(&facts(notation)), *expected, "{nix}");
    }
}

#[test]
fn marked_examples_of_answers() {
    check_answers(&[
        ("x: x", r#"21(11(28(18"x"),18"x"))"#, "e0:n0"),
        ("x@{x}: x", r#"21(11(29(30(18"x"),31(18"x",-)),18"x"))"#, "e0:n1"),
        ("with a; map", r#"21(4(18"a",18"map"))"#, "e0:- e1:b14"),
        ("with a; with b; c", r#"21(4(18"a",4(18"b",18"c")))"#, "e0:- e1:4 e2:3,4"),
        ("y: with y; y", r#"21(11(28(18"y"),4(18"y",18"y")))"#, "e0:n0 e1:n0"),
        ("{}: q", r#"21(11(29(-),18"q"))"#, "e0:-"),
        ("x: let inherit x; in x", r#"21(11(28(18"x"),12(18"x",26(-,18"x"))))"#, "e0:n0 e1:n1"),
        ("x: let inherit (x) x; in x", r#"21(11(28(18"x"),12(18"x",26(27(18"x"),18"x"))))"#, "e0:n1 e3:n1"),
        ("x: { a = x; a = 2; }", r#"21(11(28(18"x"),16(25(23(18"a"),18"x"),25(23(18"a"),9"2"))))"#, "e0:-"),
        ("{ ${k}.b = 1; }", r#"21(16(25(23(24(18"k"),18"b"),9"1")))"#, "e2:-"),
    ]);
}

#[test]
fn the_followed_example_is_the_sheet_of_the_document() {
    let sheet = include_bytes!("../../../examples/lambda.sheet");
    let expected = "exprs=2\nnames=1\nscopes=2\ndups=0\nref=0\nanswer=1\nto=0\n";
    assert_eq!(String::from_utf8_lossy(&oracle::refsheet::output(sheet)), expected);
}

#[test]
fn a_lambda_without_names_opens_no_scope() {
    assert_eq!(facts(r#"21(11(29(-),18"q"))"#).scopes.scopes.len(), 1);
}

/// The value of the set's one static.
fn only_value(facts: &Facts) -> &Expr {
    let Expr::AttrSet { bindings, .. } = &facts.module.exprs[facts.module.entry as usize] else { panic!("a set is expected") };
    let [(_, BindingValue::Expr(value))] = bindings.statics[..] else { panic!("one static is expected") };
    &facts.module.exprs[value as usize]
}

#[test]
fn a_path_and_a_value_at_one_key() {
    let path_first = facts(r#"21(16(25(23(18"a",18"b"),9"1"),25(23(18"a"),9"2")))"#);
    assert_eq!(path_first.module.diagnostics.len(), 1);
    assert!(matches!(only_value(&path_first), Expr::AttrSet { .. }));
    let value_first = facts(r#"21(16(25(23(18"a"),9"2"),25(23(18"a",18"b"),9"1")))"#);
    assert_eq!(value_first.module.diagnostics.len(), 0);
    assert!(matches!(only_value(&value_first), Expr::AttrSet { .. }));
}

/// Line C of the engineer's list: where the diagnostic stands.
#[test]
fn the_places_of_a_duplicate_key() {
    let module = facts(r#"21(16(25(23(18"a"@2..3,18"b"@4..5),9"1"),25(23(18"a"@11..12),9"2")))"#).module;
    let first = Pointer { kind: 18, from: 2, to: 3 };
    let second = Pointer { kind: 18, from: 11, to: 12 };
    assert_eq!((module.diagnostics[0].first, module.diagnostics[0].second), (first, second));
    assert_eq!(module.lost, [first]);
}

#[test]
fn traps_and_lines_of_the_list() {
    check_answers(&[
        ("x: with a; x: an outer definition comes before a With", r#"21(11(28(18"x"),4(18"a",18"x")))"#, "e0:- e1:n0"),
        ("with a; with b; true: Line B", r#"21(4(18"a",4(18"b",18"true")))"#, "e0:- e1:4 e2:b21"),
        (
            "b: { a.b = 1; a = rec { c = b; }; }: a merged set's rec is dropped",
            r#"21(11(28(18"b"),16(25(23(18"a",18"b"),9"1"),25(23(18"a"),16!1(25(23(18"c"),18"b"))))))"#,
            "e1:n0",
        ),
        ("rec { b = 1; c = b; }", r#"21(16!1(25(23(18"b"),9"1"),25(23(18"c"),18"b")))"#, "e1:n0"),
        ("let a = ; in: Line E", r#"21(12(-,25(23(18"a"),-)))"#, ""),
        ("map + , the operator being absent", r#"21(14(18"map",-))"#, "e0:-"),
    ]);
}

#[test]
fn the_largest_integer_and_one_more() {
    let integer = |digits: &str| facts(&format!(r#"21(9"{digits}")"#)).module;
    let largest = integer("9223372036854775807");
    assert_eq!(largest.exprs, [Expr::Literal(canon::Literal::Integer(i64::MAX))]);
    assert_eq!(integer("000009223372036854775807").exprs, largest.exprs);
    for digits in ["9223372036854775808", "99999999999999999999999999999999999999999999"] {
        let module = integer(digits);
        assert_eq!((&module.exprs[..], &module.expr_pointers[..]), (&[Expr::Missing][..], &[None][..]));
    }
}

#[test]
fn depth_256_and_257() {
    // Root is at depth 1, so 254 Parens leave one level for the Ident.
    let parens = |count: usize| format!(r#"21({}18"x"{})"#, "15(".repeat(count), ")".repeat(count));
    let refusal = |count| sheet::check::check(&sheet::write(&sheet::short::parse(&parens(count)).unwrap()));
    assert!(refusal(254).is_ok());
    assert_eq!(refusal(255), Err(sheet::Refusal { number: 6, place: 255 }));
}
