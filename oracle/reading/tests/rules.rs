//! Sentences of docs/RULES.md that have no example there, and the deepest sheets.

mod common;

use canon::{BindingValue, Expr, Literal, NameKind, Part, ScopeKind};
use common::{answers, bindings, counts, entry, facts, on_large_stack, pointer};

#[test]
fn missing_with_and_without_a_pointer() {
    for (notation, has_pointer) in [("20", true), ("22", true), ("18", true), ("8", false), ("14(-,-)", false), ("17(-)", false)] {
        let f = facts(&format!("21({notation})"));
        assert_eq!(*entry(&f), Expr::Missing, "{notation}");
        assert_eq!(f.module.expr_pointers[f.module.entry as usize].is_some(), has_pointer, "{notation}");
    }
    let f = facts("21(-)");
    assert_eq!((entry(&f), pointer(&f, 0).as_str()), (&Expr::Missing, "-"));
}

#[test]
fn paren_and_root_give_the_inner_number() {
    let f = facts(r#"21(15(21(15(10@3..4))))"#);
    assert_eq!((f.module.exprs.len(), f.module.entry, pointer(&f, 0).as_str()), (1, 0, "10:3-4"));
    assert_eq!(f.module.exprs_by_pointer.len(), 1);
}

#[test]
fn the_last_writer_of_a_pointer_is_kept() {
    // `p: q: [ i j k ]` with one pointer for the parameters' Idents and one for two of the items.
    let f = facts(r#"21(11(28(18"p"@1..2),11(28(18"q"@1..2),13(18"i"@3..4,18"j"@3..4,18"k"@5..6))))"#);
    let of = |from, to| canon::Pointer { kind: sheet::kind::IDENT, from, to };
    assert_eq!((f.module.exprs_by_pointer[&of(3, 4)], f.module.exprs_by_pointer[&of(5, 6)]), (1, 2));
    assert_eq!(f.module.names_by_pointer.into_iter().collect::<Vec<_>>(), [(of(1, 2), 1)]);
}

#[test]
fn literals() {
    let only = |notation: &str| entry(&facts(&format!("21({notation})"))).clone();
    assert_eq!(only(r#"8"\x3f\xf0\x00\x00\x00\x00\x00\x00""#), Expr::Literal(Literal::Float(1f64.to_bits())));
    assert_eq!(only("10"), Expr::Literal(Literal::Uri));
    assert_eq!(only("6"), Expr::Literal(Literal::Text(Vec::new())));
    assert_eq!(only(r#"6(32"a")"#), Expr::Literal(Literal::Text(b"a".to_vec())));
    assert_eq!(only(r#"6(32"a",33(-))"#), Expr::StringInterpolation(vec![Part::Literal(b"a".to_vec()), Part::Interpol(0)]));
    assert_eq!(only(r#"7"./a"(32"./a")"#), Expr::Literal(Literal::Path(b"./a".to_vec())));
    assert_eq!(only(r#"7"./a"(32"./",33(-))"#), Expr::PathInterpolation(vec![Part::Literal(b"./".to_vec()), Part::Interpol(0)]));
}

#[test]
fn a_dynamic_inherited_one_is_a_missing_key_and_its_value() {
    // `x: { inherit ${x}; }`
    let f = facts(r#"21(11(28(18"x"),16(26(-,24(18"x")))))"#);
    assert_eq!(f.module.exprs[..2], [Expr::Missing, Expr::Reference(b"x".to_vec())]);
    assert_eq!((bindings(&f, 2).dynamics.as_slice(), answers(&f).as_str()), (&[(0, 1)][..], "e1 n0"));
}

#[test]
fn an_assert_walks_its_body_first() {
    // `assert (with a; 1); with b; 2`: the body's scope is numbered first.
    let f = facts(r#"21(19(4(18"a",9"1"),4(18"b",9"2")))"#);
    let withs: Vec<&ScopeKind> = f.scopes.scopes[1..].iter().map(|scope| &scope.kind).collect();
    assert_eq!(withs, [&ScopeKind::With(5), &ScopeKind::With(2)]);
}

#[test]
fn a_rec_set_and_a_default_see_their_names() {
    // `rec { a = b; b = a; }`
    assert_eq!(answers(&facts(r#"21(16!1(25(23(18"a"),18"b"),25(23(18"b"),18"a")))"#)), "e0 n1; e1 n0");
    // `{ a = b; b = a; }`
    assert_eq!(answers(&facts(r#"21(16(25(23(18"a"),18"b"),25(23(18"b"),18"a")))"#)), "e0 none; e1 none");
    // `{ a ? b, b }: 1`
    assert_eq!(answers(&facts(r#"21(11(29(-,31(18"a",18"b"),31(18"b",-)),9"1"))"#)), "e0 n1");
}

#[test]
fn nested_sets_are_plain_whatever_is_around_them() {
    // `rec { a.b = b; }` and `let a.b = b; in b`: the first name is of the kind of the set around, b is no definition.
    let rec_set = facts(r#"21(16!1(25(23(18"a",18"b"),18"b")))"#);
    let let_in = facts(r#"21(12(18"b",25(23(18"a",18"b"),18"b")))"#);
    let kinds = |f: &canon::Facts| f.module.names.iter().map(|name| name.kind).collect::<Vec<_>>();
    assert_eq!(kinds(&rec_set), [NameKind::RecAttrset, NameKind::PlainAttrset]);
    assert_eq!(kinds(&let_in), [NameKind::LetIn, NameKind::PlainAttrset]);
    assert_eq!((answers(&rec_set).as_str(), answers(&let_in).as_str()), ("e0 none", "e0 none; e2 none"));
}

#[test]
fn statics_stand_in_byte_order() {
    let f = facts(r#"21(16(25(23(18"b"),-),25(23(18"\xff"),-),25(23(18"ab"),-),25(23(18"a"),-),25(23(18"B"),-)))"#);
    let names: Vec<u32> = bindings(&f, f.module.entry).statics.iter().map(|(name, _)| *name).collect();
    assert_eq!(names, [4, 3, 2, 0, 1]);
}

#[test]
fn a_third_value_and_a_set_merged_after_a_duplicate() {
    // `{ a = 1; a.b = 2; a = 3; a = { c = 4; }; inherit a; }`
    let f = facts(concat!(
        r#"21(16(25(23(18"a"),9"1"),25(23(18"a",18"b"),9"2"),25(23(18"a"),9"3"),"#,
        r#"25(23(18"a"),16(25(23(18"c"),9"4"))),26(-,18"a")))"#
    ));
    assert_eq!(counts(&f), [7, 3, 1, 2]);
    assert!(f.module.lost.iter().all(|first| *first == f.module.name_pointers[0]));
    let [(0, BindingValue::Expr(set))] = bindings(&f, f.module.entry).statics[..] else { panic!("one key") };
    assert_eq!(bindings(&f, set).statics.len(), 2);
    assert_eq!(answers(&f), "e4 none");
}

#[test]
fn a_duplicate_inside_a_value_comes_before_its_own() {
    // `{ a = 1; a = { b = 1; b = 2; }; }`
    let f = facts(r#"21(16(25(23(18"a"),9"1"),25(23(18"a"),16(25(23(18"b"),9"1"),25(23(18"b"),9"2")))))"#);
    let keys: Vec<&[u8]> = f.module.diagnostics.iter().map(|d| d.key.as_slice()).collect();
    assert_eq!(keys, [b"b", b"a"]);
}

#[test]
fn an_inherit_merged_into_a_nested_set_keeps_its_source_there() {
    // `x: { a.b = 1; a = rec { inherit (x) y; inherit x; }; }`
    let f = facts(r#"21(11(28(18"x"),16(25(23(18"a",18"b"),9"1"),25(23(18"a"),16!1(26(27(18"x"),18"y"),26(-,18"x"))))))"#);
    assert_eq!((answers(&f).as_str(), f.scopes.scopes.len()), ("e1 n0; e4 n0", 2));
    assert_eq!(bindings(&f, 5).inherit_froms, [1]);
}

/// Sixteen attributes that make fifteen sets, with a tree inside at the last.
fn long_path(value: &str) -> String {
    let attrs = vec![r#"18"a""#; 15].join(",");
    format!(r#"25(23({attrs},18"z"),{value})"#)
}

#[test]
fn the_deepest_expressions() {
    // A set and its entry take two levels of nodes and sixteen of expressions.
    let tree = (0..126).fold(r#"18"x""#.to_string(), |inner, _| format!("16({})", long_path(&inner)));
    let nodes = sheet::short::parse(&format!("21({tree})")).expect("a tree");
    let reading = on_large_stack(move || reading::Plain::new(&nodes));
    let f = canon::Reading::facts(&reading);
    assert_eq!(counts(&f), [126 * 16 + 1, 126 * 16, 1, 0]);
    assert_eq!(f.scopes.of_expr.iter().filter(|scope| scope.is_none()).count(), 0);
}

#[test]
fn the_deepest_merging_state() {
    // `{ a.a...z = 1; a.a... = { the same again }; }`: the second entry's path ends at the nested set that the first
    // one made.
    let level = |inner: &str| {
        let fifteen = vec![r#"18"a""#; 15].join(",");
        format!("{},25(23({fifteen}),16({inner}))", long_path("10"))
    };
    let tree = (0..110).fold(long_path("10"), |inner, _| level(&inner));
    let nodes = sheet::short::parse(&format!("21(16({tree}))")).expect("a tree");
    assert!(nodes.len() <= sheet::MAX_NODES);
    let reading = on_large_stack(move || reading::Plain::new(&nodes));
    let f = canon::Reading::facts(&reading);
    // 111 Uris, 111 times fifteen nested sets (1,665 levels of one state), and the whole.
    assert_eq!(counts(&f)[0], 111 + 111 * 15 + 1);
    assert_eq!(f.scopes.of_expr.iter().filter(|scope| scope.is_none()).count(), 0);
}

#[test]
fn one_inherit_of_many_keys() {
    let attrs: Vec<String> = (0..4_093).map(|i| format!(r#"18"k{i}""#)).collect();
    let f = facts(&format!("21(16(26(-,{})))", attrs.join(",")));
    assert_eq!(counts(&f)[..2], [4_094, 4_093]);
    let texts: Vec<&[u8]> =
        bindings(&f, f.module.entry).statics.iter().map(|(name, _)| f.module.names[*name as usize].text.as_slice()).collect();
    assert!(texts.windows(2).all(|pair| pair[0] < pair[1]));
}
