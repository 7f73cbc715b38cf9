//! docs/DECISIONS.md, D1 to D14: every tree, with its counts and answers; and uses of what docs/DIFFERENCES.md tells of
//! Nix.

mod common;

use canon::{BindingValue, Expr, Literal, NameKind, Reading, ScopeKind};
use common::{answers, bindings, counts, facts, plain, pointer, value_at};

#[test]
fn point_1_absent_defaults_allocate_nothing() {
    assert_eq!(facts("21(3(-,-,-))").module.exprs.len(), 2);
    assert_eq!(facts(r#"21(11(29(-,31(18"x",-)),-))"#).module.exprs.len(), 2);
}

#[test]
fn point_2_an_ident_without_text_in_a_path() {
    let f = facts("21(3(-,23(18),-))");
    assert_eq!(f.module.exprs.len(), 3);
    assert_eq!((&f.module.exprs[1], f.module.expr_pointers[1]), (&Expr::Missing, None));
    let f = facts("21(16(25(23(18),-)))");
    assert_eq!(counts(&f)[..2], [2, 1]);
    assert_eq!(f.module.names[0].text, b"");
}

#[test]
fn point_3_which_strings_are_dynamic_keys() {
    assert_eq!(counts(&facts(r#"21(16(25(23(6(32"a",32"b")),-)))"#))[..2], [3, 0]);
    assert_eq!(counts(&facts(r#"21(16(25(23(6(33(18"x"))),-)))"#))[1], 0);
    let f = facts(r#"21(16(25(23(24(15(15(6(32"a"))))),-)))"#);
    assert_eq!(counts(&f)[..2], [2, 1]);
    assert_eq!(f.module.names[0].text, b"a");
    assert_eq!(facts("21(16(25(23(6),-)))").module.names[0].text, b"");
    assert!(facts(r#"21(16(25(23(24(18"a")),-)))"#).module.names.is_empty());
}

#[test]
fn point_4_a_replaced_value_and_a_source() {
    // `x: { inherit x; x = 2; }`
    assert_eq!(answers(&facts(r#"21(11(28(18"x"),16(26(-,18"x"),25(23(18"x"),9"2"))))"#)), "e0 none");
    // `x: { inherit (x) a; a = 2; }`
    let f = facts(r#"21(11(28(18"x"),16(26(27(18"x"),18"a"),25(23(18"a"),9"2"))))"#);
    assert_eq!((answers(&f).as_str(), f.module.diagnostics.len()), ("e0 n0", 1));
}

#[test]
fn point_5_no_path_is_a_dynamic() {
    for notation in ["21(16(25(-,-)))", "21(16(25(23,-)))"] {
        let f = facts(notation);
        assert_eq!(counts(&f)[..2], [3, 0]);
        assert_eq!(bindings(&f, 2).dynamics, [(0, 1)]);
    }
}

#[test]
fn point_6_parameters_without_text() {
    assert_eq!(answers(&facts(r#"21(11(28(18),18""))"#)), "e0 n0");
    let f = facts(r#"21(11(28(-),18""))"#);
    assert_eq!(counts(&f), [2, 0, 1, 0]);
    let f = facts(r#"21(11(29(30(18),31(18,-),31(-,-)),18""))"#);
    assert_eq!((answers(&f).as_str(), f.module.names.len()), ("e0 n1", 2));
    assert_eq!((f.module.names[0].kind, f.module.names[1].kind), (NameKind::Param, NameKind::PatField));
}

#[test]
fn point_7_plain_inherit_of_an_ident_without_text() {
    let f = facts("21(16(26(-,18)))");
    assert_eq!(f.module.exprs[0], Expr::Reference(Vec::new()));
    assert_eq!(bindings(&f, 1).statics, [(0, BindingValue::Inherit(0))]);
}

#[test]
fn point_8_a_root_is_no_paren() {
    // `{ a.b = 1; a = { c = 2; }; }`, and with a Paren or a Root around the value.
    let tree = |value: &str| facts(&format!(r#"21(16(25(23(18"a",18"b"),9"1"),25(23(18"a"),{value})))"#));
    let value = r#"16(25(23(18"c"),9"2"))"#;
    assert_eq!(counts(&tree(value)), [4, 3, 1, 0]);
    assert_eq!(counts(&tree(&format!("15({value})"))), [5, 3, 1, 1]);
    assert_eq!(counts(&tree(&format!("21({value})"))), [5, 3, 1, 1]);
    assert_eq!(counts(&facts(r#"21(16(25(23(24(21(6(32"a")))),-)))"#))[..2], [3, 0]);
}

#[test]
fn point_9_sides_of_operators_without_a_flag() {
    let f = facts(r#"21(11(28(18"x"),14(18"x",18"y")))"#);
    assert_eq!(answers(&f), "e0 none");
    assert_eq!((f.scopes.of_expr[0], f.module.exprs.len()), (None, 3));
    assert_eq!(pointer(&f, 1), "-");
    assert_eq!(answers(&facts(r#"21(14(18"map",-))"#)), "e0 none");
    assert_eq!(facts(r#"21(17(18"x"))"#).module.exprs, [Expr::Missing]);
}

#[test]
fn point_10_pointers() {
    // `{ a.b = 1; }`: {b} has the pointer of a.
    let f = facts(r#"21(16(25(23(18"a"@7..8,18"b"),9"1")))"#);
    assert_eq!(pointer(&f, value_at(&f, f.module.entry, b"a")), "18:7-8");
    // `{ inherit x; }` and `{ inherit (y) x; }`: the attribute's, and the last writer is the Select.
    let f = facts(r#"21(16(26(-,18"x"@5..6)))"#);
    assert_eq!((pointer(&f, 0).as_str(), f.module.name_pointers[0].to_string().as_str()), ("18:5-6", "18:5-6"));
    let f = facts(r#"21(16(26(27(18"y"),18"x"@5..6)))"#);
    assert_eq!((pointer(&f, 1).as_str(), pointer(&f, 2).as_str()), ("18:5-6", "18:5-6"));
    assert_eq!(f.module.exprs[1], Expr::Literal(Literal::Text(b"x".to_vec())));
    assert_eq!(f.module.exprs_by_pointer[&f.module.name_pointers[0]], 2);
    // `{ ${"a"} = 1; }`: the Dynamic's.
    let f = facts(r#"21(16(25(23(24@3..9(6(32"a"))),9"1")))"#);
    assert_eq!(f.module.name_pointers[0].to_string(), "24:3-9");
    // `{ a = 2; a.b = 1; }`: the name has the first a's, the nested set the second's, which made it.
    let f = facts(r#"21(16(25(23(18"a"@1..2),9"2"),25(23(18"a"@3..4,18"b"),9"1")))"#);
    assert_eq!(f.module.name_pointers[0].to_string(), "18:1-2");
    assert_eq!(pointer(&f, value_at(&f, f.module.entry, b"a")), "18:3-4");
}

#[test]
fn point_11_a_let_lowers_its_body_last() {
    // `let a = 1; in 2`
    let f = facts(r#"21(12(9"2",25(23(18"a"),9"1")))"#);
    assert_eq!(f.module.exprs[..2], [Expr::Literal(Literal::Integer(1)), Expr::Literal(Literal::Integer(2))]);
}

#[test]
fn point_11_names_beside_values() {
    let texts =
        |notation: &str| facts(notation).module.names.iter().map(|n| String::from_utf8_lossy(&n.text).into_owned()).collect::<Vec<_>>();
    // `{ a = v: 1; }`: the value before the name.
    assert_eq!(texts(r#"21(16(25(23(18"a"),11(28(18"v"),9"1"))))"#), ["v", "a"]);
    // `{ a.b.c = v: 1; a.d.e = w: 1; }`: names but the last before the value, where the key is new.
    let two = r#"21(16(25(23(18"a",18"b",18"c"),11(28(18"v"),-)),25(23(18"a",18"d",18"e"),11(28(18"w"),-))))"#;
    assert_eq!(texts(two), ["a", "b", "v", "c", "d", "w", "e"]);
    // `{ inherit (v: 1) a; }`
    assert_eq!(texts(r#"21(16(26(27(11(28(18"v"),-)),18"a")))"#), ["v", "a"]);
}

#[test]
fn point_11_sets_below_a_dynamic_key_are_built_at_once() {
    // `{ ${k}.b.c = 1; d = 2; }`
    let f = facts(r#"21(16(25(23(24(18"k"),18"b",18"c"),9"1"),25(23(18"d"),9"2")))"#);
    assert_eq!(f.module.exprs[0], Expr::Literal(Literal::Integer(1)));
    assert_eq!(value_at(&f, 1, b"c"), 0);
    assert_eq!(value_at(&f, 2, b"b"), 1);
    assert_eq!(f.module.exprs[3], Expr::Reference(b"k".to_vec()));
    assert_eq!(f.module.exprs[4], Expr::Literal(Literal::Integer(2)));
    assert_eq!(f.module.entry, 5);
    assert_eq!(bindings(&f, 5).dynamics, [(3, 2)]);
}

#[test]
fn point_12_a_source_without_attributes() {
    // `x: { inherit (x); }`
    let f = facts(r#"21(11(28(18"x"),16(26(27(18"x")))))"#);
    assert_eq!((answers(&f).as_str(), &bindings(&f, 1).inherit_froms[..]), ("e0 n0", &[0][..]));
    let f = facts("21(16(26(27(-))))");
    assert_eq!((f.module.exprs.len(), f.scopes.of_expr[0]), (2, Some(0)));
}

#[test]
fn point_13_order_of_walking_a_let() {
    // `let b = u: 1; inherit (v: 1) c; ${k: 1} = w: 1; a = t: 1; in y: 1`, each lambda's scope numbered as it is met.
    let lambda = |name: &str| format!(r#"11(28(18"{name}"),-)"#);
    let f = facts(&format!(
        r#"21(12({},25(23(18"b"),{}),26(27({}),18"c"),25(23(24({})),{}),25(23(18"a"),{})))"#,
        lambda("y"),
        lambda("u"),
        lambda("v"),
        lambda("k"),
        lambda("w"),
        lambda("t")
    ));
    let text = |scope: &canon::Scope| match &scope.kind {
        ScopeKind::Definitions(names) => {
            names.iter().map(|&n| String::from_utf8_lossy(&f.module.names[n as usize].text)).collect::<String>()
        }
        ScopeKind::With(_) => panic!("no With here"),
    };
    let entered: Vec<String> = f.scopes.scopes.iter().map(text).collect();
    assert_eq!(entered, ["", "abc", "t", "u", "v", "k", "w", "y"]);
}

#[test]
fn point_14_scopes_with_little_in_them() {
    let f = facts("21(4(-,-))");
    assert_eq!((f.scopes.scopes.len(), f.scopes.of_expr[1]), (2, Some(1)));
    assert_eq!(counts(&facts(r#"21(12(-,25(23(24(18"k")),-)))"#))[2], 1);
    assert_eq!(counts(&facts(r#"21(16!1(25(23(24(18"k")),-)))"#))[2], 1);
}

#[test]
fn point_24_a_set_before_a_path_or_a_set() {
    // `x: { a = { b = x; }; a.c = 1; }`
    let first = r#"25(23(18"a"),16(25(23(18"b"),18"x")))"#;
    let f = facts(&format!(r#"21(11(28(18"x"),16({first},25(23(18"a",18"c"),9"1"))))"#));
    assert_eq!((answers(&f).as_str(), f.module.diagnostics.len()), ("e0 none", 0));
    // `x: { a = { b = x; }; a = { c = 1; }; }`
    let f = facts(&format!(r#"21(11(28(18"x"),16({first},25(23(18"a"),16(25(23(18"c"),9"1"))))))"#));
    assert_eq!((answers(&f).as_str(), f.module.diagnostics.len()), ("e0 none", 1));
    // `let c = "o"; in { a = rec { b = c; }; a.c = "i"; }`
    let rec_set = r#"25(23(18"a"),16!1(25(23(18"b"),18"c")))"#;
    let path = r#"25(23(18"a",18"c"),6(32"i"))"#;
    let tree = |a: &str, b: &str| facts(&format!(r#"21(12(16({a},{b}),25(23(18"c"),6(32"o"))))"#));
    assert_eq!(answers(&tree(rec_set, path)), "e1 none");
    // `let c = "o"; in { a.c = "i"; a = rec { b = c; }; }`: the rec is dropped, c is the let's.
    let f = tree(path, rec_set);
    assert_eq!(answers(&f), "e2 n0");
    assert!(f.module.names[1..].iter().all(|name| name.kind == NameKind::PlainAttrset));
}

#[test]
fn points_23_and_25_builtins_and_what_nix_calls_errors() {
    assert_eq!(answers(&facts(r#"21(4(-,18"fetchurl"))"#)), "e1 builtin 10");
    assert_eq!(answers(&facts(r#"21(4(-,18"derivationStrict"))"#)), "e1 with 2");
    assert_eq!(answers(&facts(r#"21(4(-,18"__add"))"#)), "e1 with 2");
    // `{ x, x }: x`
    assert_eq!(answers(&facts(r#"21(11(29(-,31(18"x",-),31(18"x",-)),18"x"))"#)), "e0 n1");
    // `y: let x = 1; inherit (y) x; in x`
    let f = facts(r#"21(11(28(18"y"),12(18"x",25(23(18"x"),9"1"),26(27(18"y"),18"x"))))"#);
    assert_eq!((answers(&f).as_str(), f.module.diagnostics.len()), ("e1 n0; e4 n1", 1));
}

#[test]
fn point_a_names_stay_entered_in_the_loaded_order() {
    // `let b = 1; a = 2; in a`: entered a (n1), then b (n0).
    let mut reading = plain(r#"21(12(18"a",25(23(18"b"),9"1"),25(23(18"a"),9"2")))"#);
    assert_eq!(reading.facts().scopes.scopes[1].kind, ScopeKind::Definitions(vec![1, 0]));
    reading.set_name(1, b"z");
    reading.set_name(0, b"z");
    reading.set_reference(2, b"z");
    let f = reading.facts();
    assert_eq!(answers(&f), "e2 n0");
    assert_eq!(f.scopes.scopes[1].kind, ScopeKind::Definitions(vec![1, 0]));
}

#[test]
fn point_d_a_plain_inherit_has_two_texts_and_the_rest_stays() {
    // `x: { inherit x; inherit (x) y; y = 1; }`
    let mut reading = plain(r#"21(11(28(18"x"),16(26(-,18"x"),26(27(18"x"),18"y"),25(23(18"y"),9"1"))))"#);
    let loaded = reading.facts();
    reading.set_name(1, b"p");
    reading.set_name(2, b"q");
    assert_eq!(reading.facts().module.exprs, loaded.module.exprs);
    reading.set_reference(0, b"r");
    let f = reading.facts();
    assert_eq!((f.module.names[1].text.as_slice(), f.module.names[2].text.as_slice()), (&b"p"[..], &b"q"[..]));
    assert_eq!(f.module.exprs[0], Expr::Reference(b"r".to_vec()));
    assert_eq!(f.module.exprs[2], Expr::Literal(Literal::Text(b"y".to_vec())));
    assert_eq!((&f.module.diagnostics, &f.module.lost), (&loaded.module.diagnostics, &loaded.module.lost));
    assert_eq!(f.scopes, loaded.scopes);
    assert_eq!(answers(&f), "e0 none; e1 n0");
}
