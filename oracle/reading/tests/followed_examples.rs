//! Document 01, "Followed examples": each marked one, by the tree that Nix's parser gives for its text.

mod common;

use canon::{Expr, NameKind};
use common::{answers, counts, entry, facts, value_at};

#[test]
fn a_parameter_is_found() {
    // `x: x`
    let f = facts(r#"21@0..4(11@0..4(28@0..1(18"x"@0..1),18"x"@3..4))"#);
    assert_eq!(counts(&f), [2, 1, 2, 0]);
    assert_eq!(answers(&f), "e0 n0");
    assert_eq!(f.resolution.references, [vec![0]]);
}

#[test]
fn a_field_hides_the_bind() {
    // `x@{x}: x`
    let f = facts(r#"21(11(29(30(18"x"),31(18"x",-)),18"x"))"#);
    assert_eq!(answers(&f), "e0 n1");
    assert_eq!(f.resolution.references, [vec![], vec![0]]);
}

#[test]
fn a_builtin_is_not_taken_over_by_a_with() {
    // `with a; map`
    assert_eq!(answers(&facts(r#"21(4(18"a",18"map"))"#)), "e0 none; e1 builtin 14");
}

#[test]
fn withs_answer_innermost_first() {
    // `with a; with b; c`
    assert_eq!(answers(&facts(r#"21(4(18"a",4(18"b",18"c")))"#)), "e0 none; e1 with 4; e2 with 3,4");
}

#[test]
fn a_definition_is_found_past_a_with() {
    // `y: with y; y`
    let f = facts(r#"21(11(28(18"y"),4(18"y",18"y")))"#);
    assert_eq!(answers(&f), "e0 n0; e1 n0");
    assert_eq!(f.resolution.references, [vec![0, 1]]);
}

#[test]
fn a_lambda_without_names_opens_no_scope() {
    // `{}: q`
    let f = facts(r#"21(11(29(-),18"q"))"#);
    assert_eq!(counts(&f), [2, 0, 1, 0]);
    assert_eq!(answers(&f), "e0 none");
}

#[test]
fn plain_inherit_is_resolved_outside() {
    // `x: let inherit x; in x`
    let f = facts(r#"21(11(28(18"x"),12(18"x",26(-,18"x"))))"#);
    assert_eq!(answers(&f), "e0 n0; e1 n1");
}

#[test]
fn an_inherit_source_is_resolved_inside() {
    // `x: let inherit (x) x; in x`
    let f = facts(r#"21(11(28(18"x"),12(18"x",26(27(18"x"),18"x"))))"#);
    assert_eq!(answers(&f), "e0 n1; e3 n1");
    assert_eq!(f.scopes.of_expr[1..3], [None, None]);
}

#[test]
fn a_value_after_a_path_is_a_duplicate_and_the_set_wins() {
    // `{ a.b = 1; a = 2; }`
    let f = facts(r#"21(16(25(23(18"a",18"b"),9"1"),25(23(18"a"),9"2")))"#);
    assert_eq!(f.module.diagnostics.len(), 1);
    assert_eq!(f.module.lost, [f.module.name_pointers[0]]);
    let a = value_at(&f, f.module.entry, b"a");
    assert!(matches!(f.module.exprs[a as usize], Expr::AttrSet { is_rec: false, .. }));
}

#[test]
fn a_path_after_a_value_is_none_and_the_set_wins() {
    // `{ a = 2; a.b = 1; }`
    let f = facts(r#"21(16(25(23(18"a"),9"2"),25(23(18"a",18"b"),9"1")))"#);
    assert!(f.module.diagnostics.is_empty() && f.module.lost.is_empty());
    let a = value_at(&f, f.module.entry, b"a");
    assert!(matches!(f.module.exprs[a as usize], Expr::AttrSet { is_rec: false, .. }));
}

#[test]
fn a_replaced_value_is_not_walked() {
    // `x: { a = x; a = 2; }`
    let f = facts(r#"21(11(28(18"x"),16(25(23(18"a"),18"x"),25(23(18"a"),9"2"))))"#);
    assert_eq!(answers(&f), "e0 none");
    assert_eq!(f.scopes.of_expr[0], None);
}

#[test]
fn a_dynamic_key_comes_after_its_nested_set() {
    // `{ ${k}.b = 1; }`
    let f = facts(r#"21(16(25(23(24(18"k"),18"b"),9"1")))"#);
    assert_eq!(f.module.exprs[2], Expr::Reference(b"k".to_vec()));
    let Expr::AttrSet { bindings, .. } = entry(&f) else { panic!("a set") };
    assert_eq!(bindings.dynamics, [(2, 1)]);
    assert_eq!(f.module.names[0].kind, NameKind::PlainAttrset);
}

#[test]
fn the_largest_integer_and_one_more() {
    let f = facts(r#"21(13(9"9223372036854775807",9"9223372036854775808",9"0000000000000000000000000000012"))"#);
    assert_eq!(f.module.exprs[0], Expr::Literal(canon::Literal::Integer(i64::MAX)));
    assert_eq!((&f.module.exprs[1], f.module.expr_pointers[1]), (&Expr::Missing, None));
    assert_eq!(f.module.exprs[2], Expr::Literal(canon::Literal::Integer(12)));
}
