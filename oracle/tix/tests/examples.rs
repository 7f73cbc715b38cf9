//! The followed examples of docs/RULES.md, as rnix would give them.

mod common;

use canon::{Answer, BindingValue, Literal};
use common::{answer, answers, bindings, counts, definition, facts, is_set, statics};

#[test]
fn x_gives_x() {
    let tree = r#"21@0..4(11@0..4(28@0..1(18@0..1"x"),18@3..4"x"))"#;
    let nodes = sheet::short::parse(tree).unwrap();
    let sheet = String::from_utf8(sheet::write(&nodes)).unwrap();
    assert_eq!(
        sheet.replace("\nkind", ";kind").replace('\n', " ").replace(";kind", "\nkind").trim_end(),
        "nodes=5\nkind=21 from=0 to=4 flag=0 kids=1 text=\nkind=11 from=0 to=4 flag=0 kids=2,4 text=\n\
         kind=28 from=0 to=1 flag=0 kids=3 text=\nkind=18 from=0 to=1 flag=1 kids= text=78\nkind=18 from=3 to=4 flag=1 kids= text=78"
    );
    let facts = facts(tree);
    assert_eq!(counts(&facts), [2, 1, 2, 0]);
    assert_eq!(answers(&facts), [(0, definition(0))]);
    assert_eq!(facts.resolution.references, [[0]]);
}

#[test]
fn a_field_hides_the_bind() {
    let facts = facts(r#"21(11(29(30(18"x"),31(18"x",-)),18"x"))"#);
    assert_eq!(answers(&facts), [(0, definition(1))]);
    assert_eq!(facts.scopes.scopes[1].kind, canon::ScopeKind::Definitions(vec![0, 1]));
}

#[test]
fn a_builtin_comes_before_a_with() {
    let facts = facts(r#"21(4(18"a",18"map"))"#);
    assert_eq!(answer(&facts, 1), Answer::Builtin(14));
}

#[test]
fn withs_are_listed_innermost_first() {
    let facts = facts(r#"21(4(18"a",4(18"b",18"c")))"#);
    assert_eq!(answers(&facts), [(0, Answer::None), (1, Answer::Withs(vec![4])), (2, Answer::Withs(vec![3, 4]))]);
    // One more With, since the order of a list of two says little.
    let facts = common::facts(r#"21(4(-,4(-,4(-,18"c"))))"#);
    assert_eq!(answers(&facts), [(3, Answer::Withs(vec![4, 5, 6]))]);
}

#[test]
fn a_definition_outside_a_with_comes_first() {
    let facts = facts(r#"21(11(28(18"y"),4(18"y",18"y")))"#);
    assert_eq!(answers(&facts), [(0, definition(0)), (1, definition(0))]);
}

#[test]
fn a_lambda_without_names_opens_no_scope() {
    let facts = facts(r#"21(11(29(-),18"q"))"#);
    assert_eq!(counts(&facts)[2], 1);
    assert_eq!(answers(&facts), [(0, Answer::None)]);
}

#[test]
fn plain_inherit_is_resolved_outside() {
    let facts = facts(r#"21(11(28(18"x"),12(18"x",26(-,18"x"))))"#);
    assert_eq!(answers(&facts), [(0, definition(0)), (1, definition(1))]);
}

#[test]
fn a_source_is_resolved_inside() {
    let facts = facts(r#"21(11(28(18"x"),12(18"x",26(27(18"x"),18"x"))))"#);
    assert_eq!(answers(&facts), [(0, definition(1)), (3, definition(1))]);
}

#[test]
fn a_value_after_a_path_is_a_duplicate() {
    let facts = facts(r#"21(16(25(23(18"a",18"b"),9"1"),25(23(18"a"),9"2")))"#);
    assert_eq!(counts(&facts)[3], 1);
    assert_a_is_the_set(&facts);
}

#[test]
fn a_path_after_a_value_is_none() {
    let facts = facts(r#"21(16(25(23(18"a"),9"2"),25(23(18"a",18"b"),9"1")))"#);
    assert_eq!(counts(&facts)[3], 0);
    assert_a_is_the_set(&facts);
}

fn assert_a_is_the_set(facts: &canon::Facts) {
    let [(key, BindingValue::Expr(value))] = &statics(facts, facts.module.entry)[..] else { panic!("one value is wanted") };
    assert_eq!((key.as_str(), is_set(facts, *value)), ("a", true));
    assert_eq!(statics(facts, *value).iter().map(|(key, _)| key.as_str()).collect::<Vec<_>>(), ["b"]);
}

#[test]
fn a_replaced_value_is_not_walked() {
    let facts = facts(r#"21(11(28(18"x"),16(25(23(18"a"),18"x"),25(23(18"a"),9"2"))))"#);
    assert_eq!(answers(&facts), [(0, Answer::None)]);
}

#[test]
fn a_dynamic_key_comes_after_its_nested_set() {
    let facts = facts(r#"21(16(25(23(24(18"k"),18"b"),9"1")))"#);
    assert_eq!(facts.module.exprs[2], canon::Expr::Reference(b"k".to_vec()));
    assert_eq!(bindings(&facts, 3).dynamics, [(2, 1)]);
}

#[test]
fn the_largest_integer_and_one_more() {
    let most = facts(r#"21(9"9223372036854775807")"#);
    assert_eq!(most.module.exprs, [canon::Expr::Literal(Literal::Integer(i64::MAX))]);
    let more = facts(r#"21(9"9223372036854775808")"#);
    assert_eq!((more.module.exprs.as_slice(), more.module.expr_pointers.as_slice()), (&[canon::Expr::Missing][..], &[None][..]));
}
