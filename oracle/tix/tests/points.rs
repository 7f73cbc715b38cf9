//! The points that need care, each with its trees and what it says of them.

mod common;

use canon::{Answer, BindingValue, Expr, Facts, NameKind, ScopeKind};
use common::{answer, answers, bindings, counts, definition, facts, is_set, pointer, shown, statics};

fn exprs_and_names(notation: &str) -> [usize; 2] {
    let [exprs, names, _, _] = counts(&facts(notation));
    [exprs, names]
}

fn reference(text: &str) -> Expr {
    Expr::Reference(text.as_bytes().to_vec())
}

#[test]
fn point_1_an_absent_default_allocates_nothing() {
    assert_eq!(exprs_and_names("21(3(-,-,-))"), [2, 0]);
    assert_eq!(exprs_and_names(r#"21(11(29(-,31(18"x",-)),-))"#), [2, 1]);
}

#[test]
fn point_2_a_flag_0_ident_in_a_path() {
    let select = facts("21(3(-,23(18),-))");
    assert_eq!(counts(&select)[0], 3);
    assert_eq!((&select.module.exprs[1], select.module.expr_pointers[1]), (&Expr::Missing, None));
    let set = facts("21(16(25(23(18),-)))");
    assert_eq!(counts(&set)[..2], [2, 1]);
    assert!(set.module.names[0].text.is_empty());
}

#[test]
fn point_3_dynamic_keys() {
    assert_eq!(exprs_and_names(r#"21(16(25(23(6(32"a",32"b")),-)))"#), [3, 0]);
    let interpolated = facts(r#"21(16(25(23(6(33(18"a"))),-)))"#);
    assert_eq!((counts(&interpolated)[1], bindings(&interpolated, interpolated.module.entry).dynamics.len()), (0, 1));
    let plain = facts(r#"21(16(25(23(24(6(32"a"))),-)))"#);
    assert_eq!(statics(&plain, plain.module.entry), [("a".to_string(), BindingValue::Expr(0))]);
}

#[test]
fn point_4_what_is_replaced_and_walked() {
    let plain = facts(r#"21(11(28(18"x"),16(26(-,18"x"),25(23(18"x"),9"2"))))"#);
    assert_eq!(answer(&plain, 0), Answer::None);
    let from = facts(r#"21(11(28(18"x"),16(26(27(18"x"),18"a"),25(23(18"a"),9"2"))))"#);
    assert_eq!(counts(&from)[3], 1);
    assert_eq!(answer(&from, 0), definition(0));
}

#[test]
fn point_5_entries_without_a_path() {
    for tree in ["21(16(25(-,-)))", "21(16(25(23,-)))"] {
        let facts = facts(tree);
        assert_eq!(counts(&facts)[..2], [3, 0], "{tree}");
        assert_eq!(bindings(&facts, 2).dynamics, [(0, 1)], "{tree}");
    }
}

#[test]
fn point_6_flag_0_idents_as_parameters() {
    let named = facts(r#"21(11(28(18),18""))"#);
    assert_eq!(answers(&named), [(0, definition(0))]);
    let unnamed = facts(r#"21(11(28(-),18""))"#);
    assert_eq!(counts(&unnamed)[1..3], [0, 1]);
    let pattern = facts(r#"21(11(29(30(18),31(18,-),31(-,-)),18""))"#);
    assert_eq!(counts(&pattern)[1], 2);
    assert!(pattern.module.names.iter().all(|name| name.text.is_empty()));
    assert_eq!(answers(&pattern), [(0, definition(1))]);
}

#[test]
fn point_7_plain_inherit_of_a_flag_0_ident() {
    let facts = facts("21(16(26(-,18)))");
    assert_eq!(facts.module.exprs[0], reference(""));
    assert_eq!(answers(&facts), [(0, Answer::None)]);
}

#[test]
fn point_8_root_is_no_paren() {
    let merged = |value: &str| {
        let facts = facts(&format!(r#"21(16(25(23(18"a",18"b"),9"1"),25(23(18"a"),{value})))"#));
        counts(&facts)[3] == 0
    };
    let set = r#"16(25(23(18"c"),9"2"))"#;
    assert!(merged(set));
    assert!(!merged(&format!("21({set})")));
    assert!(!merged(&format!("15({set})")));
    assert_eq!(exprs_and_names(r#"21(16(25(23(24(21(6(32"a")))),-)))"#)[1], 0);
    assert_eq!(exprs_and_names(r#"21(16(25(23(24(15(15(6(32"a"))))),-)))"#)[1], 1);
    assert_eq!(exprs_and_names(r#"21(16(25(23(24(18"a")),-)))"#)[1], 0);
}

#[test]
fn point_9_operators_without_a_flag() {
    let facts_of_binary = facts(r#"21(14(18"map",18"x"))"#);
    assert_eq!(facts_of_binary.module.exprs, [reference("map"), Expr::Missing]);
    assert_eq!(facts_of_binary.scopes.of_expr, [None, Some(0)]);
    assert_eq!(answers(&facts_of_binary), [(0, Answer::None)]);
    assert_eq!(facts(r#"21(17(18"x"))"#).module.exprs, [Expr::Missing]);
}

#[test]
fn point_10_pointers() {
    let path = r#"21(16(25(23(18"a",18"b"),9"1")))"#;
    let nested = facts(path);
    assert!(is_set(&nested, 1));
    assert_eq!(nested.module.expr_pointers[1], Some(pointer(path, 4)));
    let plain_tree = r#"21(16(26(-,18"x")))"#;
    let plain = facts(plain_tree);
    assert_eq!((&plain.module.exprs[0], plain.module.expr_pointers[0]), (&reference("x"), Some(pointer(plain_tree, 3))));
    let from_tree = r#"21(16(26(27(18"x"),18"a")))"#;
    let from = facts(from_tree);
    let attribute = pointer(from_tree, 5);
    assert_eq!(shown(&from)[1..3], ["Literal text \"61\"", "Select set=0 path=[1] default=-"]);
    assert_eq!(from.module.expr_pointers[1..3], [Some(attribute), Some(attribute)]);
    assert_eq!(from.module.exprs_by_pointer[&attribute], 2);
    let dynamic_tree = r#"21(16(25(23(24(6(32"a"))),-)))"#;
    assert_eq!(facts(dynamic_tree).module.name_pointers, [pointer(dynamic_tree, 4)]);
}

/// The places of the names with these texts in the order of allocation.
fn names(facts: &Facts) -> Vec<String> {
    facts.module.names.iter().map(|name| String::from_utf8_lossy(&name.text).into_owned()).collect()
}

#[test]
fn point_11_a_let_s_body_comes_after_its_entries() {
    let facts = facts(r#"21(12(18"body",25(23(18"a"),18"value")))"#);
    assert_eq!(facts.module.exprs[..2], [reference("value"), reference("body")]);
}

#[test]
fn point_11_names_and_values() {
    // One attribute: the value before its name. The value's own name shows which came first.
    let one = facts(r#"21(16(25(23(18"key"),11(28(18"inner"),-))))"#);
    assert_eq!(names(&one), ["inner", "key"]);
    // A longer path: the names of all attributes but the last, then the value, then the last name.
    let three = facts(r#"21(16(25(23(18"a",18"b",18"c"),11(28(18"inner"),-))))"#);
    assert_eq!(names(&three), ["a", "b", "inner", "c"]);
    // An inherited attribute's expressions come before its name, and each attribute is dealt with in turn.
    let inherited = facts(r#"21(16(26(27(11(28(18"inner"),-)),18"a",18"b")))"#);
    assert_eq!(names(&inherited), ["inner", "a", "b"]);
    assert_eq!(shown(&inherited)[2..6].iter().filter(|e| e.starts_with("Select")).count(), 2);
}

#[test]
fn point_11_sets_below_a_dynamic_key_are_built_at_once() {
    let facts = facts(r#"21(16(25(23(24(18"k"),18"b",18"c"),9"1"),25(23(18"d"),9"2")))"#);
    let expected = [
        "Literal integer 1".to_string(),
        "AttrSet rec=0 statics=[n1=expr:0] froms=[] dynamics=[]".to_string(),
        "AttrSet rec=0 statics=[n0=expr:1] froms=[] dynamics=[]".to_string(),
        "Reference \"6b\"".to_string(),
        "Literal integer 2".to_string(),
        "AttrSet rec=0 statics=[n2=expr:4] froms=[] dynamics=[3=2]".to_string(),
    ];
    assert_eq!(shown(&facts), expected);
    assert_eq!(names(&facts), ["b", "c", "d"]);
}

#[test]
fn point_11_a_merged_set_has_no_expression_of_its_own() {
    let facts = facts(r#"21(16(25(23(18"a",18"b"),9"1"),25(23(18"a"),16!1(25(23(18"c"),18"b")))))"#);
    assert_eq!(shown(&facts).iter().filter(|e| e.starts_with("AttrSet")).count(), 2);
    assert_eq!(statics(&facts, 2).len(), 2);
    // Its rec is dropped: no scope is opened and no name defines anything.
    assert_eq!(counts(&facts)[2], 1);
    assert!(facts.module.names.iter().all(|name| name.kind == NameKind::PlainAttrset));
    assert_eq!(answers(&facts), [(1, Answer::None)]);
}

#[test]
fn point_12_a_source_without_attributes() {
    let listed = facts(r#"21(11(28(18"x"),16(26(27(18"x")))))"#);
    assert_eq!(bindings(&listed, 1).inherit_froms, [0]);
    assert_eq!(answers(&listed), [(0, definition(0))]);
    let absent = facts("21(16(26(27(-))))");
    assert_eq!((bindings(&absent, 1).inherit_froms.as_slice(), &absent.module.exprs[0]), (&[0][..], &Expr::Missing));
    assert_eq!(absent.scopes.of_expr, [Some(0), Some(0)]);
}

#[test]
fn point_13_the_order_of_walking_shows_in_the_scopes() {
    // In every place of the let stands a With, which opens a scope where it is walked.
    let facts = facts(
        r#"21(12(4(-,-), 25(23(24(4(-,-))),4(-,-)), 26(27(4(-,-)),18"c"), 25(23(18"d"),4(-,-)), 25(23(18"b"),4(-,-)), 26(-,18"a")))"#,
    );
    let (key, value, source, d, b, inherited, body) = (2, 5, 8, 13, 16, 17, 20);
    assert_eq!(facts.module.exprs[inherited as usize], reference("a"));
    assert_eq!(facts.scopes.of_expr[inherited as usize], Some(0));
    let kinds: Vec<ScopeKind> = facts.scopes.scopes.iter().map(|scope| scope.kind.clone()).collect();
    let mut expected = vec![ScopeKind::Definitions(vec![]), ScopeKind::Definitions(vec![3, 2, 0, 1])];
    expected.extend([b, d, source, key, value, body].map(ScopeKind::With));
    assert_eq!(kinds, expected);
    assert!(facts.scopes.scopes[2..].iter().all(|scope| scope.parent == Some(1)));
}

#[test]
fn point_14_scopes_without_bodies_and_names() {
    let with = facts("21(4(-,-))");
    assert_eq!(counts(&with), [3, 0, 2, 0]);
    assert_eq!(with.scopes.of_expr, [Some(0), Some(1), Some(0)]);
    assert_eq!(counts(&facts(r#"21(12(-,25(23(24(18"k")),-)))"#))[2], 1);
    assert_eq!(counts(&facts(r#"21(16!1(25(23(24(18"k")),-)))"#))[2], 1);
    assert_eq!(counts(&facts(r#"21(16!1(25(23(18"k"),-)))"#))[2], 2);
}

#[test]
fn point_23_fetchurl_is_builtin_10() {
    assert_eq!(answer(&facts(r#"21(4(16(25(23(18"fetchurl"),6(32"w"))),18"fetchurl"))"#), 2), Answer::Builtin(10));
}

#[test]
fn point_24_a_set_is_dropped_for_a_later_path() {
    let path = facts(r#"21(11(28(18"x"),16(25(23(18"a"),16(25(23(18"b"),18"x"))),25(23(18"a",18"c"),9"1"))))"#);
    assert_eq!((answer(&path, 0), counts(&path)[3]), (Answer::None, 0));
    let set = facts(r#"21(11(28(18"x"),16(25(23(18"a"),16(25(23(18"b"),18"x"))),25(23(18"a"),16(25(23(18"c"),9"1"))))))"#);
    assert_eq!((answer(&set, 0), counts(&set)[3]), (Answer::None, 1));
    // Merged the other way round: the rec is dropped and c is the let's.
    let tree = r#"21(12(16(25(23(18"a",18"c"),6(32"i")),25(23(18"a"),16!1(25(23(18"b"),18"c")))),25(23(18"c"),6(32"o"))))"#;
    let merged = facts(tree);
    assert_eq!(answers(&merged).into_iter().map(|(_, answer)| answer).collect::<Vec<_>>(), [definition(0)]);
    assert_eq!(merged.module.names[0].kind, NameKind::LetIn);
}
