//! What the trees in the papers leave out: literals, texts, operators, parts, paths, flags and the source map.

mod common;

use canon::{Expr, Literal, Part};
use common::{facts, pointer, shown};

#[test]
fn literals() {
    let float = facts(r#"21(8"\x3f\xf8\x00\x00\x00\x00\x00\x00")"#);
    assert_eq!(float.module.exprs, [Expr::Literal(Literal::Float(1.5_f64.to_bits()))]);
    let infinite = facts(r#"21(8"\x7f\xf0\x00\x00\x00\x00\x00\x00")"#);
    assert_eq!(infinite.module.exprs, [Expr::Literal(Literal::Float(f64::INFINITY.to_bits()))]);
    let no_float = facts("21(8)");
    assert_eq!((no_float.module.exprs, no_float.module.expr_pointers), (vec![Expr::Missing], vec![None]));
    assert_eq!(facts(r#"21(9"007")"#).module.exprs, [Expr::Literal(Literal::Integer(7))]);
    assert_eq!(facts("21(10)").module.exprs, [Expr::Literal(Literal::Uri)]);
    assert_eq!(facts("21(6)").module.exprs, [Expr::Literal(Literal::Text(vec![]))]);
    assert_eq!(facts(r#"21(6(32"a"))"#).module.exprs, [Expr::Literal(Literal::Text(b"a".to_vec()))]);
}

#[test]
fn every_byte_of_a_text_comes_back() {
    let bytes: Vec<u8> = (0..=255).collect();
    let escaped: String = bytes.iter().map(|byte| format!("\\x{byte:02x}")).collect();
    let facts = facts(&format!(r#"21(13(18"{escaped}",6(32"{escaped}"),7"{escaped}"))"#));
    let expected = [Expr::Reference(bytes.clone()), Expr::Literal(Literal::Text(bytes.clone())), Expr::Literal(Literal::Path(bytes))];
    assert_eq!(facts.module.exprs[..3], expected);
}

#[test]
fn keys_are_in_byte_order() {
    let facts =
        facts(r#"21(16(25(23(18"\xff"),-),25(23(18"a"),-),25(23(18"\x80"),-),25(23(18"aa"),-),25(23(18"\x7f"),-),25(23(18""),-)))"#);
    let keys: Vec<_> =
        common::bindings(&facts, 6).statics.iter().map(|&(name, _)| facts.module.names[name as usize].text.clone()).collect();
    assert_eq!(keys, [&b""[..], b"a", b"aa", b"\x7f", b"\x80", b"\xff"]);
}

#[test]
fn operators_keep_their_numbers() {
    for op in 1..=15 {
        assert_eq!(facts(&format!("21(14!{op}(-,-))")).module.exprs[2], Expr::BinOp { lhs: 0, rhs: 1, op });
    }
    for op in 1..=2 {
        assert_eq!(facts(&format!("21(17!{op}(-))")).module.exprs[1], Expr::UnaryOp { op, expr: 0 });
    }
}

#[test]
fn every_place_of_each_kind() {
    // The References are a, b and c, by the place where each stands; what is shown is the expression around them.
    let (a, b, c) = ("Reference \"61\"", "Reference \"62\"", "Reference \"63\"");
    let key = "Literal text \"6b\"";
    let cases: [(&str, &[&str]); 12] = [
        (r#"1(18"a",18"b")"#, &[a, b, "Apply fun=0 arg=1"]),
        (r#"2(18"a",18"b",18"c")"#, &[a, b, c, "IfThenElse cond=0 then=1 else=2"]),
        (r#"3(18"a",23(18"k",24(18"b")),18"c")"#, &[a, key, b, c, "Select set=0 path=[1,2] default=3"]),
        (r#"4(18"a",18"b")"#, &[a, b, "With env=0 body=1"]),
        (r#"5(18"a",23(18"k",24(18"b")))"#, &[a, key, b, "HasAttr set=0 path=[1,2]"]),
        (r#"11(28(18"x"),18"a")"#, &[a, "Lambda param=0 pat=- body=0"]),
        (r#"11(29!1(30(18"x"),31(18"y",18"a"),31(-,18"b")),18"c")"#, &[a, b, c, "Lambda param=0 pat=[1:0,-:1].. body=2"]),
        (r#"12(18"b",25(23(18"k"),18"a"))"#, &[a, b, "LetIn statics=[n0=expr:0] froms=[] dynamics=[] body=1"]),
        (r#"13(18"a",18"b",18"c")"#, &[a, b, c, "List [0,1,2]"]),
        (r#"14!3(18"a",18"b")"#, &[a, b, "BinOp op=3 lhs=0 rhs=1"]),
        (r#"17!2(15(21(18"a")))"#, &[a, "UnaryOp op=2 expr=0"]),
        (r#"19(18"a",18"b")"#, &[a, b, "Assert cond=0 body=1"]),
    ];
    for (tree, expected) in cases {
        assert_eq!(shown(&facts(&format!("21({tree})"))), expected, "{tree}");
    }
}

#[test]
fn parts_of_texts_and_paths() {
    let parts = |facts: &canon::Facts| match facts.module.exprs.last() {
        Some(Expr::StringInterpolation(parts) | Expr::PathInterpolation(parts)) => parts.clone(),
        other => panic!("{other:?}"),
    };
    let text = facts(r#"21(6(32"a",33(18"x"),33(-)))"#);
    assert_eq!(parts(&text), [Part::Literal(b"a".to_vec()), Part::Interpol(0), Part::Interpol(1)]);
    let path = facts(r#"21(7"./a${x}"(32"./a",33(18"x")))"#);
    assert_eq!(parts(&path), [Part::Literal(b"./a".to_vec()), Part::Interpol(0)]);
    // Without an interpolation the path is its text whole, whatever its parts are.
    assert_eq!(facts(r#"21(7"./whole"(32"./a",32"b"))"#).module.exprs, [Expr::Literal(Literal::Path(b"./whole".to_vec()))]);
    // Two literal parts make no plain text.
    assert_eq!(parts(&facts(r#"21(6(32"a",32"b"))"#)).len(), 2);
}

#[test]
fn flags_of_sets_and_patterns() {
    assert_eq!(shown(&facts("21(16!1)")), ["AttrSet rec=1 statics=[] froms=[] dynamics=[]"]);
    assert_eq!(shown(&facts("21(16)")), ["AttrSet rec=0 statics=[] froms=[] dynamics=[]"]);
    assert_eq!(shown(&facts("21(11(29!1(-),-))"))[1], "Lambda param=- pat=[].. body=0");
    assert_eq!(shown(&facts("21(11(29(-),-))"))[1], "Lambda param=- pat=[] body=0");
    assert_eq!(shown(&facts("21(11(-,-))"))[1], "Lambda param=- pat=- body=0");
}

#[test]
fn missing_with_and_without_a_pointer() {
    for (tree, has_pointer) in
        [("21(-)", false), ("21(20)", true), ("21(22)", true), ("21(18)", true), ("21(14(-,-))", false), ("21(17(-))", false)]
    {
        let facts = facts(tree);
        let last = facts.module.entry as usize;
        assert_eq!((&facts.module.exprs[last], facts.module.expr_pointers[last].is_some()), (&Expr::Missing, has_pointer), "{tree}");
    }
}

#[test]
fn equal_pointers_keep_the_last_writer() {
    let tree = r#"21(13(18@1..2"x",18@1..2"y",16(25(23(18@1..2"a"),-),25(23(18@1..2"b"),-))))"#;
    let facts = facts(tree);
    let shared = pointer(tree, 2);
    assert_eq!(facts.module.expr_pointers[..2], [Some(shared), Some(shared)]);
    assert_eq!((facts.module.exprs_by_pointer[&shared], facts.module.names_by_pointer[&shared]), (1, 1));
    assert_eq!(facts.module.name_pointers, [shared, shared]);
}

#[test]
fn a_duplicate_s_first_pointer_is_the_name_s() {
    let tree = r#"21(16(25(23(18"a"),-),25(23(18"a"),-),25(23(6(32"a")),-)))"#;
    let facts = facts(tree);
    let (first, second, third) = (pointer(tree, 4), pointer(tree, 7), pointer(tree, 10));
    let found: Vec<_> = facts.module.diagnostics.iter().map(|d| (d.key.as_slice(), d.first, d.second)).collect();
    assert_eq!(found, [(&b"a"[..], first, second), (&b"a"[..], first, third)]);
    assert_eq!(facts.module.lost, [first, first]);
}

#[test]
fn assert_walks_its_body_first() {
    let facts = facts("21(19(4(-,-),4(-,-)))");
    let withs: Vec<_> = facts.scopes.scopes[1..].iter().map(|scope| scope.kind.clone()).collect();
    assert_eq!(withs, [canon::ScopeKind::With(5), canon::ScopeKind::With(2)]);
}
