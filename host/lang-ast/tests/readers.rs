//! All that the readers say of a store against the oracle's second reading of the sheet: after a load, and after
//! changes.

mod common;

use canon::{Facts, Reading};
use common::{store, with_big_stack};
use generate::{Preset, Rng};
use lang_ast::{Answer, BindingValue, Bindings, Expr, ExprId, InterpolPart, Literal, NameId, NameKind, Pat, Pointer};
use lang_ast::{Scope, ScopeId, ScopeKind, Store};
use reading::Plain;
use sheet::Node;
use std::collections::BTreeMap;

fn pointer(of: Pointer) -> canon::Pointer {
    canon::Pointer { kind: u8::try_from(of.kind).expect("a kind"), from: of.from, to: of.to }
}

fn numbers(of: Vec<ExprId>) -> Vec<u32> {
    of.into_iter().map(ExprId::number).collect()
}

fn literal(of: Literal) -> canon::Literal {
    match of {
        Literal::Float(value) => canon::Literal::Float(value.to_bits()),
        Literal::Integer(value) => canon::Literal::Integer(value),
        Literal::String(text) => canon::Literal::Text(text.to_vec()),
        Literal::Path(text) => canon::Literal::Path(text.to_vec()),
        Literal::Uri => canon::Literal::Uri,
    }
}

fn pat(of: Pat) -> canon::Pat {
    let fields = of.fields.into_iter().map(|field| (field.name.map(NameId::number), field.default.map(ExprId::number)));
    canon::Pat { fields: fields.collect(), ellipsis: of.ellipsis }
}

fn bindings(of: Bindings) -> canon::Bindings {
    let value = |value| match value {
        BindingValue::Expr(expr) => canon::BindingValue::Expr(expr.0),
        BindingValue::Inherit(expr) => canon::BindingValue::Inherit(expr.0),
        BindingValue::InheritFrom(expr) => canon::BindingValue::InheritFrom(expr.0),
    };
    canon::Bindings {
        statics: of.statics.into_iter().map(|(name, of)| (name.0, value(of))).collect(),
        inherit_froms: numbers(of.inherit_froms),
        dynamics: of.dynamics.into_iter().map(|(key, value)| (key.0, value.0)).collect(),
    }
}

fn parts(of: Vec<InterpolPart>) -> Vec<canon::Part> {
    let part = |part| match part {
        InterpolPart::Literal(text) => canon::Part::Literal(<[u8]>::to_vec(text)),
        InterpolPart::Interpol(expr) => canon::Part::Interpol(expr.0),
    };
    of.into_iter().map(part).collect()
}

fn expr(of: Expr) -> canon::Expr {
    use canon::Expr as E;
    match of {
        Expr::Missing => E::Missing,
        Expr::Apply { fun, arg } => E::Apply { fun: fun.0, arg: arg.0 },
        Expr::IfThenElse { cond, then_body, else_body } => E::IfThenElse { cond: cond.0, then_body: then_body.0, else_body: else_body.0 },
        Expr::Literal(of) => E::Literal(literal(of)),
        Expr::Lambda { param, pat: of, body } => E::Lambda { param: param.map(NameId::number), pat: of.map(pat), body: body.0 },
        Expr::LetIn { bindings: of, body } => E::LetIn { bindings: bindings(of), body: body.0 },
        Expr::List(items) => E::List(numbers(items)),
        Expr::BinOp { lhs, rhs, op } => E::BinOp { lhs: lhs.0, rhs: rhs.0, op: op.number() as u8 },
        Expr::AttrSet { is_rec, bindings: of } => E::AttrSet { is_rec, bindings: bindings(of) },
        Expr::UnaryOp { op, expr } => E::UnaryOp { op: op.number() as u8, expr: expr.0 },
        Expr::Reference(text) => E::Reference(text.to_vec()),
        Expr::Select { set, attrpath, default_expr } => {
            E::Select { set: set.0, attrpath: numbers(attrpath), default_expr: default_expr.map(ExprId::number) }
        }
        Expr::HasAttr { set, attrpath } => E::HasAttr { set: set.0, attrpath: numbers(attrpath) },
        Expr::With { env, body } => E::With { env: env.0, body: body.0 },
        Expr::Assert { cond, body } => E::Assert { cond: cond.0, body: body.0 },
        Expr::StringInterpolation(of) => E::StringInterpolation(parts(of)),
        Expr::PathInterpolation(of) => E::PathInterpolation(parts(of)),
    }
}

fn name_kind(of: NameKind) -> canon::NameKind {
    match of {
        NameKind::LetIn => canon::NameKind::LetIn,
        NameKind::PlainAttrset => canon::NameKind::PlainAttrset,
        NameKind::RecAttrset => canon::NameKind::RecAttrset,
        NameKind::Param => canon::NameKind::Param,
        NameKind::PatField => canon::NameKind::PatField,
    }
}

/// What the readers say of a store, in the oracle's words.
fn module(of: &Store) -> canon::Module {
    let names: Vec<_> = of.names().map(|name| of.name(name).expect("a name")).collect();
    let name = |name: &lang_ast::Name| canon::Name { text: name.text.to_vec(), kind: name_kind(name.kind) };
    let duplicate =
        |of: lang_ast::DuplicateKey| canon::DuplicateKey { key: of.key.to_vec(), first: pointer(of.first), second: pointer(of.second) };
    let at: Vec<Option<Pointer>> = of.exprs().map(|e| of.expr_pointer(e)).collect();
    let expr_found = |of_node: &Pointer| (pointer(*of_node), of.expr_at(*of_node).expect("an expression").0);
    let name_found = |named: &lang_ast::Name| (pointer(named.pointer), of.name_at(named.pointer).expect("a name").0);
    canon::Module {
        entry: of.entry().expect("an entry").0,
        exprs: of.exprs().map(|e| expr(of.expr(e).expect("an expression"))).collect(),
        expr_pointers: at.iter().map(|at| at.map(pointer)).collect(),
        exprs_by_pointer: at.iter().flatten().map(expr_found).collect(),
        names_by_pointer: names.iter().map(name_found).collect(),
        name_pointers: names.iter().map(|name| pointer(name.pointer)).collect(),
        names: names.iter().map(name).collect(),
        diagnostics: of.diagnostics().map(duplicate).collect(),
        lost: of.lost().map(pointer).collect(),
    }
}

fn scopes(of: &Store) -> canon::Scopes {
    let scope = |Scope { parent, kind }| canon::Scope {
        parent: parent.map(ScopeId::number),
        kind: match kind {
            ScopeKind::Definitions(names) => canon::ScopeKind::Definitions(names.into_iter().map(NameId::number).collect()),
            ScopeKind::WithExpr(with) => canon::ScopeKind::With(with.0),
        },
    };
    canon::Scopes {
        scopes: of.scopes().map(|s| scope(of.scope(s).expect("a scope"))).collect(),
        of_expr: of.exprs().map(|e| of.scope_of(e).map(ScopeId::number)).collect(),
    }
}

fn answer(of: Answer) -> canon::Answer {
    match of {
        Answer::None => canon::Answer::None,
        Answer::Definition(name) => canon::Answer::Definition(name.0),
        Answer::Builtin(builtin) => canon::Answer::Builtin(builtin.index()),
        Answer::Withs(withs) => canon::Answer::Withs(numbers(withs)),
    }
}

/// The answers and references that are kept, which are those that the calls say.
fn resolution(of: &Store) -> canon::Resolution {
    let mut answers = BTreeMap::new();
    for e in of.exprs() {
        assert_eq!(of.kept_answer(e), of.ask_reference(e).ok(), "{e}");
        answers.extend(of.kept_answer(e).map(|said| (e.0, answer(said))));
    }
    let kept = |name| {
        assert_eq!(of.kept_references(name), of.ask_name(name).ok(), "{name}");
        numbers(of.kept_references(name).expect("a name"))
    };
    canon::Resolution { answers, references: of.names().map(kept).collect() }
}

fn facts(of: &Store) -> Facts {
    Facts { module: module(of), scopes: scopes(of), resolution: resolution(of) }
}

/// The scope that holds a name: the lowest that has it.
fn holder(of: &canon::Scopes, name: u32) -> Option<ScopeId> {
    let has = |scope: &canon::Scope| matches!(&scope.kind, canon::ScopeKind::Definitions(names) if names.contains(&name));
    of.scopes.iter().position(has).map(|scope| ScopeId(scope as u32))
}

/// Loads a sheet, changes some texts, and reads all of it before and after.
fn follow(nodes: &[Node], rng: &mut Rng, changes: usize) {
    let mut plain = Plain::new(nodes);
    let mut store = Store::load(&sheet::write(nodes)).expect("a sheet");
    assert_eq!(facts(&store), plain.facts());
    let loaded = plain.facts();
    for name in store.names() {
        assert_eq!(store.scope_holding(name), holder(&loaded.scopes, name.0));
    }
    let references: Vec<u32> = loaded.resolution.answers.keys().copied().collect();
    let mut texts: Vec<Vec<u8>> = loaded.module.names.iter().map(|name| name.text.clone()).collect();
    texts.extend([b"map".to_vec(), b"other".to_vec(), Vec::new()]);
    for _ in 0..changes {
        let text = rng.pick(&texts);
        let (name, reference) = (rng.below(loaded.module.names.len()) as u32, rng.below(references.len()));
        if rng.chance(50) && store.change_name(NameId(name), &text).is_ok() {
            plain.set_name(name, &text);
        } else if let Some(&e) = references.get(reference).filter(|&&e| store.change_reference(ExprId(e), &text).is_ok()) {
            plain.set_reference(e, &text);
        }
    }
    assert_eq!(facts(&store), plain.facts());
}

#[test]
fn random_sheets_are_read_as_the_oracle_reads_them() {
    with_big_stack(|| {
        let rng = &mut Rng::new(3);
        for seed in 0..150 {
            for preset in [Preset::Tiny, Preset::Small, Preset::Keys] {
                follow(&preset.sheet(seed), rng, 12);
            }
        }
        for preset in [Preset::Medium, Preset::Deep, Preset::Withs, Preset::Merging] {
            for seed in 0..3 {
                follow(&preset.sheet(seed), rng, 3);
            }
        }
    });
}

/// Every kind of node, so every sort of expression.
#[test]
fn each_sort_of_expression_is_read() {
    with_big_stack(|| {
        let zoo = common::nodes(generate::ZOO);
        follow(&zoo, &mut Rng::new(4), 20);
        let read = facts(&Store::load(&sheet::write(&zoo)).expect("a sheet"));
        let mut sorts: Vec<String> = read.module.exprs.iter().map(|expr| format!("{expr:?}")).collect();
        sorts.iter_mut().for_each(|said| said.truncate(said.find([' ', '(']).unwrap_or(said.len())));
        sorts.sort();
        sorts.dedup();
        let first = "Apply Assert AttrSet BinOp HasAttr IfThenElse Lambda LetIn";
        let second = "List Literal Missing PathInterpolation Reference Select UnaryOp With";
        assert_eq!(sorts.join(" "), format!("{first} {second}"));
    });
}

/// The marked examples of the requirements whose answers are read from the store.
#[test]
fn marked_examples() {
    let answered = |notation: &str, e: u32| store(notation).ask_reference(ExprId(e)).expect("a Reference");
    let name = |n| Answer::Definition(NameId(n));
    let withs = |list: &[u32]| Answer::Withs(list.iter().copied().map(ExprId).collect());
    // x@{x}: x
    assert_eq!(answered(r#"21(11(29(30(18"x"),31(18"x",-)),18"x"))"#, 0), name(1));
    // with a; with b; c
    let nested = r#"21(4(18"a",4(18"b",18"c")))"#;
    assert_eq!([0, 1, 2].map(|e| answered(nested, e)), [Answer::None, withs(&[4]), withs(&[3, 4])]);
    // x: let inherit x; in x
    let inherited = r#"21(11(28(18"x"),12(18"x",26(-,18"x"))))"#;
    assert_eq!([0, 1].map(|e| answered(inherited, e)), [name(0), name(1)]);
    // { a.b = 1; a = 2; } has a duplicate, and { a = 2; a.b = 1; } none.
    let (path, plain) = (r#"25(23(18"a",18"b"),9"1")"#, r#"25(23(18"a"),9"2")"#);
    let twice = store(&format!("21(16({path},{plain}))"));
    assert_eq!(twice.diagnostics().map(|twice| twice.key.to_vec()).collect::<Vec<_>>(), [b"a".to_vec()]);
    assert_eq!(twice.lost().count(), 1);
    assert_eq!(store(&format!("21(16({plain},{path}))")).diagnostics().count(), 0);
}

/// A tree whose nodes are looked up by their numbers in the sheet.
struct Tree {
    nodes: Vec<Node>,
    store: Store,
}

impl Tree {
    fn new(notation: &str) -> Self {
        Tree { nodes: common::nodes(notation), store: store(notation) }
    }

    fn pointer(&self, node: usize) -> Pointer {
        let Node { kind, from, to, .. } = self.nodes[node];
        Pointer::new(u32::from(kind), from, to)
    }

    fn expr(&self, node: usize) -> Option<Expr<'_>> {
        self.store.expr(self.store.expr_at(self.pointer(node))?)
    }

    fn name(&self, node: usize) -> Option<&[u8]> {
        Some(self.store.name(self.store.name_at(self.pointer(node))?)?.text)
    }
}

/// What [`Store::expr_at`] and docs/STORE.md under Pointers say of nodes, of attributes above all.
#[test]
fn which_nodes_have_an_expression_or_a_name() {
    let string = |text| Some(Expr::Literal(Literal::String(text)));
    let is_set = |expr: Option<Expr>| matches!(expr, Some(Expr::AttrSet { .. }));
    // (x)
    let paren = Tree::new(r#"21(15(18"x"))"#);
    assert_eq!([0, 1, 2].map(|node| paren.expr(node)), [None, None, Some(Expr::Reference(b"x"))]);
    assert_eq!(paren.store.entry(), paren.store.expr_at(paren.pointer(2)));
    // x.a."b".${c} and x ? a
    let select = Tree::new(r#"21(3(18"x",23(18"a",6(32"b"),24(18"c")),-))"#);
    assert_eq!([3, 4, 5, 6].map(|node| select.expr(node)), [None, string(b"a"), string(b"b"), None]);
    assert_eq!((select.expr(7), select.expr(8)), (None, Some(Expr::Reference(b"c"))));
    assert_eq!(Tree::new(r#"21(5(18"x",23(18"a")))"#).expr(4), string(b"a"));
    // { a.b = 1; a.c = 2; }
    let paths = Tree::new(r#"21(16(25(23(18"a",18"b"),9"1"),25(23(18"a",18"c"),9"2")))"#);
    assert_eq!([4, 5, 9, 10].map(|node| paths.name(node)), [Some(&b"a"[..]), Some(b"b"), None, Some(b"c")]);
    assert_eq!([4, 5, 9, 10].map(|node| paths.expr(node).is_some()), [true, false, false, false]);
    assert!(is_set(paths.expr(4)) && is_set(paths.expr(1)));
    assert_eq!([2, 3, 7, 8].map(|node| paths.expr(node)), [None, None, None, None]);
    // { a = 1; a.b = 2; }: the second a brings no name, and makes the set.
    let value_first = Tree::new(r#"21(16(25(23(18"a"),9"1"),25(23(18"a",18"b"),9"2")))"#);
    assert_eq!([4, 8].map(|node| value_first.name(node)), [Some(&b"a"[..]), None]);
    assert!(value_first.expr(4).is_none() && is_set(value_first.expr(8)));
    // { a.b = 1; a = { c = 2; }; }: the value is merged into the set that is there.
    let merged = Tree::new(r#"21(16(25(23(18"a",18"b"),9"1"),25(23(18"a"),16(25(23(18"c"),9"2")))))"#);
    assert_eq!((merged.expr(10), merged.name(13)), (None, Some(&b"c"[..])));
    // { "a" = 1; ${"b"} = 2; ${k}.c = 3; }
    let keys = Tree::new(r#"21(16(25(23(6(32"a")),9"1"),25(23(24(6(32"b"))),9"2"),25(23(24(18"k"),18"c"),9"3")))"#);
    assert_eq!([4, 9, 15, 17].map(|node| keys.name(node)), [Some(&b"a"[..]), Some(b"b"), None, Some(b"c")]);
    assert!(is_set(keys.expr(15)));
    assert_eq!([4, 9, 10, 16].map(|node| keys.expr(node)), [None, None, None, Some(Expr::Reference(b"k"))]);
    // { inherit x; inherit (s) y; }
    let inherits = Tree::new(r#"21(16(26(-,18"x"),26(27(18"s"),18"y")))"#);
    assert_eq!([3, 7].map(|node| inherits.name(node)), [Some(&b"x"[..]), Some(b"y")]);
    assert_eq!((inherits.expr(3), inherits.expr(5)), (Some(Expr::Reference(b"x")), None));
    let Some(Expr::Select { attrpath, .. }) = inherits.expr(7) else { panic!("y of s is a Select") };
    assert_eq!(attrpath.iter().map(|&key| inherits.store.expr_pointer(key)).collect::<Vec<_>>(), [Some(inherits.pointer(7))]);
    // { inherit "x" ${"y"}; "a${k}".b = 1; "c${k}" = 2; }: static keys and keys that are not.
    let strings = r#"26(-,6(32"x"),24(15(6(32"y")))),25(23(6(32"a",33(18"k")),18"b"),9"1"),25(23(6(32"c",33(18"k"))),9"2")"#;
    let strings = Tree::new(&format!("21(16({strings}))"));
    assert_eq!([3, 5].map(|node| strings.name(node)), [Some(&b"x"[..]), Some(b"y")]);
    assert_eq!([3, 5].map(|node| strings.expr(node)), [Some(Expr::Reference(b"x")), Some(Expr::Reference(b"y"))]);
    assert_eq!([5, 6, 7, 11, 19].map(|node| strings.nodes[node].kind), [24, 15, 6, 6, 6]);
    assert_eq!([6, 7].map(|node| strings.expr(node)), [None, None]);
    for node in [11, 19] {
        assert!(matches!(strings.expr(node), Some(Expr::StringInterpolation(_))), "{node}");
        assert_eq!(strings.name(node), None);
    }
    let sets = strings.store.exprs().filter(|&expr| strings.store.expr_pointer(expr) == Some(strings.pointer(11)));
    assert!(is_set(sets.map(|expr| strings.store.expr(expr)).next().flatten()));
    // p@{ f ? d }: f
    let lambda = Tree::new(r#"21(11(29(30(18"p"),31(18"f",18"d")),18"f"))"#);
    assert_eq!([4, 6].map(|node| (lambda.name(node), lambda.expr(node))), [(Some(&b"p"[..]), None), (Some(b"f"), None)]);
    assert_eq!([2, 3, 5].map(|node| lambda.expr(node)), [None, None, None]);
    // An Ident without a text has a Missing, and operators, Floats and Integers that give no value have no expression.
    let missing = Tree::new(r#"21(13(18,20,22,14(18"l",18"r"),17(18"u"),8,9"9223372036854775808"))"#);
    assert_eq!([2, 3, 4].map(|node| missing.expr(node)), [Some(Expr::Missing), Some(Expr::Missing), Some(Expr::Missing)]);
    assert_eq!([5, 8, 10, 11].map(|node| missing.expr(node)), [None, None, None, None]);
    assert_eq!([6, 7, 9].map(|node| missing.expr(node)), [Some(Expr::Reference(b"l")), None, None]);
    assert_eq!(Tree::new(r#"21(3(18"x",23(18),-))"#).expr(4), None);
}

#[test]
fn uses_and_names_are_found_by_their_places() {
    // `x: { inherit x; a = x; }`, with the places of its text.
    let entries = r#"26@5..15(-,18"x"@13..14),25@16..22(23@16..17(18"a"@16..17),18"x"@20..21)"#;
    let found = store(&format!(r#"21@0..24(11@0..24(28@0..1(18"x"@0..1),16@3..24({entries})))"#));
    let at = |offset| (found.reference_at(offset), found.name_around(offset));
    let (inherited, used) = (Some(ExprId(0)), Some(ExprId(1)));
    let text = |name: Option<NameId>| name.and_then(|name| found.name(name)).map(|name| (name.text, name.kind));
    assert_eq!((at(0).0, text(at(0).1)), (None, Some((&b"x"[..], NameKind::Param))));
    assert_eq!((at(13).0, text(at(13).1)), (inherited, Some((&b"x"[..], NameKind::PlainAttrset))));
    assert_eq!((at(16).0, text(at(16).1)), (None, Some((&b"a"[..], NameKind::PlainAttrset))));
    assert_eq!(at(20), (used, None));
    assert_eq!([1, 12, 14, 15, 19, 21, 24, u32::MAX].map(at), [(None, None); 8]);

    // Places that no text has: one around another, the same twice, and one of no length.
    let uses = r#"18"a"@0..9,18"b"@2..6,18"c"@3..5,18"d"@3..5,18"e"@4..4,18"f"@8..11"#;
    let odd = store(&format!("21(13({uses}))"));
    let text = |offset| odd.reference_at(offset).and_then(|expr| odd.reference_text(expr));
    let texts: Vec<u8> = (0..11).map(|offset| text(offset).expect("a use")[0]).collect();
    assert_eq!(texts, b"aabddbaafff");
    assert_eq!(text(11), None);
    let fields = r#"31(18"a"@0..9,-),31(18"b"@2..6,-),31(18"c"@3..5,-),31(18"d"@3..5,-),31(18"e"@4..4,-),31(18"f"@8..11,-)"#;
    let odd = store(&format!("21(11(29(-,{fields}),10))"));
    let text = |offset| odd.name_around(offset).and_then(|name| odd.name(name)).map(|name| name.text);
    let texts: Vec<u8> = (0..11).map(|offset| text(offset).expect("a name")[0]).collect();
    assert_eq!(texts, b"aabddbaafff");
    assert_eq!(text(11), None);
}

/// The example at the end of docs/STORE.md, word by word: `with a; b`.
#[test]
fn the_example_of_the_page() {
    let loaded = store(r#"21@0..9(4@0..9(18"a"@5..6,18"b"@8..9))"#);
    let words = |at: usize, count: usize| -> Vec<u32> {
        let bytes = loaded.as_bytes()[at..].chunks_exact(4).take(count);
        bytes.map(|four| u32::from_le_bytes(four.try_into().expect("four bytes"))).collect()
    };
    // Counts of expressions, names and scopes; the entry.
    assert_eq!([0, 4, 20, 16].map(|at| words(at, 1)[0]), [3, 0, 2, 2]);
    // First item and sort of each expression, and what else the page names.
    let row = |e: usize| words(64 + 20 * e, 5);
    assert_eq!((&row(0)[..2], &row(1)[..2], &row(2)[..4]), (&[0, 21][..], &[0, 21][..], &[0, 25, 0, 1][..]));
    assert_eq!([0, 1].map(|e| loaded.reference_text(ExprId(e))), [Some(&b"a"[..]), Some(b"b")]);
    assert_eq!(words(327_764, 9), [18, 5, 6, 18, 8, 9, 4, 0, 9]);
    // The rows of the two scopes, and the first element behind them.
    assert_eq!(words(2_441_300, 7), [0, 0, 0, 0, 1, 3, 0]);
    // Scope and answer of each expression.
    assert_eq!(words(2_310_228, 6), [1, 0, 2, 1, 1, 0]);
    assert_eq!(loaded.ask_reference(ExprId(1)), Ok(Answer::Withs(vec![ExprId(2)])));
    assert_eq!(loaded.ask_reference(ExprId(0)), Ok(Answer::None));
}
