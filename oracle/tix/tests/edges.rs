//! The edges that lang_ast finds, and the prediction of what finding them costs.

mod common;

use std::collections::BTreeSet;

use canon::{Answer, BindingValue, Bindings, Expr, Facts, Part, Reading};
use common::tix;
use generate::Preset;
use tix::{with_big_stack, Tix, EDGE_BUDGET};

fn edges(notation: &str) -> Vec<(u32, u32)> {
    tix(notation).edges().unwrap()
}

#[test]
fn a_value_is_walked_under_its_own_name() {
    // let a = b; b = a; in a: the body has no current binding.
    assert_eq!(edges(r#"21(12(18"a",25(23(18"a"),18"b"),25(23(18"b"),18"a")))"#), [(0, 1), (1, 0)]);
    // A rec set likewise, also with itself.
    assert_eq!(edges(r#"21(16!1(25(23(18"a"),18"a")))"#), [(0, 0)]);
    // A plain set passes the current one through, and has none of its own.
    assert_eq!(edges(r#"21(16(25(23(18"a"),18"a")))"#), []);
    assert_eq!(edges(r#"21(12(-,25(23(18"a"),16(25(23(18"b"),18"a")))))"#), [(1, 1)]);
}

#[test]
fn pairs_are_sorted_and_stand_once() {
    let tree = r#"21(12(-,25(23(18"b"),13(18"b",18"a",18"b",18"a")),25(23(18"a"),18"b")))"#;
    assert_eq!(edges(tree), [(0, 0), (0, 1), (1, 0)]);
}

#[test]
fn sources_are_walked_through_the_selects() {
    // x: let inherit (x) a b; in a
    assert_eq!(edges(r#"21(11(28(18"x"),12(18"a",26(27(18"x"),18"a",18"b"))))"#), [(1, 0), (2, 0)]);
    // In a plain set the source is walked under the current binding.
    assert_eq!(edges(r#"21(12(-,25(23(18"x"),16(26(27(18"x"),18"a")))))"#), [(1, 1)]);
    // The source without attributes is walked in neither.
    assert_eq!(edges(r#"21(12(-,25(23(18"x"),12(-,26(27(18"x")),25(23(18"a"),-)))))"#), []);
    // Dynamics have no current binding.
    assert_eq!(edges(r#"21(12(-,25(23(18"x"),12(-,25(23(24(18"x")),18"x")))))"#), []);
}

#[test]
fn edges_follow_the_texts() {
    let mut tix = tix(r#"21(12(-,25(23(18"a"),18"b"),25(23(18"b"),-)))"#);
    assert_eq!(tix.edges().unwrap(), [(0, 1)]);
    tix.set_name(1, b"c");
    assert_eq!(tix.edges().unwrap(), []);
    tix.set_reference(0, b"c");
    assert_eq!(tix.edges().unwrap(), [(0, 1)]);
}

/// `x: let a = ..; in a` with a let under a condition that narrows x: an if, an assert, and a function like
/// `lib.optional`.
fn narrowing_trees() -> [String; 4] {
    let cond = r#"14!7(1(18"isNull",18"x"),17!1(14!8(14!10(18"x",18"null"),5(18"x",23(18"f")))))"#;
    let inner = r#"12(18"b",25(23(18"b"),18"x"))"#;
    [
        format!(r#"2({cond},{inner},18"x")"#),
        format!(r#"19({cond},{inner})"#),
        format!(r#"1(1(18"optional",{cond}),{inner})"#),
        format!(r#"1(1(3(18"x",23(18"lists",18"optional"),-),{cond}),{inner})"#),
    ]
    .map(|value| under_lambda(&format!(r#"12(18"a",25(23(18"a"),{value}))"#)))
}

#[test]
fn narrowing_makes_no_edge() {
    for tree in narrowing_trees() {
        assert_eq!(edges(&tree), [(1, 0), (2, 0), (2, 1)], "{tree}");
    }
}

/// `let inherit (..) a b; in a`, so many deep, around `x`.
fn doubling(levels: usize) -> String {
    (0..levels).fold(r#"18"x""#.to_string(), |inner, _| format!(r#"12(18"a",26(27({inner}),18"a",18"b"))"#))
}

fn under_lambda(body: &str) -> String {
    format!(r#"21(11(28(18"x"),{body}))"#)
}

#[test]
fn a_walk_that_doubles_is_refused_beforehand() {
    with_big_stack(|| {
        let small = tix(&under_lambda(&doubling(10)));
        assert!(small.edge_cost().calls > 1 << 10);
        assert!(small.edges().is_ok());
        let nodes = sheet::short::parse(&format!("21({})", doubling(84))).unwrap();
        assert_eq!(nodes.len(), 506);
        let large = Tix::new(&nodes);
        assert_eq!(large.edge_cost().calls, u64::MAX);
        assert!(large.edges().unwrap_err().contains("budget"));
    });
}

/// So many comparisons of `x`, all joined by `&&`.
fn conjunction(count: usize) -> String {
    match count {
        1 => r#"14!10(18"x",9"1")"#.to_string(),
        _ => format!("14!7({},{})", conjunction(count / 2), conjunction(count - count / 2)),
    }
}

#[test]
fn narrowings_that_would_be_copied_too_often_are_refused() {
    // Each level down the list of two hundred narrowings is copied for twice as many bindings.
    let body = format!("2({},{},-)", conjunction(200), doubling(13));
    let tix = tix(&under_lambda(&body));
    let cost = tix.edge_cost();
    assert!(cost.calls < EDGE_BUDGET && cost.copies > EDGE_BUDGET, "{cost:?}");
    assert!(tix.edges().is_err());
}

/// Holds the predicted calls against those made; says whether the walk was made.
fn check_prediction(tix: &Tix) -> bool {
    // The scopes are worked out first, with a call for each expression that has one.
    let scoped = tix.facts().scopes.of_expr.iter().flatten().count() as u64;
    lang_ty::stack::take_calls();
    let (cost, edges) = (tix.edge_cost(), tix.edges());
    match &edges {
        Ok(_) => assert_eq!(lang_ty::stack::take_calls() - scoped, cost.calls),
        Err(_) => assert!(cost.total() > EDGE_BUDGET),
    }
    edges.is_ok()
}

#[test]
fn the_prediction_is_what_the_walk_takes() {
    with_big_stack(|| {
        for tree in narrowing_trees() {
            assert!(check_prediction(&tix(&tree)), "{tree}");
        }
        let presets = [Preset::Tiny, Preset::Small, Preset::Keys, Preset::Medium];
        let walked = (0..2_000).filter(|&seed| check_prediction(&Tix::new(&presets[seed as usize % 4].sheet(seed)))).count();
        assert!(walked > 1_900, "{walked} of 2,000 were walked");
    });
}

/// The pairs as Ticket 5 words them, each expression visited at most once under each binding.
struct Plain<'a> {
    facts: &'a Facts,
    seen: BTreeSet<(Option<u32>, u32)>,
    pairs: BTreeSet<(u32, u32)>,
}

impl Plain<'_> {
    fn walk(&mut self, expr: u32, binding: Option<u32>) {
        if !self.seen.insert((binding, expr)) {
            return;
        }
        match (&self.facts.module.exprs[expr as usize], binding) {
            (Expr::Reference(_), Some(binding)) => {
                if let Answer::Definition(name) = self.facts.resolution.answers[&expr] {
                    self.pairs.insert((binding, name));
                }
            }
            (Expr::LetIn { bindings, body }, _) => {
                self.bindings(bindings);
                self.walk(*body, binding);
            }
            (Expr::AttrSet { is_rec: true, bindings }, _) => self.bindings(bindings),
            (other, _) => children(other).into_iter().for_each(|child| self.walk(child, binding)),
        }
    }

    fn bindings(&mut self, bindings: &Bindings) {
        for &(name, value) in &bindings.statics {
            let (BindingValue::Expr(e) | BindingValue::Inherit(e) | BindingValue::InheritFrom(e)) = value;
            self.walk(e, Some(name));
        }
        for &(key, value) in &bindings.dynamics {
            self.walk(key, None);
            self.walk(value, None);
        }
    }
}

/// The children of an expression that is neither a let nor a rec set.
fn children(expr: &Expr) -> Vec<u32> {
    match expr {
        &Expr::Apply { fun: a, arg: b } | &Expr::BinOp { lhs: a, rhs: b, .. } => vec![a, b],
        &Expr::With { env: a, body: b } | &Expr::Assert { cond: a, body: b } => vec![a, b],
        &Expr::IfThenElse { cond, then_body, else_body } => vec![cond, then_body, else_body],
        Expr::Lambda { pat, body, .. } => {
            let defaults = pat.iter().flat_map(|pat| &pat.fields).filter_map(|field| field.1);
            defaults.chain([*body]).collect()
        }
        Expr::List(items) => items.clone(),
        Expr::AttrSet { bindings, .. } => {
            let values = bindings.statics.iter().filter_map(|(_, value)| match value {
                BindingValue::Expr(e) | BindingValue::Inherit(e) => Some(*e),
                BindingValue::InheritFrom(_) => None,
            });
            values.chain(bindings.inherit_froms.clone()).chain(bindings.dynamics.iter().flat_map(|&(key, value)| [key, value])).collect()
        }
        Expr::UnaryOp { expr, .. } => vec![*expr],
        Expr::Select { set, attrpath, default_expr } => [*set].into_iter().chain(attrpath.clone()).chain(*default_expr).collect(),
        Expr::HasAttr { set, attrpath } => [*set].into_iter().chain(attrpath.clone()).collect(),
        Expr::StringInterpolation(parts) | Expr::PathInterpolation(parts) => {
            let inside = |part: &Part| if let Part::Interpol(e) = part { Some(*e) } else { None };
            parts.iter().filter_map(inside).collect()
        }
        _ => vec![],
    }
}

#[test]
fn the_edges_are_those_of_a_plain_walk() {
    with_big_stack(|| {
        let mut pairs = 0;
        for round in 0..2_000 {
            let tix = Tix::new(&Preset::Keys.sheet(round));
            let facts = tix.facts();
            let mut plain = Plain { facts: &facts, seen: BTreeSet::new(), pairs: BTreeSet::new() };
            plain.walk(facts.module.entry, None);
            if let Ok(edges) = tix.edges() {
                assert_eq!(edges, plain.pairs.into_iter().collect::<Vec<_>>(), "round {round}");
                pairs += edges.len();
            }
        }
        assert!(pairs > 1_000, "{pairs} pairs");
    });
}
