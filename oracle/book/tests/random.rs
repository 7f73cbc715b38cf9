//! Random scripts over trees with few distinct texts, and random trees: what must hold of every sheet and after every
//! call.

mod common;

use book::{locality, Book};
use canon::{Answer, Expr, Facts, Reading, ScopeKind};
use common::on_large_stack;
use generate::{Preset, Rng};
use reading::Plain;
use sheet::Node;

/// Trees by hand in which names hide each other, lie under Withs, are inherited and are held by no scope.
const TREES: [&str; 7] = [
    r#"21(11(29(30(18"a"),31(18"a",18"b"),31(18"b",18"a")),18"a"))"#,
    r#"21(11(28(18"a"),12(13(18"a",18"b",18"c"),26(-,18"a"),25(23(18"b"),18"a"))))"#,
    r#"21(11(28(18"a"),12(18"a",26(27(18"a"),18"a",18"b"))))"#,
    r#"21(4(18"a",11(28(18"b"),4(18"b",13(18"a",18"b",18"map")))))"#,
    r#"21(16!1(25(23(18"a"),18"b"),25(23(18"b"),16!1(25(23(18"a"),18"a"),25(23(18"c"),18"b")))))"#,
    r#"21(11(28(18"a"),16(25(23(18"a",18"b"),18"a"),25(23(18"a"),16!1(25(23(18"c"),18"b"),26(-,18"a"))))))"#,
    r#"21(12(4(18"c",18"a"),25(23(18"a"),11(28(18"b"),18"a")),25(23(18"b"),18"c"),25(23(24(18"a")),18"b")))"#,
];

/// Puts random calls to the book of a tree; after each the moved answers must be such as may move, and at the end a
/// fresh reading that is given the texts as they then are must say the same: no answer is left from older text. Gives
/// how many answers moved.
fn random_script(rng: &mut Rng, nodes: &[Node], calls: usize) -> usize {
    let mut book = Book::new(Plain::new(nodes));
    let loaded = book.facts();
    let mut moved = 0;
    for _ in 0..calls {
        let (facts, held) = (book.facts(), book.held());
        let call = book::random::call(rng, &book, false);
        let outcome = book.call(&call);
        locality::check(&facts, &call, &outcome).unwrap();
        moved += outcome.moved.len();
        if outcome.changed != Some(true) {
            assert_eq!(book.held(), held, "{call}");
        }
    }
    let held = book.held();
    let mut fresh = Plain::new(nodes);
    held.reference_texts.iter().for_each(|(&number, text)| fresh.set_reference(number, text));
    (0..).zip(&held.name_texts).for_each(|(number, text)| fresh.set_name(number, text));
    assert_eq!(fresh.facts(), book.facts());
    assert_eq!(book.facts().scopes, loaded.scopes);
    assert_eq!(book.facts().module.diagnostics, loaded.module.diagnostics);
    moved
}

#[test]
fn scripts_move_only_what_they_may() {
    let mut rng = Rng::new(1);
    for notation in TREES {
        let nodes = sheet::short::parse(notation).expect("a tree");
        let moved: usize = (0..20).map(|_| random_script(&mut rng, &nodes, 150)).sum();
        assert!(moved > 100, "the scripts of {notation} move too little to show anything: {moved}");
    }
}

#[test]
fn scripts_over_random_trees_move_only_what_they_may() {
    on_large_stack(|| {
        let mut rng = Rng::new(2);
        let mut moved = 0;
        for seed in 0..250 {
            let nodes = Preset::Keys.sheet(seed);
            moved += random_script(&mut rng, &nodes, 40);
        }
        assert!(moved > 500, "the scripts move too little to show anything: {moved}");
    });
}

#[test]
fn every_accepted_tree_keeps_the_bounds() {
    on_large_stack(|| {
        for seed in 0..1_500 {
            let preset = if seed % 100 == 0 { Preset::Large } else { Preset::Small };
            let nodes = preset.sheet(seed);
            check_facts(nodes.len(), &Plain::new(&nodes).facts());
        }
    });
}

/// "Four expressions, one name and one scope per node always suffice"; what 22 says of a store; and that lists and
/// answers fit together.
fn check_facts(nodes: usize, facts: &Facts) {
    let (module, scopes) = (&facts.module, &facts.scopes.scopes);
    assert!(module.exprs.len() <= 4 * nodes && module.names.len() <= nodes && scopes.len() <= nodes);
    for (number, expr) in module.exprs.iter().enumerate() {
        assert!(children(expr).iter().all(|&child| (child as usize) < number), "a child is numbered below its parent");
    }
    let mut held = vec![false; module.names.len()];
    for (number, scope) in scopes.iter().enumerate() {
        assert_eq!(scope.parent.is_none(), number == 0);
        assert!(scope.parent.is_none_or(|parent| (parent as usize) < number), "a scope is numbered above its parent");
        if let ScopeKind::Definitions(names) = &scope.kind {
            assert!(number == 0 || !names.is_empty(), "a scope has a name");
            names.iter().for_each(|&name| assert!(!std::mem::replace(&mut held[name as usize], true), "a name is entered once"));
        }
    }
    assert_eq!(module.lost, module.diagnostics.iter().map(|d| d.first).collect::<Vec<_>>());
    check_answers(facts);
}

fn check_answers(facts: &Facts) {
    let references = facts.module.exprs.iter().filter(|expr| matches!(expr, Expr::Reference(_))).count();
    assert_eq!(facts.resolution.answers.len(), references);
    for (name, kept) in (0..).zip(&facts.resolution.references) {
        let answered = facts.resolution.answers.iter().filter(|(_, answer)| **answer == Answer::Definition(name));
        assert_eq!(*kept, answered.map(|(number, _)| *number).collect::<Vec<_>>());
    }
    for (number, answer) in &facts.resolution.answers {
        let scope = facts.scopes.of_expr[*number as usize];
        assert!(scope.is_some() || *answer == Answer::None, "without scope there is no answer");
        if let Answer::Definition(name) = answer {
            let holder = locality::holding_scope(&facts.scopes, *name).expect("a name that answers is held");
            assert!(locality::is_inside(&facts.scopes, scope.expect("a scope"), holder));
        }
        if let Answer::Withs(list) = answer {
            assert!(!list.is_empty() && list.windows(2).all(|pair| pair[0] < pair[1]), "an inner With is numbered below an outer one");
        }
    }
}

/// All expressions that an expression names as its own.
fn children(expr: &Expr) -> Vec<u32> {
    match expr {
        Expr::Missing | Expr::Literal(_) | Expr::Reference(_) => Vec::new(),
        Expr::Apply { fun: a, arg: b } | Expr::With { env: a, body: b } | Expr::Assert { cond: a, body: b } => vec![*a, *b],
        Expr::BinOp { lhs, rhs, .. } => vec![*lhs, *rhs],
        Expr::IfThenElse { cond, then_body, else_body } => vec![*cond, *then_body, *else_body],
        Expr::UnaryOp { expr, .. } => vec![*expr],
        Expr::List(list) => list.clone(),
        Expr::Lambda { pat, body, .. } => {
            pat.iter().flat_map(|pat| pat.fields.iter().filter_map(|(_, default)| *default)).chain([*body]).collect()
        }
        Expr::LetIn { bindings, body } => in_bindings(bindings).into_iter().chain([*body]).collect(),
        Expr::AttrSet { bindings, .. } => in_bindings(bindings),
        Expr::Select { set, attrpath, default_expr } => [*set].iter().chain(attrpath).chain(default_expr).copied().collect(),
        Expr::HasAttr { set, attrpath } => [*set].iter().chain(attrpath).copied().collect(),
        Expr::StringInterpolation(parts) | Expr::PathInterpolation(parts) => parts.iter().filter_map(interpolated).collect(),
    }
}

fn interpolated(part: &canon::Part) -> Option<u32> {
    match part {
        canon::Part::Literal(_) => None,
        canon::Part::Interpol(expr) => Some(*expr),
    }
}

fn in_bindings(bindings: &canon::Bindings) -> Vec<u32> {
    use canon::BindingValue::{Expr, Inherit, InheritFrom};
    let statics = bindings.statics.iter().map(|(_, value)| match value {
        Expr(e) | Inherit(e) | InheritFrom(e) => *e,
    });
    let dynamics = bindings.dynamics.iter().flat_map(|&(key, value)| [key, value]);
    statics.chain(bindings.inherit_froms.iter().copied()).chain(dynamics).collect()
}
