//! What the tests share: readings of trees in short notation.
#![allow(dead_code)] // No test file uses all of it.

use canon::{Answer, BindingValue, Bindings, Expr, Facts, Pointer, Reading};
use tix::Tix;

pub fn tix(notation: &str) -> Tix {
    Tix::new(&sheet::short::parse(notation).expect("the tree is well written"))
}

pub fn facts(notation: &str) -> Facts {
    tix(notation).facts()
}

/// Expressions, names, scopes and duplicates: the counts that refsheet prints first.
pub fn counts(facts: &Facts) -> [usize; 4] {
    [facts.module.exprs.len(), facts.module.names.len(), facts.scopes.scopes.len(), facts.module.diagnostics.len()]
}

pub fn answers(facts: &Facts) -> Vec<(u32, Answer)> {
    facts.resolution.answers.clone().into_iter().collect()
}

/// The answer of one Reference; it has to be one.
pub fn answer(facts: &Facts, expr: u32) -> Answer {
    facts.resolution.answers[&expr].clone()
}

pub fn definition(name: u32) -> Answer {
    Answer::Definition(name)
}

/// The bindings of an expression that has some.
pub fn bindings(facts: &Facts, expr: u32) -> &Bindings {
    match &facts.module.exprs[expr as usize] {
        Expr::LetIn { bindings, .. } | Expr::AttrSet { bindings, .. } => bindings,
        other => panic!("e{expr} has no bindings: {other}"),
    }
}

/// The values of a set's statics, in key order, each with its key's text.
pub fn statics(facts: &Facts, expr: u32) -> Vec<(String, BindingValue)> {
    let text = |name: u32| String::from_utf8_lossy(&facts.module.names[name as usize].text).into_owned();
    bindings(facts, expr).statics.iter().map(|&(name, value)| (text(name), value)).collect()
}

pub fn is_set(facts: &Facts, expr: u32) -> bool {
    matches!(facts.module.exprs[expr as usize], Expr::AttrSet { .. })
}

/// The expressions as `oracle dump` would show them.
pub fn shown(facts: &Facts) -> Vec<String> {
    facts.module.exprs.iter().map(Expr::to_string).collect()
}

/// Where the node with this number in the notation lies.
pub fn pointer(notation: &str, node: usize) -> Pointer {
    let nodes = sheet::short::parse(notation).expect("the tree is well written");
    Pointer { kind: nodes[node].kind, from: nodes[node].from, to: nodes[node].to }
}
