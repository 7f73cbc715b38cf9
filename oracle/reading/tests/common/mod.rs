//! What the tests share: trees in short notation to facts, and short ways to say what is expected of them.
#![allow(dead_code)]

use canon::{Answer, BindingValue, Bindings, Expr, ExprId, Facts, Reading};
use reading::Plain;

/// Runs on a thread with a large stack, as every caller of the reading should.
pub fn on_large_stack<T: Send + 'static>(work: impl FnOnce() -> T + Send + 'static) -> T {
    let thread = std::thread::Builder::new().stack_size(512 << 20).spawn(work).expect("a thread");
    thread.join().expect("the work ends well")
}

pub fn plain(notation: &str) -> Plain {
    Plain::new(&sheet::short::parse(notation).expect("a tree in short notation"))
}

pub fn facts(notation: &str) -> Facts {
    plain(notation).facts()
}

/// Counts as refsheet gives them: exprs, names, scopes, dups.
pub fn counts(facts: &Facts) -> [usize; 4] {
    let module = &facts.module;
    [module.exprs.len(), module.names.len(), facts.scopes.scopes.len(), module.diagnostics.len()]
}

/// Every Reference's answer as `number:answer:to`.
pub fn answers(facts: &Facts) -> String {
    let show = |(e, answer): (&ExprId, &Answer)| match answer {
        Answer::None => format!("e{e} none"),
        Answer::Definition(n) => format!("e{e} n{n}"),
        Answer::Builtin(i) => format!("e{e} builtin {i}"),
        Answer::Withs(list) => format!("e{e} with {}", list.iter().map(u32::to_string).collect::<Vec<_>>().join(",")),
    };
    facts.resolution.answers.iter().map(show).collect::<Vec<_>>().join("; ")
}

pub fn entry(facts: &Facts) -> &Expr {
    &facts.module.exprs[facts.module.entry as usize]
}

/// The bindings of a set or let.
pub fn bindings(facts: &Facts, expr: ExprId) -> &Bindings {
    match &facts.module.exprs[expr as usize] {
        Expr::AttrSet { bindings, .. } | Expr::LetIn { bindings, .. } => bindings,
        other => panic!("e{expr} has no bindings: {other:?}"),
    }
}

/// The value of a set's or let's key, which must be an expression.
pub fn value_at(facts: &Facts, set: ExprId, key: &[u8]) -> ExprId {
    let named = bindings(facts, set).statics.iter().find(|(name, _)| facts.module.names[*name as usize].text == key);
    match named {
        Some((_, BindingValue::Expr(value))) => *value,
        other => panic!("no expression at the key: {other:?}"),
    }
}

/// The pointer of an expression as `kind:from-to`, `-` for none.
pub fn pointer(facts: &Facts, expr: ExprId) -> String {
    facts.module.expr_pointers[expr as usize].map_or("-".to_string(), |pointer| pointer.to_string())
}
