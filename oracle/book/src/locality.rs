//! The second half of demand 3: which answers a call may move, how many, and that it tells them. "A changed reference
//! moves its own answer only. A changed name moves only references that bear its old or new text and whose scope is the
//! name's scope or inside it; a name held by no scope moves none. A refused call, an equal text or an asking moves
//! none." And of the list: exactly those that moved, ascending; "for a changed name the count is at most the number of
//! references with the old or new text whose scope is the name's scope or inside it, and for a changed reference at
//! most one".

use canon::{Expr, ExprId, Facts, NameId, ScopeId, ScopeKind, Scopes};

use crate::{Call, Outcome};

/// Whether the moved answers of a call are among those it may move, and are what it told; else what is wrong. `before`
/// is the book before the call.
pub fn check(before: &Facts, call: &Call, outcome: &Outcome) -> Result<(), String> {
    let wrong = |what: String| Err(format!("{what}, by `{call}` with outcome `{outcome}`"));
    if let Some(reference) = outcome.moved.iter().find(|&&reference| !may_move(before, call, outcome.refused, reference)) {
        return wrong(format!("e{reference} moved"));
    }
    if outcome.changed.is_some() && outcome.list != outcome.moved {
        return wrong(format!("{:?} moved", outcome.moved));
    }
    if !outcome.moved.windows(2).all(|pair| pair[0] < pair[1]) {
        return wrong("what moved is told out of order".to_string());
    }
    match outcome.moved.len() > most_moved(before, call) {
        true => wrong(format!("more than {} moved", most_moved(before, call))),
        false => Ok(()),
    }
}

/// The most answers that a call moves.
pub fn most_moved(before: &Facts, call: &Call) -> usize {
    match call {
        Call::AskReference { .. } | Call::AskName { .. } => 0,
        Call::ChangeReference { .. } => 1,
        Call::ChangeName { number, text, .. } if (*number as usize) < before.module.names.len() => {
            before.resolution.answers.keys().filter(|&&reference| is_reached(before, *number, text, reference)).count()
        }
        Call::ChangeName { .. } => 0,
    }
}

fn may_move(before: &Facts, call: &Call, refused: u32, reference: ExprId) -> bool {
    if refused != 0 {
        return false;
    }
    match call {
        Call::AskReference { .. } | Call::AskName { .. } => false,
        Call::ChangeReference { number, text, .. } => reference == *number && reference_text(before, reference) != text,
        Call::ChangeName { number, text, .. } => {
            before.module.names[*number as usize].text != *text && is_reached(before, *number, text, reference)
        }
    }
}

/// Whether a Reference bears a name's old or new text, in the scope that holds the name or inside it.
fn is_reached(before: &Facts, name: NameId, new: &[u8], reference: ExprId) -> bool {
    let text = reference_text(before, reference);
    // The texts first, since finding the holder goes through all scopes.
    if text != before.module.names[name as usize].text && text != new {
        return false;
    }
    match (holding_scope(&before.scopes, name), before.scopes.of_expr[reference as usize]) {
        (Some(holder), Some(scope)) => is_inside(&before.scopes, scope, holder),
        _ => false,
    }
}

/// The text of a Reference; a number that is none has no text and moves nothing.
fn reference_text(facts: &Facts, reference: ExprId) -> &[u8] {
    match &facts.module.exprs[reference as usize] {
        Expr::Reference(text) => text,
        _ => &[],
    }
}

/// "A name is held by the scope it is entered in, also where a later equal text hides it."
pub fn holding_scope(scopes: &Scopes, name: NameId) -> Option<ScopeId> {
    let holds = |kind: &ScopeKind| matches!(kind, ScopeKind::Definitions(names) if names.contains(&name));
    scopes.scopes.iter().position(|scope| holds(&scope.kind)).map(|number| number as ScopeId)
}

/// Whether a scope is the other or lies inside it: "Inside a scope lie its children and all below them."
pub fn is_inside(scopes: &Scopes, scope: ScopeId, outer: ScopeId) -> bool {
    std::iter::successors(Some(scope), |&at| scopes.scopes[at as usize].parent).any(|at| at == outer)
}
