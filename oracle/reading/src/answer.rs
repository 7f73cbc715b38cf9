//! Document 01, "Scopes and answers": what a use of a name means, by the rule of the Nix Reference Manual. A name means
//! its innermost enclosing definition (function parameter, let, rec set); a name without one may be a built-in; one
//! that is not may come from any enclosing `with`, the innermost first, for a `with` never takes a name over from a
//! definition or a built-in.

use std::collections::BTreeMap;

use canon::{Answer, Expr, ExprId, Module, NameId, Resolution, ScopeId, ScopeKind, Scopes};

/// "the 22 names of `GLOBAL_BUILTIN_NAMES`, from 0".
pub const BUILTINS: [&str; 22] = [
    "abort",
    "baseNameOf",
    "builtins",
    "derivation",
    "dirOf",
    "false",
    "fetchGit",
    "fetchMercurial",
    "fetchTarball",
    "fetchTree",
    "fetchurl",
    "fromTOML",
    "import",
    "isNull",
    "map",
    "null",
    "placeholder",
    "removeAttrs",
    "scopedImport",
    "throw",
    "toString",
    "true",
];

/// The answers of all References, and each name's kept references: "exactly those answered 1 with that name,
/// ascending".
pub(crate) fn resolve(module: &Module, scopes: &Scopes) -> Resolution {
    let mut answers = BTreeMap::new();
    let mut references = vec![Vec::new(); module.names.len()];
    for (number, expr) in module.exprs.iter().enumerate() {
        let Expr::Reference(text) = expr else { continue };
        let answer = answer(module, scopes, scopes.of_expr[number], text);
        // Expressions are gone through in the order of their numbers, so each list comes out ascending.
        if let Answer::Definition(name) = answer {
            references[name as usize].push(number as ExprId);
        }
        answers.insert(number as ExprId, answer);
    }
    Resolution { answers, references }
}

/// "A Reference without scope: 0 none. Else 1, the innermost definition; else 2, the index in the 22 names; else 3, all
/// enclosing Withs, innermost first; else 0."
fn answer(module: &Module, scopes: &Scopes, scope: Option<ScopeId>, text: &[u8]) -> Answer {
    let Some(scope) = scope else { return Answer::None };
    if let Some(name) = definition(module, scopes, scope, text) {
        return Answer::Definition(name);
    }
    if let Some(index) = BUILTINS.iter().position(|builtin| builtin.as_bytes() == text) {
        return Answer::Builtin(index as u32);
    }
    let withs = enclosing_withs(scopes, scope);
    if withs.is_empty() {
        Answer::None
    } else {
        Answer::Withs(withs)
    }
}

/// The innermost enclosing definition, past every With: a With on the way does not end the search.
fn definition(module: &Module, scopes: &Scopes, scope: ScopeId, text: &[u8]) -> Option<NameId> {
    enclosing(scopes, scope).find_map(|at| match &scopes.scopes[at as usize].kind {
        // "Of equal texts in a scope the last entered answers."
        ScopeKind::Definitions(names) => names.iter().rev().copied().find(|&name| module.names[name as usize].text == text),
        ScopeKind::With(_) => None,
    })
}

fn enclosing_withs(scopes: &Scopes, scope: ScopeId) -> Vec<ExprId> {
    let with = |at: ScopeId| match scopes.scopes[at as usize].kind {
        ScopeKind::With(expr) => Some(expr),
        ScopeKind::Definitions(_) => None,
    };
    enclosing(scopes, scope).filter_map(with).collect()
}

/// A scope and all around it, the innermost first.
fn enclosing(scopes: &Scopes, scope: ScopeId) -> impl Iterator<Item = ScopeId> + '_ {
    std::iter::successors(Some(scope), |&at| scopes.scopes[at as usize].parent)
}
