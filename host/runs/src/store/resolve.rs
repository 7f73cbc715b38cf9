//! What a Reference means, by the rule of docs/RULES.md over the scopes of a module that was read: for any sound store,
//! also one that no load makes.

use super::module::{Answer, Expr, Module, Scoped};
use generate::names::BUILTINS;

/// The answer of the expression e worked out afresh; none where it is no Reference.
pub fn answer(module: &Module, e: usize) -> Option<Answer> {
    let placed = &module.exprs[e];
    let Expr::Reference(text) = placed.expr else { return None };
    let (mut at, mut withs) = (placed.scope, false);
    while let Some(scope) = at.map(|number| &module.scopes[number as usize]) {
        match &scope.what {
            Scoped::With(_) => withs = true,
            Scoped::Definitions(names) => {
                if let Some(&name) = names.iter().rev().find(|&&name| module.names[name as usize].text == text) {
                    return Some(Answer::Definition(name));
                }
            }
        }
        at = scope.parent;
    }
    let builtin = BUILTINS.iter().position(|&builtin| builtin == text).filter(|_| placed.scope.is_some());
    let otherwise = if withs { Answer::Withs } else { Answer::None };
    Some(builtin.map_or(otherwise, |index| Answer::Builtin(index as u32)))
}
