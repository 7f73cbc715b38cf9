//! What docs/STORE.md gives as a rule and not as a table, for a module that was read: the Withs around an expression,
//! and the scope that holds a name.

use crate::store::module::{Module, Scoped};

/// From the expression's scope up through the parents, the With of each scope that has one.
pub fn withs(module: &Module, e: u32) -> Vec<u32> {
    let mut list = Vec::new();
    let mut at = module.exprs[e as usize].scope;
    // A parent is numbered below its child, or else the store would not have been read.
    while let Some(scope) = at.map(|number| &module.scopes[number as usize]) {
        if let Scoped::With(with) = scope.what {
            list.push(with);
        }
        at = scope.parent;
    }
    list
}

/// For each name the lowest scope of definitions whose list has it.
pub fn holders(module: &Module) -> Vec<Option<u32>> {
    let mut holders = vec![None; module.names.len()];
    for (number, scope) in (0..).zip(&module.scopes) {
        if let Scoped::Definitions(names) = &scope.what {
            for &name in names {
                holders[name as usize].get_or_insert(number);
            }
        }
    }
    holders
}

#[cfg(test)]
mod tests {
    use super::*;
    use crate::store::module::{Answer, Expr, Name, Placed, Pointer, Scope};

    /// A root, a scope of names 1 and 0, a With in it, another With in that, and a scope that has name 1 again.
    fn module() -> Module<'static> {
        let pointer = Pointer { kind: 0, from: 0, to: 0 };
        let name = || Name { text: b"x", kind: 0, pointer, references: Vec::new() };
        let placed = |scope| Placed { expr: Expr::Uri, pointer: Some(pointer), scope, answer: Answer::None };
        let scope = |parent, what| Scope { parent, what };
        Module {
            exprs: vec![placed(None), placed(Some(0)), placed(Some(3)), placed(Some(4))],
            names: vec![name(), name(), name()],
            scopes: vec![
                scope(None, Scoped::Definitions(vec![])),
                scope(Some(0), Scoped::Definitions(vec![1, 0])),
                scope(Some(1), Scoped::With(3)),
                scope(Some(2), Scoped::With(2)),
                scope(Some(2), Scoped::Definitions(vec![1])),
            ],
            ..Module::default()
        }
    }

    #[test]
    fn rules_of_the_page() {
        let module = module();
        assert_eq!((0..4).map(|e| withs(&module, e)).collect::<Vec<_>>(), [vec![], vec![], vec![2, 3], vec![3]]);
        assert_eq!(holders(&module), [Some(1), Some(1), None]);
    }
}
