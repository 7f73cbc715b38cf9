//! A reading of the requirements (docs/RULES.md has them in other words) that was written from their sentences, without
//! the Rust they describe: what a sheet lowers to, which scopes it has and what each Reference answers. It is there to
//! be compared with the Rust, so it goes the plain way wherever there is a choice.
//!
//! The files lie beside the sections of docs/RULES.md: `lower` (expressions, names, pointers), `merge` (sets and lets),
//! `scopes` and `answer`. Sentences in quotes are the requirements'; D1 and its like are points of docs/DECISIONS.md,
//! which settles what those words leave open. Where both leave something open the comment begins with `OPEN:`.

use canon::{Expr, ExprId, Facts, Module, NameId, Reading, Resolution, Scopes};
use sheet::Node;

mod answer;
mod lower;
mod merge;
mod scopes;

pub use answer::BUILTINS;

/// A loaded sheet: its module with the texts as they now read, and its scopes as loaded.
///
/// "A change sets one text and nothing else in the module: the order of entering, the scopes and the diagnostics remain
/// as loaded." So the texts of names and References are the only part that is ever written again; scopes speak of names
/// by number, and key literals and diagnostics have copies of the loaded text.
#[derive(Debug, Clone)]
pub struct Plain {
    module: Module,
    scopes: Scopes,
}

impl Plain {
    /// Lowers the nodes of an accepted sheet and walks the result. A list of nodes that the refusals 3 to 7 would stop
    /// may panic.
    ///
    /// Some 2,000 levels of expressions are gone through by recursion: call it on a thread with a large stack.
    pub fn new(nodes: &[Node]) -> Plain {
        let module = lower::lower(nodes);
        let scopes = scopes::walk(&module);
        Plain { module, scopes }
    }
}

impl Reading for Plain {
    fn facts(&self) -> Facts {
        Facts { module: self.module.clone(), scopes: self.scopes.clone(), resolution: self.resolution() }
    }

    fn set_name(&mut self, name: NameId, text: &[u8]) {
        self.module.names[name as usize].text = text.to_vec();
    }

    fn set_reference(&mut self, expr: ExprId, text: &[u8]) {
        match &mut self.module.exprs[expr as usize] {
            Expr::Reference(old) => *old = text.to_vec(),
            other => panic!("e{expr} is no Reference but {other:?}"),
        }
    }

    fn resolution(&self) -> Resolution {
        answer::resolve(&self.module, &self.scopes)
    }
}
