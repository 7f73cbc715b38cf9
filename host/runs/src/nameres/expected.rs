//! What the Rust says of a sheet, as a store holds it once the names are resolved, and whether a store holds it.

use super::around;
use crate::exported;
use crate::lower::expected as lowered;
use crate::store::module::{Answer, Expr, Module, Scope, Scoped};
use crate::store::page;
use crate::store::same::same_module;
use book::{locality, Held};
use canon::{Facts, ScopeKind};
use sheet::Node;

/// What is right for a store: all that the Rust says with the texts as they now read, and how many bytes are in use and
/// spent.
pub struct Right {
    pub facts: Facts,
    texts: u32,
    spent: u32,
}

impl Right {
    /// As a load leaves it: the texts are those of the nodes, and nothing is spent.
    pub fn loaded(nodes: &[Node], facts: Facts) -> Self {
        let texts = nodes.iter().map(|node| 4 + node.text.len() as u32).sum();
        Right { facts, texts, spent: 0 }
    }

    /// What the book holds after a change that was accepted: `placed` is the new text where it differed from the old.
    /// The module but for its texts, and the scopes, remain as loaded.
    pub fn change(&mut self, held: Held, placed: Option<&[u8]>) {
        for (name, text) in self.facts.module.names.iter_mut().zip(held.name_texts) {
            name.text = text;
        }
        for (e, text) in held.reference_texts {
            self.facts.module.exprs[e as usize] = canon::Expr::Reference(text);
        }
        self.facts.resolution = held.resolution;
        if let Some(text) = placed {
            self.place(text);
        }
        self.spent = held.room_spent as u32;
    }

    /// A text was put behind those in use; the empty one takes no bytes.
    fn place(&mut self, text: &[u8]) {
        let length = text.len() as u32;
        self.spent += length;
        self.texts += if length == 0 { 0 } else { 4 + length };
    }

    pub fn spent(&self) -> usize {
        self.spent as usize
    }

    /// The whole module as it is to be read from the store. What is no Reference has the answer of none.
    pub fn module(&self) -> Result<Module<'_>, String> {
        let mut module = lowered::module(&self.facts.module, self.texts)?;
        module.spent = self.spent;
        for ((e, placed), scope) in (0..).zip(&mut module.exprs).zip(&self.facts.scopes.of_expr) {
            placed.scope = *scope;
            placed.answer = self.facts.resolution.answers.get(&e).map_or(Answer::None, answer);
        }
        for (name, kept) in module.names.iter_mut().zip(&self.facts.resolution.references) {
            name.references.clone_from(kept);
        }
        module.scopes = self.facts.scopes.scopes.iter().map(scope).collect();
        Ok(module)
    }

    /// Whether the store holds it, by the reader that was written from docs/STORE.md, and is found sound.
    pub fn holds(&self, store: &[u8]) -> Result<(), String> {
        let read = read(store)?;
        same_module(&read, &self.module()?)?;
        self.lists_of_withs(&read)?;
        references_ascend(&read)?;
        match exported::condition(store) {
            0 => Ok(()),
            number => Err(format!("the store is refused with {number}")),
        }
    }

    /// Whether each name is held by the scope that the oracle says.
    pub fn holders(&self, store: &[u8]) -> Result<(), String> {
        let read = read(store)?;
        for (name, holder) in (0..).zip(around::holders(&read)) {
            let right = locality::holding_scope(&self.facts.scopes, name);
            if holder != right {
                return Err(format!("name {name} is held by {holder:?} and not by {right:?}"));
            }
        }
        Ok(())
    }

    fn lists_of_withs(&self, read: &Module) -> Result<(), String> {
        for (&e, answer) in &self.facts.resolution.answers {
            if let canon::Answer::Withs(right) = answer {
                let list = around::withs(read, e);
                if list != *right {
                    return Err(format!("the Withs around e{e} are {list:?} and not {right:?}"));
                }
            }
        }
        Ok(())
    }
}

/// The module in a store. The answer of what is no Reference means nothing, and is left out.
fn read(store: &[u8]) -> Result<Module<'_>, String> {
    let mut module = page::read(store)?;
    for placed in &mut module.exprs {
        if !matches!(placed.expr, Expr::Reference(_)) {
            placed.answer = Answer::None;
        }
    }
    Ok(module)
}

fn references_ascend(read: &Module) -> Result<(), String> {
    let ascend = |list: &[u32]| list.windows(2).all(|pair| pair[0] < pair[1]);
    match read.names.iter().position(|name| !ascend(&name.references)) {
        None => Ok(()),
        Some(name) => Err(format!("the references of name {name} do not ascend: {:?}", read.names[name].references)),
    }
}

/// An answer as one word says it: without the list of Withs.
pub fn answer(of: &canon::Answer) -> Answer {
    match of {
        canon::Answer::None => Answer::None,
        canon::Answer::Definition(name) => Answer::Definition(*name),
        canon::Answer::Builtin(index) => Answer::Builtin(*index),
        canon::Answer::Withs(_) => Answer::Withs,
    }
}

fn scope(of: &canon::Scope) -> Scope {
    let what = match &of.kind {
        ScopeKind::Definitions(names) => Scoped::Definitions(names.clone()),
        ScopeKind::With(e) => Scoped::With(*e),
    };
    Scope { parent: of.parent, what }
}
