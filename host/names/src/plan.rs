//! What a rename would do, tried out on a clone of the store: which References follow the name, and which answers would
//! not stay.

use crate::input::{self, Opened};
use crate::text::shown;
use crate::words;
use lang_ast::{Answer, Expr, ExprId, NameId, NameKind, Refusal, Store};
use std::collections::BTreeSet;

/// What Nix reads as something else than a name.
const KEYWORDS: [&[u8]; 9] = [b"assert", b"else", b"if", b"in", b"inherit", b"let", b"rec", b"then", b"with"];

/// A rename that was tried out.
pub struct Plan {
    pub name: NameId,
    pub old: Vec<u8>,
    pub new: Vec<u8>,
    /// The References that meant the name, and are changed with it.
    pub references: Vec<ExprId>,
    /// What each change moves when it is made: the name's first, then those of the References.
    pub moved_by_changes: Vec<Vec<ExprId>>,
    /// The References that mean something else afterwards.
    pub moved: Vec<Moved>,
    /// All as it would be afterwards.
    pub after: Opened,
}

/// A Reference with what it means before and after.
pub struct Moved {
    pub expr: ExprId,
    pub before: Answer,
    pub after: Answer,
}

/// Tries a rename out. It is one change for the name and one for each Reference.
pub fn plan(opened: &Opened, name: NameId, new: &[u8]) -> Result<Plan, String> {
    let tried = tried(&opened.store, name, new).map_err(|refusal| format!("the rename is {}", input::refused(refusal, &[])))?;
    let Tried { references, moved_by_changes, after: store } = tried;
    let moved = moved(&opened.store, &store, &moved_by_changes).map_err(|refusal| input::refused(refusal, &[]))?;
    let old = opened.store.name(name).map(|name| name.text.to_vec()).unwrap_or_default();
    let after = Opened { store, ..opened.clone() };
    Ok(Plan { name, old, new: new.to_vec(), references, moved_by_changes, moved, after })
}

/// The changes of a rename, made on a clone.
struct Tried {
    references: Vec<ExprId>,
    moved_by_changes: Vec<Vec<ExprId>>,
    after: Store,
}

fn tried(store: &Store, name: NameId, new: &[u8]) -> Result<Tried, Refusal> {
    let references = store.ask_name(name)?;
    let mut after = store.clone();
    let mut moved_by_changes = vec![after.change_name(name, new)?];
    for &expr in &references {
        moved_by_changes.push(after.change_reference(expr, new)?);
    }
    Ok(Tried { references, moved_by_changes, after })
}

/// What means something else after all changes: of the References that one of them moved those that a later one did not
/// move back.
fn moved(before: &Store, after: &Store, by_changes: &[Vec<ExprId>]) -> Result<Vec<Moved>, Refusal> {
    let mut moved = Vec::new();
    for expr in by_changes.iter().flatten().copied().collect::<BTreeSet<_>>() {
        let (before, after) = (before.ask_reference(expr)?, after.ask_reference(expr)?);
        if before != after {
            moved.push(Moved { expr, before, after });
        }
    }
    Ok(moved)
}

impl Plan {
    /// What would be wrong afterwards, a sentence each.
    pub fn warnings(&self, opened: &Opened) -> Vec<String> {
        let mut warnings: Vec<String> = self.moved.iter().map(|moved| self.warning(opened, moved)).collect();
        let new = shown(&self.new);
        if let Some(other) = self.clash(opened) {
            warnings.push(format!("{new} would be there twice: {} is of the same set, let or pattern", words::definition(opened, other)));
        }
        if !is_name(&self.new) {
            warnings.push(format!("{new} is no name that Nix can read"));
        }
        warnings
    }

    fn warning(&self, opened: &Opened, moved: &Moved) -> String {
        let Moved { expr, before, after } = moved;
        let (before, then) = (words::answer(opened, *expr, before), words::answer(&self.after, *expr, after));
        let reference = words::reference(opened, *expr);
        if self.references.contains(expr) {
            return format!("{reference} would be captured: renamed too, it would mean {then}");
        }
        if after.definition() == Some(self.name) {
            return format!("{reference} would be captured by the new name: it means {before}");
        }
        format!("{reference} would move from {before} to {then}")
    }

    /// Another name of the same set, let or pattern that has the new text.
    fn clash(&self, opened: &Opened) -> Option<NameId> {
        if self.old == self.new {
            return None;
        }
        beside(&opened.store, self.name).into_iter().find(|&name| has_text(&opened.store, name, &self.new))
    }

    /// What this can't see, a sentence each.
    pub fn notes(&self, opened: &Opened) -> Vec<String> {
        let store = &opened.store;
        let of_kind = match store.name(self.name).map(|name| name.kind) {
            Some(NameKind::PlainAttrset | NameKind::RecAttrset) => {
                Some("uses through the set (`.key`, `with`, `inherit (..)`) are not followed and stay as they are".to_string())
            }
            Some(NameKind::PatField) => Some("callers give this field by its name; they are not followed and stay as they are".to_string()),
            _ => None,
        };
        let dead = store.references().filter(|&(expr, text)| text == self.old && store.scope_of(expr).is_none());
        let stays = |(expr, _)| format!("{} stands in a value that was replaced, and stays as it is", words::reference(opened, expr));
        of_kind.into_iter().chain(dead.map(stays)).collect()
    }
}

/// The other names of the set, let or pattern that a name is of.
pub fn beside(store: &Store, name: NameId) -> Vec<NameId> {
    let mut together = store.exprs().filter_map(|expr| bound_by(store, expr)).find(|names| names.contains(&name)).unwrap_or_default();
    together.retain(|&other| other != name);
    together
}

pub fn has_text(store: &Store, name: NameId, text: &[u8]) -> bool {
    store.name(name).is_some_and(|name| name.text == text)
}

/// The names that an expression binds side by side.
fn bound_by(store: &Store, expr: ExprId) -> Option<Vec<NameId>> {
    match store.expr(expr)? {
        Expr::LetIn { bindings, .. } | Expr::AttrSet { bindings, .. } => Some(bindings.statics.iter().map(|&(name, _)| name).collect()),
        Expr::Lambda { param, pat, .. } => {
            let fields = pat.into_iter().flat_map(|pat| pat.fields).filter_map(|field| field.name);
            Some(param.into_iter().chain(fields).collect())
        }
        _ => None,
    }
}

/// Whether Nix reads a text as a name.
pub fn is_name(text: &[u8]) -> bool {
    let letter = |byte: u8| byte.is_ascii_alphabetic() || byte == b'_';
    let follows = |byte: u8| letter(byte) || byte.is_ascii_digit() || byte == b'\'' || byte == b'-';
    let reads = text.split_first().is_some_and(|(&first, rest)| letter(first) && rest.iter().all(|&byte| follows(byte)));
    reads && !KEYWORDS.contains(&text)
}

#[cfg(test)]
mod tests {
    use super::*;

    #[test]
    fn names_are_told_from_what_is_none() {
        for name in ["x", "_", "a-b", "x'", "a1", "or"] {
            assert!(is_name(name.as_bytes()), "{name}");
        }
        for other in ["", "1a", "a b", "let", "-a", "é", "a."] {
            assert!(!is_name(other.as_bytes()), "{other}");
        }
    }
}
