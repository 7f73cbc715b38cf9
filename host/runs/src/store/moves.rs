//! What a change of text does to the kept answers of any sound store, also one that no load makes, by docs/RULES.md:
//! which of them are resolved again, what they are then, and which of them move.

use super::module::{Answer, Expr, Module, Scoped};
use super::resolve;

/// What has a text that changes.
#[derive(Debug, Clone, Copy, PartialEq, Eq)]
pub enum Place {
    Reference(u32),
    Name(u32),
}

/// The kept answers after a change, and the References whose answer is another than before, ascending.
pub struct Moves {
    pub answers: Vec<Answer>,
    pub moved: Vec<u32>,
}

/// What a change of the place to another text leaves, from the module before it.
pub fn by(before: &Module, place: Place, text: &[u8]) -> Moves {
    let again = resolved_again(before, place, text);
    let after = with_text(before, place, text);
    let mut answers: Vec<Answer> = before.exprs.iter().map(|placed| placed.answer).collect();
    for e in again {
        answers[e] = resolve::answer(&after, e).unwrap_or(answers[e]);
    }
    let differs = |e: &usize| answers[*e] != before.exprs[*e].answer;
    let moved = (0..answers.len()).filter(differs).map(|e| e as u32).collect();
    Moves { answers, moved }
}

/// A changed Reference is resolved again, and no other. For a changed name it is the References that bear its old or
/// its new text and have the first scope that holds it in their chain; none where no scope holds it.
fn resolved_again(before: &Module, place: Place, new: &[u8]) -> Vec<usize> {
    let name = match place {
        Place::Reference(e) => return vec![e as usize],
        Place::Name(name) => name,
    };
    let holds = |what: &Scoped| matches!(what, Scoped::Definitions(names) if names.contains(&name));
    let Some(holder) = before.scopes.iter().position(|scope| holds(&scope.what)) else { return Vec::new() };
    let old = before.names[name as usize].text;
    let is_met = |&e: &usize| match before.exprs[e].expr {
        Expr::Reference(text) => (text == old || text == new) && in_chain(before, before.exprs[e].scope, holder as u32),
        _ => false,
    };
    (0..before.exprs.len()).filter(is_met).collect()
}

/// Whether a scope is the other or lies inside it.
fn in_chain(module: &Module, scope: Option<u32>, outer: u32) -> bool {
    std::iter::successors(scope, |&at| module.scopes[at as usize].parent).any(|at| at == outer)
}

fn with_text<'a>(before: &Module<'a>, place: Place, text: &'a [u8]) -> Module<'a> {
    let mut after = before.clone();
    match place {
        Place::Reference(e) => after.exprs[e as usize].expr = Expr::Reference(text),
        Place::Name(name) => after.names[name as usize].text = text,
    }
    after
}

#[cfg(test)]
mod tests {
    use super::*;
    use crate::store::module::{Name, Placed, Pointer, Scope};

    const POINTER: Pointer = Pointer { kind: 0, from: 0, to: 0 };

    fn reference(text: &'static [u8], scope: Option<u32>, answer: Answer) -> Placed<'static> {
        Placed { expr: Expr::Reference(text), pointer: Some(POINTER), scope, answer }
    }

    /// Name 0 is x, held by scope 1 and again by scope 2, which are both inside the root; name 1 is x and held by none.
    /// The kept answers are those of no load.
    fn module() -> Module<'static> {
        let name = |text| Name { text, kind: 0, pointer: POINTER, references: Vec::new() };
        let scope = |parent, what| Scope { parent, what };
        Module {
            exprs: vec![
                reference(b"x", Some(1), Answer::Withs),
                reference(b"y", Some(1), Answer::Builtin(3)),
                reference(b"x", Some(2), Answer::Withs),
                reference(b"x", None, Answer::Definition(1)),
                reference(b"q", Some(1), Answer::Definition(1)),
            ],
            names: vec![name(b"x"), name(b"x")],
            scopes: vec![
                scope(None, Scoped::Definitions(vec![])),
                scope(Some(0), Scoped::Definitions(vec![0])),
                scope(Some(0), Scoped::Definitions(vec![0])),
            ],
            ..Module::default()
        }
    }

    #[test]
    fn a_name_reaches_bearers_inside_its_first_holder_alone() {
        assert_eq!(resolved_again(&module(), Place::Name(0), b"y"), [0, 1]);
        let moves = by(&module(), Place::Name(0), b"y");
        assert_eq!(moves.moved, [0, 1]);
        assert_eq!(moves.answers[..2], [Answer::None, Answer::Definition(0)]);
        assert_eq!(by(&module(), Place::Name(1), b"y").moved, []);
    }

    #[test]
    fn a_reference_reaches_itself_alone() {
        assert_eq!(by(&module(), Place::Reference(2), b"q").moved, [2]);
        assert_eq!(by(&module(), Place::Reference(4), b"x").answers[4], Answer::Definition(0));
        // Not walked, it is answered with nothing from now on.
        assert_eq!(by(&module(), Place::Reference(3), b"q").answers[3], Answer::None);
    }
}
