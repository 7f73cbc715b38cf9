//! What stands at a byte of the Nix text.

use crate::args::Spot;
use crate::input::Opened;
use crate::words;
use lang_ast::{ExprId, NameId, Pointer};
use std::cmp::Reverse;

/// What stands somewhere. The order is that of preference where two have the same place.
#[derive(Debug, Clone, Copy, PartialEq, Eq, PartialOrd, Ord)]
pub enum Thing {
    Reference(ExprId),
    Name(NameId),
    /// A key that is written again.
    Again(NameId),
    Expr(ExprId),
}

/// A thing and where it lies.
#[derive(Debug, Clone, Copy, PartialEq, Eq)]
pub struct Here {
    pub thing: Thing,
    pub pointer: Pointer,
}

/// The innermost expression or name around a byte; of those with the same place a Reference first, then a name. None
/// where nothing is.
pub fn here(opened: &Opened, byte: u32) -> Option<Here> {
    let around = things(opened).filter(|here| here.pointer.from <= byte && byte < here.pointer.to);
    around.min_by_key(|here| (here.pointer.to - here.pointer.from, rank(here.thing)))
}

/// Of things of one sort the one with the highest number is meant, as in the store's map from pointers.
fn rank(thing: Thing) -> (u8, Reverse<u32>) {
    match thing {
        Thing::Reference(expr) => (0, Reverse(expr.number())),
        Thing::Name(name) => (1, Reverse(name.number())),
        Thing::Again(name) => (2, Reverse(name.number())),
        Thing::Expr(expr) => (3, Reverse(expr.number())),
    }
}

fn things(opened: &Opened) -> impl Iterator<Item = Here> + '_ {
    let store = &opened.store;
    let exprs = store.exprs().filter_map(|expr| {
        let thing = if store.reference_text(expr).is_some() { Thing::Reference(expr) } else { Thing::Expr(expr) };
        Some(Here { thing, pointer: store.expr_pointer(expr)? })
    });
    let names = store.names().filter_map(|name| Some(Here { thing: Thing::Name(name), pointer: store.name(name)?.pointer }));
    let again = opened.again.iter().filter_map(|again| {
        let name = store.name_at(again.first)?;
        Some(Here { thing: Thing::Again(name), pointer: again.place })
    });
    exprs.chain(names).chain(again)
}

/// The name that is written at a place, for the first time or again. That a Reference has the same place is so in a
/// plain inherit.
pub fn name_written(opened: &Opened, place: Pointer) -> Option<NameId> {
    let again = || opened.again.iter().find(|again| again.place == place).and_then(|again| opened.store.name_at(again.first));
    opened.store.name_at(place).or_else(again)
}

/// What else the text at a byte is, where the definition there is that of a plain inherit: someone may have meant the
/// inherited value.
pub fn also(opened: &Opened, byte: u32) -> Option<String> {
    let here = here(opened, byte)?;
    let Thing::Reference(expr) = here.thing else { return None };
    name_written(opened, here.pointer)?;
    let answer = opened.store.ask_reference(expr).ok()?;
    Some(format!("the same text is the inherited value too ({expr}), which means {}", words::answer(opened, expr, &answer)))
}

/// The byte that is meant.
pub fn byte(opened: &Opened, spot: Spot) -> Result<u32, String> {
    match (spot, &opened.source) {
        (Spot::Byte(byte), _) => Ok(byte),
        (Spot::LineColumn(spot), Some(source)) => source.byte(spot).ok_or_else(|| format!("{spot} is outside the Nix text")),
        (Spot::LineColumn(spot), None) => Err(format!("{spot} is a line and a column, for which the Nix text is wanted too")),
    }
}

/// What stands at a byte, or a sentence that nothing does.
pub fn found(opened: &Opened, byte: u32) -> Result<Here, String> {
    here(opened, byte).ok_or_else(|| match opened.tree.node(0).map(|root| root.pointer) {
        Some(Pointer { from, to, .. }) if byte < from || to <= byte => {
            format!("byte {byte} is outside the Nix text, which goes from {from} to {to}")
        }
        _ => format!("no expression and no name stands at byte {byte}"),
    })
}

/// The definition at a byte: the name that stands there, else the one that the Reference there means.
pub fn definition(opened: &Opened, byte: u32) -> Result<NameId, String> {
    let here = found(opened, byte)?;
    match here.thing {
        Thing::Name(name) | Thing::Again(name) => Ok(name),
        Thing::Reference(expr) => match name_written(opened, here.pointer) {
            Some(name) => Ok(name),
            None => {
                let answer = opened.store.ask_reference(expr).map_err(|refusal| refusal.to_string())?;
                let none =
                    || format!("{} has no definition: it means {}", words::reference(opened, expr), words::answer(opened, expr, &answer));
                answer.definition().ok_or_else(none)
            }
        },
        Thing::Expr(expr) => Err(format!(
            "no name stands at byte {byte}, but a {} ({expr}) at {}",
            words::expression(&opened.store, expr),
            words::place(opened, Some(here.pointer))
        )),
    }
}
