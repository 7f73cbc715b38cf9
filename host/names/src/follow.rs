//! `names follow` and `names references`: from a byte to its definition, and from a definition to its uses.

use crate::at::{self, Here, Thing};
use crate::input::Opened;
use crate::json::Object;
use crate::text::{aligned, count, shown};
use crate::words;
use lang_ast::{ExprId, NameId};

/// What follow says: a label, what there is to say, and the place to mark.
type Said = (&'static str, String, Option<lang_ast::Pointer>);

pub fn follow(opened: &Opened, byte: u32) -> Result<String, String> {
    let here = at::found(opened, byte)?;
    let said = match here.thing {
        Thing::Reference(expr) => followed(opened, here, expr)?,
        Thing::Name(name) => vec![("here", format!("{}, the definition itself", words::definition(opened, name)), Some(here.pointer))],
        Thing::Again(name) => written_again(opened, here, name),
        Thing::Expr(expr) => vec![("here", other(opened, here, expr), Some(here.pointer))],
    };
    let mut lines = Vec::new();
    for (label, words, pointer) in said {
        lines.push(format!("{label:5}  {words}"));
        lines.extend(words::marked(opened, pointer, 7));
    }
    Ok(lines.join("\n") + "\n")
}

fn followed(opened: &Opened, here: Here, expr: ExprId) -> Result<Vec<Said>, String> {
    let answer = opened.store.ask_reference(expr).map_err(|refusal| refusal.to_string())?;
    let defined = answer.definition().and_then(|name| opened.store.name(name)).map(|name| name.pointer);
    let mut said =
        vec![("here", words::reference(opened, expr), Some(here.pointer)), ("means", words::answer(opened, expr, &answer), defined)];
    if let Some(name) = at::name_written(opened, here.pointer) {
        said.push(("also", format!("{}, which inherits it", words::definition(opened, name)), None));
    }
    Ok(said)
}

fn written_again(opened: &Opened, here: Here, name: NameId) -> Vec<Said> {
    let known = opened.store.name(name);
    let text = shown(known.map(|known| known.text).unwrap_or_default());
    vec![
        ("here", format!("key {text} at {}, written again", words::place(opened, Some(here.pointer))), Some(here.pointer)),
        ("means", words::definition(opened, name), known.map(|known| known.pointer)),
    ]
}

fn other(opened: &Opened, here: Here, expr: ExprId) -> String {
    format!("{} ({expr}) at {}: no name to follow", words::expression(&opened.store, expr), words::place(opened, Some(here.pointer)))
}

pub fn follow_json(opened: &Opened, byte: u32) -> Result<Object, String> {
    let here = at::found(opened, byte)?;
    let object = Object::new().with("byte", byte);
    let placed = |sort: &str| words::with_place(Object::new().with("kind", sort), opened, Some(here.pointer));
    Ok(match here.thing {
        Thing::Reference(expr) => {
            let answer = opened.store.ask_reference(expr).map_err(|refusal| refusal.to_string())?;
            let also = at::name_written(opened, here.pointer).map(|name| words::definition_json(opened, name));
            let text = opened.store.reference_text(expr).unwrap_or_default();
            let found = placed("reference").with("expr", expr.number()).with_text("text", text);
            object.with("here", found).with("means", words::answer_json(opened, &answer)).with("inherited_by", also)
        }
        Thing::Name(name) | Thing::Again(name) => {
            let sort = if here.thing == Thing::Name(name) { "definition" } else { "key written again" };
            object.with("here", placed(sort).with("name", name.number())).with("means", words::definition_json(opened, name))
        }
        Thing::Expr(expr) => {
            let sort = words::expression(&opened.store, expr);
            object.with("here", placed("expression").with("expr", expr.number()).with("sort", sort)).with("means", None::<Object>)
        }
    })
}

/// A definition and the References that mean it, by their places.
fn uses(opened: &Opened, byte: u32) -> Result<(NameId, Vec<ExprId>), String> {
    let name = at::definition(opened, byte)?;
    let mut uses = opened.store.ask_name(name).map_err(|refusal| refusal.to_string())?;
    uses.sort_by_key(|&expr| opened.store.expr_pointer(expr).map(|pointer| (pointer.from, pointer.to)));
    Ok((name, uses))
}

pub fn references(opened: &Opened, byte: u32) -> Result<String, String> {
    let (name, uses) = uses(opened, byte)?;
    let mut lines = vec![format!("{}: {}", words::definition(opened, name), count(uses.len(), "reference", "references"))];
    lines.extend(words::marked(opened, opened.store.name(name).map(|name| name.pointer), 4));
    lines.extend(at::also(opened, byte).into_iter().chain(never_meant(opened, name)).map(|note| format!("note: {note}")));
    let place = |expr| words::place(opened, opened.store.expr_pointer(expr));
    let rows: Vec<Vec<String>> = uses.iter().map(|&expr| vec![expr.to_string(), place(expr)]).collect();
    for (line, &expr) in aligned(&rows).into_iter().zip(&uses) {
        lines.push(format!("  {line}"));
        lines.extend(words::marked(opened, opened.store.expr_pointer(expr), 4));
    }
    Ok(lines.join("\n") + "\n")
}

/// Why some definitions have no references, which might surprise.
fn never_meant(opened: &Opened, name: NameId) -> Option<String> {
    let plain = opened.store.name(name).is_some_and(|name| !name.kind.is_definition());
    plain.then(|| "a name alone never means a key of a set that is not rec; uses through the set are not followed".to_string())
}

pub fn references_json(opened: &Opened, byte: u32) -> Result<Object, String> {
    let (name, uses) = uses(opened, byte)?;
    let uses: Vec<Object> = uses.iter().map(|&expr| words::reference_json(opened, expr)).collect();
    Ok(Object::new().with("byte", byte).with("definition", words::definition_json(opened, name)).with("references", uses))
}
