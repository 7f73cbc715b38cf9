//! `names rename`: what a rename would write and move. Nothing is written to disk.

use crate::at;
use crate::edits::{changed_lines, edits, Changed, Edit, Edits};
use crate::input::Opened;
use crate::json::{hex, Json, Object};
use crate::place::shown_line;
use crate::plan::{plan, Moved, Plan};
use crate::text::{aligned, count, shown};
use crate::words;
use lang_ast::ExprId;

/// Said of every rename: a host that makes the changes one by one can be asked in between.
const SEVERAL: &str = "one after the other until renaming is one call; answers in between are those of half a rename";

pub fn text(opened: &Opened, byte: u32, new: &[u8]) -> Result<String, String> {
    let plan = plan(opened, at::definition(opened, byte)?, new)?;
    let edits = edits(opened, &plan);
    let mut lines = vec![format!("rename {} to {}", words::definition(opened, plan.name), shown(new))];
    if plan.old == plan.new {
        return Ok(lines.remove(0) + ": that is its text already, so there is nothing to do\n");
    }
    lines.extend(warnings(opened, &plan, &edits).iter().map(|warning| format!("warning: {warning}")));
    lines.extend(notes(opened, &plan, &edits, byte).iter().map(|note| format!("note: {note}")));
    for part in [written(&edits.list), moved(opened, &plan, &edits), called(&plan), changed(opened, &edits)] {
        lines.push(String::new());
        lines.extend(part);
    }
    Ok(lines.join("\n").trim_end().to_string() + "\n")
}

fn warnings(opened: &Opened, plan: &Plan, edits: &Edits) -> Vec<String> {
    plan.warnings(opened).into_iter().chain(edits.warnings.clone()).collect()
}

fn notes(opened: &Opened, plan: &Plan, edits: &Edits, byte: u32) -> Vec<String> {
    at::also(opened, byte).into_iter().chain(plan.notes(opened)).chain(edits.notes.clone()).collect()
}

fn indented(lines: Vec<String>) -> impl Iterator<Item = String> {
    lines.into_iter().map(|line| format!("  {line}"))
}

fn written(edits: &[Edit]) -> Vec<String> {
    if edits.is_empty() {
        return vec!["would write nothing".to_string()];
    }
    let text = |text: &[u8]| if text.is_empty() { "(nothing)".to_string() } else { shown(text) };
    let row = |edit: &Edit| {
        let old = edit.old.as_deref().map_or("?".to_string(), text);
        vec![format!("{}..{}", edit.from, edit.to), old, format!("-> {}", text(&edit.new))]
    };
    let rows: Vec<Vec<String>> = edits.iter().map(row).collect();
    std::iter::once("would write".to_string()).chain(indented(aligned(&rows))).collect()
}

fn moved(opened: &Opened, plan: &Plan, edits: &Edits) -> Vec<String> {
    if plan.moved.is_empty() {
        let more = if edits.warnings.is_empty() { "" } else { ", as far as the calls go" };
        return vec![format!("would move nothing: every reference means afterwards what it means now{more}")];
    }
    let mut lines = vec![format!("would move {}", count(plan.moved.len(), "reference", "references"))];
    for Moved { expr, before, after } in &plan.moved {
        lines.push(format!("  {}", words::reference(opened, *expr)));
        lines.push(format!("    now   {}", words::answer(opened, *expr, before)));
        lines.push(format!("    then  {}", words::answer(&plan.after, *expr, after)));
    }
    lines
}

/// The changes as lines of a script, which `names run` takes, each with what it moves when it is made.
fn called(plan: &Plan) -> Vec<String> {
    let text = hex(&plan.new);
    let calls = 1 + plan.references.len();
    let several = if calls == 1 { String::new() } else { format!(", {SEVERAL}") };
    let set_name = format!("set-name {} text={text}", plan.name.number());
    let set_refs = plan.references.iter().map(|expr| format!("set-ref {} text={text}", expr.number()));
    let changes = std::iter::once(set_name).chain(set_refs).zip(&plan.moved_by_changes);
    let rows: Vec<Vec<String>> = changes.map(|(change, moved)| vec![change, format!("# {}", words::moved(moved))]).collect();
    let takes = format!("takes {}{several}", count(calls, "change", "changes"));
    std::iter::once(takes).chain(indented(aligned(&rows))).collect()
}

/// The changed lines, where the Nix text is there.
fn changed(opened: &Opened, edits: &Edits) -> Vec<String> {
    let Some(source) = &opened.source else { return Vec::new() };
    if edits.list.is_empty() {
        return Vec::new();
    }
    let Some(changed) = changed_lines(source, &edits.list) else {
        return vec!["the places overlap or lie outside the Nix text: its lines can't be shown".to_string()];
    };
    let last = changed.iter().map(|changed| changed.line + changed.before.len().max(changed.after.len())).max().unwrap_or(0);
    let width = last.to_string().len();
    let mut lines = vec!["the Nix text (nothing is written to disk)".to_string()];
    for Changed { line, before, after } in changed {
        for (sign, texts) in [('-', before), ('+', after)] {
            let shown = |text: &[u8]| shown_line(text).into_iter().collect::<String>();
            lines.extend((line..).zip(texts).map(|(number, text)| format!("  {number:width$} {sign} {}", shown(&text))));
        }
    }
    lines
}

pub fn json(opened: &Opened, byte: u32, new: &[u8]) -> Result<Object, String> {
    let plan = plan(opened, at::definition(opened, byte)?, new)?;
    let edits = edits(opened, &plan);
    let moved: Vec<Object> = plan.moved.iter().map(|moved| moved_json(opened, &plan, moved)).collect();
    let object = Object::new().with("definition", words::definition_json(opened, plan.name)).with_text("new", new);
    let object = object.with("writes", edits.list.iter().map(edit_json).collect::<Vec<_>>()).with("moves", moved);
    let references: Vec<u32> = plan.references.iter().map(|expr| expr.number()).collect();
    let numbers = |moved: &Vec<ExprId>| moved.iter().map(|expr| expr.number()).collect::<Vec<u32>>();
    let moved_by_changes: Vec<Vec<u32>> = plan.moved_by_changes.iter().map(numbers).collect();
    let changes = Object::new().with("set_name", plan.name.number()).with("set_ref", references).with("text", hex(new));
    let changes = changes.with("moved", moved_by_changes);
    let object = object.with("changes", changes).with("warnings", warnings(opened, &plan, &edits));
    let object = object.with("notes", notes(opened, &plan, &edits, byte));
    Ok(object.with("lines", lines_json(opened, &edits)))
}

fn moved_json(opened: &Opened, plan: &Plan, moved: &Moved) -> Object {
    let object = words::reference_json(opened, moved.expr).with("before", words::answer_json(opened, &moved.before));
    object.with("after", words::answer_json(&plan.after, &moved.after)).with("renamed", plan.references.contains(&moved.expr))
}

fn edit_json(edit: &Edit) -> Object {
    let object = Object::new().with("from", edit.from).with("to", edit.to);
    let object = match &edit.old {
        Some(old) => object.with_text("old", old),
        None => object.with("old", None::<u32>),
    };
    object.with_text("new", &edit.new)
}

fn lines_json(opened: &Opened, edits: &Edits) -> Json {
    let text = |lines: Vec<Vec<u8>>| lines.iter().map(|line| Object::new().with_text("text", line)).collect::<Vec<_>>();
    let one =
        |changed: Changed| Object::new().with("line", changed.line).with("before", text(changed.before)).with("after", text(changed.after));
    let changed = opened.source.as_ref().and_then(|source| changed_lines(source, &edits.list));
    changed.map(|changed| changed.into_iter().map(one).collect::<Vec<_>>()).into()
}
