//! `names show`: every Reference and what it means.

use crate::input::Opened;
use crate::json::Object;
use crate::text::{aligned, count, row, shown};
use crate::words;
use lang_ast::{Answer, DuplicateKey, ExprId, Refusal};

/// The References with their answers, by their places.
fn references(opened: &Opened) -> Result<Vec<(ExprId, Answer)>, Refusal> {
    let store = &opened.store;
    let asked = store.references().map(|(expr, _)| Ok((expr, store.ask_reference(expr)?)));
    let mut all = asked.collect::<Result<Vec<_>, Refusal>>()?;
    all.sort_by_key(|&(expr, _)| (store.expr_pointer(expr).map(|pointer| (pointer.from, pointer.to)), expr));
    Ok(all)
}

/// How many References mean a definition, a builtin, a With, nothing.
fn sorts(references: &[(ExprId, Answer)]) -> [usize; 4] {
    references.iter().fold([0; 4], |mut sorts, (_, answer)| {
        let sort = match answer {
            Answer::Definition(_) => 0,
            Answer::Builtin(_) => 1,
            Answer::Withs(_) => 2,
            Answer::None => 3,
        };
        sorts[sort] += 1;
        sorts
    })
}

pub fn text(opened: &Opened) -> Result<String, Refusal> {
    let references = references(opened)?;
    let mut lines = listed(opened, &references);
    if !lines.is_empty() {
        lines.push(String::new());
    }
    lines.push(in_all(&references));
    let store = &opened.store;
    let (exprs, names, scopes) = (store.expr_count() as usize, store.name_count() as usize, store.scope_count() as usize);
    let counts = [count(exprs, "expression", "expressions"), count(names, "name", "names"), count(scopes, "scope", "scopes")];
    lines.push(counts.join(", "));
    lines.extend(duplicates(opened));
    Ok(lines.join("\n") + "\n")
}

/// A line for each Reference, and with the Nix text the marked line below it.
fn listed(opened: &Opened, references: &[(ExprId, Answer)]) -> Vec<String> {
    if references.is_empty() {
        return Vec::new();
    }
    let mut rows = vec![row(["", "text", "place", "means"])];
    rows.extend(references.iter().map(|(expr, answer)| {
        let text = shown(opened.store.reference_text(*expr).unwrap_or_default());
        let place = words::place(opened, opened.store.expr_pointer(*expr));
        vec![expr.to_string(), text, place, words::answer(opened, *expr, answer)]
    }));
    let mut aligned = aligned(&rows).into_iter();
    let mut lines: Vec<String> = aligned.next().into_iter().collect();
    for (line, (expr, _)) in aligned.zip(references) {
        lines.push(line);
        lines.extend(words::marked(opened, opened.store.expr_pointer(*expr), 4));
    }
    lines
}

/// `3 references: 2 mean definitions, 1 means a builtin`
fn in_all(references: &[(ExprId, Answer)]) -> String {
    let words = [("a definition", "definitions"), ("a builtin", "builtins"), ("a with", "withs"), ("nothing", "nothing")];
    let sorts: Vec<String> = sorts(references)
        .into_iter()
        .zip(words)
        .filter(|&(number, _)| number > 0)
        .map(|(number, (one, many))| if number == 1 { format!("1 means {one}") } else { format!("{number} mean {many}") })
        .collect();
    let all = count(references.len(), "reference", "references");
    if sorts.is_empty() {
        return all;
    }
    format!("{all}: {}", sorts.join(", "))
}

fn duplicates(opened: &Opened) -> Vec<String> {
    let all: Vec<DuplicateKey> = opened.store.diagnostics().collect();
    let mut lines = vec![count(all.len(), "duplicate key", "duplicate keys")];
    for DuplicateKey { key, first, second } in all {
        let (at, again) = (words::place(opened, Some(first)), words::place(opened, Some(second)));
        lines.push(format!("  {} at {at} and again at {again}", shown(key)));
        lines.extend(words::marked(opened, Some(first), 4));
        lines.extend(words::marked(opened, Some(second), 4));
    }
    lines
}

pub fn json(opened: &Opened) -> Result<Object, Refusal> {
    let references = references(opened)?;
    let [definitions, builtins, withs, nothing] = sorts(&references);
    let store = &opened.store;
    let counts = Object::new().with("expressions", store.expr_count()).with("names", store.name_count());
    let counts = counts.with("scopes", store.scope_count()).with("references", references.len());
    let counts = counts.with("definitions", definitions).with("builtins", builtins).with("withs", withs).with("nothing", nothing);
    let one = |(expr, answer): &(ExprId, Answer)| words::reference_json(opened, *expr).with("means", words::answer_json(opened, answer));
    let listed: Vec<Object> = references.iter().map(one).collect();
    let duplicates: Vec<Object> = store.diagnostics().map(|duplicate| duplicate_json(opened, &duplicate)).collect();
    Ok(Object::new().with("counts", counts).with("references", listed).with("duplicate_keys", duplicates))
}

fn duplicate_json(opened: &Opened, duplicate: &DuplicateKey) -> Object {
    let place = |pointer| words::with_place(Object::new(), opened, Some(pointer));
    let object = Object::new().with_text("key", duplicate.key);
    object.with("first", place(duplicate.first)).with("second", place(duplicate.second))
}
