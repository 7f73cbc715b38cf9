//! Names, places and answers in words, and the same for programs.

use crate::input::Opened;
use crate::json::Object;
use crate::text::shown;
use lang_ast::{Answer, Expr, ExprId, Literal, NameId, NameKind, Pointer, Store};

/// So many References are told by their numbers; more are counted.
const MOST_LISTED: usize = 8;

/// `18..22`, and with the Nix text beside it `18..22 (1:19)`.
pub fn place(opened: &Opened, pointer: Option<Pointer>) -> String {
    let Some(Pointer { from, to, .. }) = pointer else { return "no place".to_string() };
    match opened.source.as_ref().and_then(|source| source.spot(from)) {
        Some(spot) => format!("{from}..{to} ({spot})"),
        None => format!("{from}..{to}"),
    }
}

/// `let base (n1) at 18..22`
pub fn definition(opened: &Opened, name: NameId) -> String {
    let Some(known) = opened.store.name(name) else { return name.to_string() };
    format!("{} {} ({name}) at {}", kind(known.kind), shown(known.text), place(opened, Some(known.pointer)))
}

/// `reference base (e0) at 18..22`
pub fn reference(opened: &Opened, expr: ExprId) -> String {
    let text = shown(opened.store.reference_text(expr).unwrap_or_default());
    format!("reference {text} ({expr}) at {}", place(opened, opened.store.expr_pointer(expr)))
}

/// What a name is, in a word or two.
pub fn kind(kind: NameKind) -> &'static str {
    match kind {
        NameKind::LetIn => "let",
        NameKind::PlainAttrset => "set key",
        NameKind::RecAttrset => "rec set key",
        NameKind::Param => "parameter",
        NameKind::PatField => "field",
    }
}

/// What a Reference means.
pub fn answer(opened: &Opened, expr: ExprId, answer: &Answer) -> String {
    match answer {
        Answer::Definition(name) => definition(opened, *name),
        Answer::Builtin(builtin) => format!("builtin {builtin}"),
        Answer::Withs(withs) => {
            let with = |with: &ExprId| format!("with ({with}) at {}", place(opened, opened.store.expr_pointer(*with)));
            withs.iter().map(with).collect::<Vec<_>>().join(", else ")
        }
        // A value that was replaced by a second one of the same key is a part of nothing.
        Answer::None if opened.store.scope_of(expr).is_none() => "nothing: it stands in a value that was replaced".to_string(),
        Answer::None => "nothing".to_string(),
    }
}

/// What an expression is, in a word or two.
pub fn expression(store: &Store, expr: ExprId) -> &'static str {
    match store.expr(expr) {
        None | Some(Expr::Missing) => "hole",
        Some(Expr::Apply { .. }) => "application",
        Some(Expr::IfThenElse { .. }) => "if",
        Some(Expr::Literal(Literal::Float(_) | Literal::Integer(_))) => "number",
        Some(Expr::Literal(Literal::String(_)) | Expr::StringInterpolation(_)) => "string or attribute",
        Some(Expr::Literal(Literal::Path(_)) | Expr::PathInterpolation(_)) => "path",
        Some(Expr::Literal(Literal::Uri)) => "URI",
        Some(Expr::Lambda { .. }) => "function",
        Some(Expr::LetIn { .. }) => "let",
        Some(Expr::List(_)) => "list",
        Some(Expr::BinOp { .. } | Expr::UnaryOp { .. }) => "operator",
        Some(Expr::AttrSet { is_rec: false, .. }) => "set",
        Some(Expr::AttrSet { is_rec: true, .. }) => "rec set",
        Some(Expr::Reference(_)) => "reference",
        Some(Expr::Select { .. }) => "selection",
        Some(Expr::HasAttr { .. }) => "test for an attribute",
        Some(Expr::With { .. }) => "with",
        Some(Expr::Assert { .. }) => "assert",
    }
}

/// Adds where something lies: `from`, `to`, and with the Nix text beside it `line` and `column`.
pub fn with_place(object: Object, opened: &Opened, pointer: Option<Pointer>) -> Object {
    let Some(Pointer { from, to, .. }) = pointer else { return object };
    let object = object.with("from", from).with("to", to);
    match opened.source.as_ref().and_then(|source| source.spot(from)) {
        Some(spot) => object.with("line", spot.line).with("column", spot.column),
        None => object,
    }
}

/// A definition for programs.
pub fn definition_json(opened: &Opened, name: NameId) -> Object {
    let object = Object::new().with("kind", "definition").with("name", name.number());
    let Some(known) = opened.store.name(name) else { return object };
    with_place(object.with("sort", kind(known.kind)).with_text("text", known.text), opened, Some(known.pointer))
}

/// A Reference for programs.
pub fn reference_json(opened: &Opened, expr: ExprId) -> Object {
    let object = Object::new().with("expr", expr.number());
    let object = object.with_text("text", opened.store.reference_text(expr).unwrap_or_default());
    with_place(object, opened, opened.store.expr_pointer(expr))
}

/// What a Reference means, for programs.
pub fn answer_json(opened: &Opened, answer: &Answer) -> Object {
    let kind = |kind| Object::new().with("kind", kind);
    match answer {
        Answer::Definition(name) => definition_json(opened, *name),
        Answer::Builtin(builtin) => kind("builtin").with("index", builtin.index()).with("text", builtin.name()),
        Answer::Withs(withs) => {
            let with = |&with| with_place(Object::new().with("expr", ExprId::number(with)), opened, opened.store.expr_pointer(with));
            kind("withs").with("withs", withs.iter().map(with).collect::<Vec<_>>())
        }
        Answer::None => kind("nothing"),
    }
}

/// The line of a place with a marker under it, where the Nix text is there.
pub fn marked(opened: &Opened, pointer: Option<Pointer>, indent: usize) -> Vec<String> {
    let (Some(source), Some(Pointer { from, to, .. })) = (&opened.source, pointer) else { return Vec::new() };
    source.marked(from, to).iter().map(|line| format!("{:indent$}{line}", "")).collect()
}

/// What a change moved: `moves e0, e3`, or how many where they are many.
pub fn moved(moved: &[ExprId]) -> String {
    match moved.len() {
        0 => "moves nothing".to_string(),
        1..=MOST_LISTED => format!("moves {}", moved.iter().map(ExprId::to_string).collect::<Vec<_>>().join(", ")),
        many => format!("moves {many} references"),
    }
}
