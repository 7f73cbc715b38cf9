//! How what a store holds is shown for debugging: texts as `b"text"`, not as lists of numbers.

use crate::expr::{Expr, InterpolPart, Literal};
use crate::read::{DuplicateKey, Name};
use std::fmt::{Debug, Formatter, Result};

/// A text, shown as Rust writes bytes.
struct Text<'a>(&'a [u8]);

impl Debug for Text<'_> {
    fn fmt(&self, f: &mut Formatter<'_>) -> Result {
        write!(f, "b\"{}\"", self.0.escape_ascii())
    }
}

impl Debug for Name<'_> {
    fn fmt(&self, f: &mut Formatter<'_>) -> Result {
        let Name { text, kind, pointer } = self;
        f.debug_struct("Name").field("text", &Text(text)).field("kind", kind).field("pointer", pointer).finish()
    }
}

impl Debug for DuplicateKey<'_> {
    fn fmt(&self, f: &mut Formatter<'_>) -> Result {
        let DuplicateKey { key, first, second } = self;
        f.debug_struct("DuplicateKey").field("key", &Text(key)).field("first", first).field("second", second).finish()
    }
}

impl Debug for Literal<'_> {
    fn fmt(&self, f: &mut Formatter<'_>) -> Result {
        match self {
            Literal::Float(value) => f.debug_tuple("Float").field(value).finish(),
            Literal::Integer(value) => f.debug_tuple("Integer").field(value).finish(),
            Literal::String(text) => f.debug_tuple("String").field(&Text(text)).finish(),
            Literal::Path(text) => f.debug_tuple("Path").field(&Text(text)).finish(),
            Literal::Uri => f.write_str("Uri"),
        }
    }
}

impl Debug for InterpolPart<'_> {
    fn fmt(&self, f: &mut Formatter<'_>) -> Result {
        match self {
            InterpolPart::Literal(text) => f.debug_tuple("Literal").field(&Text(text)).finish(),
            InterpolPart::Interpol(expr) => f.debug_tuple("Interpol").field(expr).finish(),
        }
    }
}

impl Debug for Expr<'_> {
    fn fmt(&self, f: &mut Formatter<'_>) -> Result {
        let mut shown = |name: &str, fields: &[(&str, &dyn Debug)]| {
            let mut shown = f.debug_struct(name);
            fields.iter().for_each(|(name, field)| {
                shown.field(name, field);
            });
            shown.finish()
        };
        match self {
            Expr::Missing => f.write_str("Missing"),
            Expr::Apply { fun, arg } => shown("Apply", &[("fun", fun), ("arg", arg)]),
            Expr::IfThenElse { cond, then_body, else_body } => {
                shown("IfThenElse", &[("cond", cond), ("then_body", then_body), ("else_body", else_body)])
            }
            Expr::Literal(literal) => f.debug_tuple("Literal").field(literal).finish(),
            Expr::Lambda { param, pat, body } => shown("Lambda", &[("param", param), ("pat", pat), ("body", body)]),
            Expr::LetIn { bindings, body } => shown("LetIn", &[("bindings", bindings), ("body", body)]),
            Expr::List(items) => f.debug_tuple("List").field(items).finish(),
            Expr::BinOp { lhs, rhs, op } => shown("BinOp", &[("lhs", lhs), ("rhs", rhs), ("op", op)]),
            Expr::AttrSet { is_rec, bindings } => shown("AttrSet", &[("is_rec", is_rec), ("bindings", bindings)]),
            Expr::UnaryOp { op, expr } => shown("UnaryOp", &[("op", op), ("expr", expr)]),
            Expr::Reference(text) => f.debug_tuple("Reference").field(&Text(text)).finish(),
            Expr::Select { set, attrpath, default_expr } => {
                shown("Select", &[("set", set), ("attrpath", attrpath), ("default_expr", default_expr)])
            }
            Expr::HasAttr { set, attrpath } => shown("HasAttr", &[("set", set), ("attrpath", attrpath)]),
            Expr::With { env, body } => shown("With", &[("env", env), ("body", body)]),
            Expr::Assert { cond, body } => shown("Assert", &[("cond", cond), ("body", body)]),
            Expr::StringInterpolation(parts) => f.debug_tuple("StringInterpolation").field(parts).finish(),
            Expr::PathInterpolation(parts) => f.debug_tuple("PathInterpolation").field(parts).finish(),
        }
    }
}

#[cfg(test)]
mod tests {
    use crate::ids::{ExprId, NameId};
    use crate::page::Pointer;
    use crate::{BinOp, Bindings, DuplicateKey, Expr, InterpolPart, Literal, Name, NameKind, Pat, UnaryOp};

    #[test]
    fn texts_are_shown_as_bytes_of_ascii() {
        let at = Pointer::new(18, 4, 5);
        let name = Name { text: b"muchlonger", kind: NameKind::LetIn, pointer: at };
        assert_eq!(format!("{name:?}"), r#"Name { text: b"muchlonger", kind: LetIn, pointer: Pointer { kind: 18, from: 4, to: 5 } }"#);
        let twice = DuplicateKey { key: b"a\"\xff", first: at, second: at };
        assert!(format!("{twice:?}").starts_with(r#"DuplicateKey { key: b"a\"\xff", first: Pointer { kind: 18,"#));
        assert_eq!(format!("{:?}", Expr::Reference(b"muchlonger")), r#"Reference(b"muchlonger")"#);
        assert_eq!(format!("{:?}", Expr::Literal(Literal::String(b"\n"))), r#"Literal(String(b"\n"))"#);
        let parts = vec![InterpolPart::Literal(b"a"), InterpolPart::Interpol(ExprId(3))];
        let shown = r#"StringInterpolation([Literal(b"a"), Interpol(ExprId(3))])"#;
        assert_eq!(format!("{:?}", Expr::StringInterpolation(parts)), shown);
    }

    /// Every other expression is shown as a derived Debug shows it.
    #[test]
    fn expressions_are_shown_by_their_fields() {
        let (a, b, c) = (ExprId(1), ExprId(2), ExprId(3));
        let shown = |expr: Expr, says: &str| assert_eq!(format!("{expr:?}"), says);
        shown(Expr::Missing, "Missing");
        shown(Expr::Apply { fun: a, arg: b }, "Apply { fun: ExprId(1), arg: ExprId(2) }");
        let choice = Expr::IfThenElse { cond: a, then_body: b, else_body: c };
        shown(choice, "IfThenElse { cond: ExprId(1), then_body: ExprId(2), else_body: ExprId(3) }");
        shown(Expr::Literal(Literal::Float(0.5)), "Literal(Float(0.5))");
        shown(Expr::Literal(Literal::Integer(5)), "Literal(Integer(5))");
        shown(Expr::Literal(Literal::Path(b"./a")), r#"Literal(Path(b"./a"))"#);
        shown(Expr::Literal(Literal::Uri), "Literal(Uri)");
        let pat = Some(Pat { fields: Vec::new(), ellipsis: true });
        let lambda = "Lambda { param: Some(NameId(4)), pat: Some(Pat { fields: [], ellipsis: true }), body: ExprId(1) }";
        shown(Expr::Lambda { param: Some(NameId(4)), pat, body: a }, lambda);
        let none = "Bindings { statics: [], inherit_froms: [], dynamics: [] }";
        shown(Expr::LetIn { bindings: Bindings::default(), body: a }, &format!("LetIn {{ bindings: {none}, body: ExprId(1) }}"));
        shown(Expr::AttrSet { is_rec: true, bindings: Bindings::default() }, &format!("AttrSet {{ is_rec: true, bindings: {none} }}"));
        shown(Expr::List(vec![a, b]), "List([ExprId(1), ExprId(2)])");
        let (op, not) = (BinOp::from_number(3).expect("an operator"), UnaryOp::from_number(1).expect("an operator"));
        shown(Expr::BinOp { lhs: a, rhs: b, op }, &format!("BinOp {{ lhs: ExprId(1), rhs: ExprId(2), op: {op:?} }}"));
        shown(Expr::UnaryOp { op: not, expr: a }, &format!("UnaryOp {{ op: {not:?}, expr: ExprId(1) }}"));
        let select = Expr::Select { set: a, attrpath: vec![b], default_expr: Some(c) };
        shown(select, "Select { set: ExprId(1), attrpath: [ExprId(2)], default_expr: Some(ExprId(3)) }");
        shown(Expr::HasAttr { set: a, attrpath: vec![b] }, "HasAttr { set: ExprId(1), attrpath: [ExprId(2)] }");
        shown(Expr::With { env: a, body: b }, "With { env: ExprId(1), body: ExprId(2) }");
        shown(Expr::Assert { cond: a, body: b }, "Assert { cond: ExprId(1), body: ExprId(2) }");
        shown(Expr::PathInterpolation(Vec::new()), "PathInterpolation([])");
        assert_eq!(format!("{:#?}", Expr::With { env: a, body: b }).lines().count(), 8);
    }
}
