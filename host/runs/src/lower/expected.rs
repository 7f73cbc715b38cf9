//! The module that the Rust makes of a sheet, in the form in which a store is read.

use crate::store::module::*;
use canon::{BindingValue, Literal, NameKind};

/// The module as it stands in a store with so many bytes of texts in use. Nothing is spent, and there are no scopes and
/// answers yet.
pub fn module(of: &canon::Module, texts: u32) -> Result<Module<'_>, String> {
    let exprs = of.exprs.iter().zip(&of.expr_pointers).map(|(expr, at)| placed(expr, *at)).collect::<Result<_, _>>()?;
    let names = of.names.iter().zip(&of.name_pointers).map(|(name, &at)| named(name, at)).collect();
    let diagnostics = of.diagnostics.iter().map(duplicate).collect();
    let lost = of.lost.iter().copied().map(pointer).collect();
    Ok(Module { exprs, names, diagnostics, lost, entry: Some(of.entry), scopes: Vec::new(), spent: 0, texts })
}

fn pointer(of: canon::Pointer) -> Pointer {
    Pointer { kind: u32::from(of.kind), from: of.from, to: of.to }
}

fn placed(of: &canon::Expr, at: Option<canon::Pointer>) -> Result<Placed<'_>, String> {
    let expr = match (of, at) {
        (canon::Expr::Missing, None) => Expr::Hole,
        (of, None) => return Err(format!("the Rust gives no pointer to {of:?}, which a store can't hold")),
        (of, Some(_)) => expr(of),
    };
    Ok(Placed { expr, pointer: at.map(pointer), scope: None, answer: Answer::None })
}

fn expr(of: &canon::Expr) -> Expr<'_> {
    use canon::Expr as E;
    match of {
        E::Missing => Expr::Missing,
        &E::Apply { fun, arg } => Expr::Apply { function: fun, argument: arg },
        &E::IfThenElse { cond, then_body, else_body } => Expr::IfThenElse { condition: cond, then: then_body, otherwise: else_body },
        E::Literal(of) => literal(of),
        E::Lambda { param, pat, body } => Expr::Lambda { body: *body, parameter: *param, pattern: pat.as_ref().map(pattern) },
        E::LetIn { bindings: of, body } => Expr::LetIn { body: *body, bindings: bindings(of) },
        E::List(items) => Expr::List(items.clone()),
        &E::BinOp { lhs, rhs, op } => Expr::BinOp { left: lhs, right: rhs, operator: u32::from(op) },
        E::AttrSet { is_rec, bindings: of } => Expr::AttrSet { recursive: *is_rec, bindings: bindings(of) },
        &E::UnaryOp { op, expr } => Expr::UnaryOp { operator: u32::from(op), operand: expr },
        E::Reference(text) => Expr::Reference(text),
        E::Select { set, attrpath, default_expr } => Expr::Select { set: *set, default: *default_expr, attributes: attrpath.clone() },
        E::HasAttr { set, attrpath } => Expr::HasAttr { set: *set, attributes: attrpath.clone() },
        &E::With { env, body } => Expr::With { namespace: env, body },
        &E::Assert { cond, body } => Expr::Assert { condition: cond, body },
        E::StringInterpolation(of) => Expr::StringInterpolation(parts(of)),
        E::PathInterpolation(of) => Expr::PathInterpolation(parts(of)),
    }
}

fn literal(of: &Literal) -> Expr<'_> {
    match of {
        Literal::Float(bits) => Expr::Float(*bits),
        Literal::Integer(value) => Expr::Integer(*value as u64),
        Literal::Text(text) => Expr::String(text),
        Literal::Path(text) => Expr::Path(text),
        Literal::Uri => Expr::Uri,
    }
}

fn pattern(of: &canon::Pat) -> Pattern {
    let fields = of.fields.iter().map(|&(name, default)| Field { name, default }).collect();
    Pattern { fields, ellipsis: of.ellipsis }
}

fn bindings(of: &canon::Bindings) -> Bindings {
    let statics = of.statics.iter().map(|&(name, value)| {
        let (value, way) = match value {
            BindingValue::Expr(e) => (e, Way::Plain),
            BindingValue::Inherit(e) => (e, Way::Inherited),
            BindingValue::InheritFrom(e) => (e, Way::InheritedFrom),
        };
        Static { name, value, way }
    });
    Bindings { statics: statics.collect(), sources: of.inherit_froms.clone(), dynamics: of.dynamics.clone() }
}

fn parts(of: &[canon::Part]) -> Vec<Part<'_>> {
    let part = |part| match part {
        &canon::Part::Interpol(e) => Part::Expr(e),
        canon::Part::Literal(text) => Part::Literal(text),
    };
    of.iter().map(part).collect()
}

fn named(of: &canon::Name, at: canon::Pointer) -> Name<'_> {
    let kind = match of.kind {
        NameKind::LetIn => 0,
        NameKind::PlainAttrset => 1,
        NameKind::RecAttrset => 2,
        NameKind::Param => 3,
        NameKind::PatField => 4,
    };
    Name { text: &of.text, kind, pointer: pointer(at), references: Vec::new() }
}

fn duplicate(of: &canon::DuplicateKey) -> Duplicate<'_> {
    Duplicate { key: &of.key, first: pointer(of.first), second: pointer(of.second) }
}
