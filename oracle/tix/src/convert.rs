//! From lang_ast's own results to the canonical form. Nothing is worked out here: numbers, pointers, scopes and answers
//! are read off.

use std::collections::HashMap;

use canon::{Answer, BindingValue, Bindings, DuplicateKey, Expr, Literal, Name, NameKind, Part, Pat, Pointer, Scope, ScopeKind};
use la_arena::{Idx, RawIdx};
use lang_ast::nameres::{ResolveResult, ScopeData, GLOBAL_BUILTIN_NAMES};
use lang_ast::{classify, AstPtr, BinOP, BoolBinOp, ExprBinOp, InterpolPart, LowerDiagnostic, Module, NormalBinOp, OverloadBinOp};
use lang_ast::{ModuleScopes, ModuleSourceMap, NameResolution};
use rnix::ast::UnaryOpKind;
use smol_str::SmolStr;

pub fn index<T>(number: u32) -> Idx<T> {
    Idx::from_raw(RawIdx::from_u32(number))
}

fn number<T>(index: Idx<T>) -> u32 {
    index.into_raw().into_u32()
}

fn numbers<T>(list: &[Idx<T>]) -> Vec<u32> {
    list.iter().copied().map(number).collect()
}

/// Each byte as the character of that number.
pub fn text(bytes: &[u8]) -> SmolStr {
    bytes.iter().copied().map(char::from).collect::<String>().into()
}

/// Each character as the byte of its number; every text comes from bytes, so none is above 255.
fn bytes(text: &str) -> Vec<u8> {
    text.chars().map(|c| u8::try_from(c).expect("every text was made of bytes")).collect()
}

fn pointer(pointer: AstPtr) -> Pointer {
    let range = pointer.text_range();
    Pointer { kind: pointer.kind(), from: range.start().into(), to: range.end().into() }
}

pub fn module(module: &Module, source_map: &ModuleSourceMap) -> canon::Module {
    let name_pointer = |name| source_map.nodes_for_name(name).next().map(pointer);
    let diagnostics: Vec<DuplicateKey> = module.lower_diagnostics.iter().map(duplicate_key).collect();
    canon::Module {
        entry: number(module.entry_expr),
        exprs: module.exprs().map(|(_, e)| expr(e)).collect(),
        expr_pointers: module.exprs().map(|(id, _)| source_map.node_for_expr(id).map(pointer)).collect(),
        names: module.names().map(|(_, n)| name(n)).collect(),
        name_pointers: module.names().map(|(id, _)| name_pointer(id).expect("every name has a pointer")).collect(),
        exprs_by_pointer: classify::exprs_by_pointer(source_map).iter().map(|(&p, &e)| (pointer(p), number(e))).collect(),
        names_by_pointer: classify::names_by_pointer(source_map).iter().map(|(&p, &n)| (pointer(p), number(n))).collect(),
        lost: diagnostics.iter().map(|duplicate| duplicate.first).collect(),
        diagnostics,
    }
}

fn duplicate_key(diagnostic: &LowerDiagnostic) -> DuplicateKey {
    let LowerDiagnostic::DuplicateKey { key, first, second } = diagnostic;
    DuplicateKey { key: bytes(key), first: pointer(*first), second: pointer(*second) }
}

fn name(name: &lang_ast::Name) -> Name {
    let kind = match name.kind {
        lang_ast::NameKind::LetIn => NameKind::LetIn,
        lang_ast::NameKind::PlainAttrset => NameKind::PlainAttrset,
        lang_ast::NameKind::RecAttrset => NameKind::RecAttrset,
        lang_ast::NameKind::Param => NameKind::Param,
        lang_ast::NameKind::PatField => NameKind::PatField,
    };
    Name { text: bytes(&name.text), kind }
}

fn expr(expr: &lang_ast::Expr) -> Expr {
    use lang_ast::Expr as E;
    let n = number::<E>;
    match expr {
        E::Missing => Expr::Missing,
        &E::Apply { fun, arg } => Expr::Apply { fun: n(fun), arg: n(arg) },
        &E::IfThenElse { cond, then_body, else_body } => {
            Expr::IfThenElse { cond: n(cond), then_body: n(then_body), else_body: n(else_body) }
        }
        E::Literal(l) => Expr::Literal(literal(l)),
        E::Lambda { param, pat: p, body } => Expr::Lambda { param: param.map(number), pat: p.as_ref().map(pat), body: n(*body) },
        E::LetIn { bindings: b, body } => Expr::LetIn { bindings: bindings(b), body: n(*body) },
        E::List(items) => Expr::List(numbers(items)),
        &E::BinOp { lhs, rhs, op } => Expr::BinOp { lhs: n(lhs), rhs: n(rhs), op: binary_flag(op) },
        E::AttrSet { is_rec, bindings: b } => Expr::AttrSet { is_rec: *is_rec, bindings: bindings(b) },
        &E::UnaryOp { op, expr } => Expr::UnaryOp { op: unary_flag(op), expr: n(expr) },
        E::Reference(text) => Expr::Reference(bytes(text)),
        E::Select { set, attrpath, default_expr } => {
            Expr::Select { set: n(*set), attrpath: numbers(attrpath), default_expr: default_expr.map(n) }
        }
        E::HasAttr { set, attrpath } => Expr::HasAttr { set: n(*set), attrpath: numbers(attrpath) },
        &E::With { env, body } => Expr::With { env: n(env), body: n(body) },
        &E::Assert { cond, body } => Expr::Assert { cond: n(cond), body: n(body) },
        E::StringInterpolation(list) => Expr::StringInterpolation(parts(list)),
        E::PathInterpolation(list) => Expr::PathInterpolation(parts(list)),
    }
}

fn literal(literal: &lang_ast::Literal) -> Literal {
    match literal {
        lang_ast::Literal::Float(float) => Literal::Float(float.0.to_bits()),
        lang_ast::Literal::Integer(value) => Literal::Integer(*value),
        lang_ast::Literal::String(text) => Literal::Text(bytes(text)),
        lang_ast::Literal::Path(text) => Literal::Path(bytes(text)),
        lang_ast::Literal::Uri => Literal::Uri,
    }
}

fn pat(pat: &lang_ast::Pat) -> Pat {
    let fields = pat.fields.iter().map(|&(name, default)| (name.map(number), default.map(number))).collect();
    Pat { fields, ellipsis: pat.ellipsis }
}

fn bindings(bindings: &lang_ast::Bindings) -> Bindings {
    let value = |value| match value {
        lang_ast::BindingValue::Expr(e) => BindingValue::Expr(number(e)),
        lang_ast::BindingValue::Inherit(e) => BindingValue::Inherit(number(e)),
        lang_ast::BindingValue::InheritFrom(e) => BindingValue::InheritFrom(number(e)),
    };
    Bindings {
        statics: bindings.statics.iter().map(|&(name, v)| (number(name), value(v))).collect(),
        inherit_froms: numbers(&bindings.inherit_froms),
        dynamics: bindings.dynamics.iter().map(|&(key, v)| (number(key), number(v))).collect(),
    }
}

fn parts(list: &[InterpolPart<SmolStr>]) -> Vec<Part> {
    let part = |part: &InterpolPart<SmolStr>| match part {
        InterpolPart::Literal(text) => Part::Literal(bytes(text)),
        InterpolPart::Interpol(e) => Part::Interpol(number(*e)),
    };
    list.iter().map(part).collect()
}

/// The sheet's number of an operator: its place among the arms of `From<BinOpKind>`.
fn binary_flag(op: BinOP) -> u8 {
    use {BoolBinOp as B, ExprBinOp as E, NormalBinOp as N, OverloadBinOp as O};
    match op {
        BinOP::Normal(N::ListConcat) => 1,
        BinOP::Normal(N::AttrUpdate) => 2,
        BinOP::Overload(O::Add) => 3,
        BinOP::Overload(O::Sub) => 4,
        BinOP::Overload(O::Mul) => 5,
        BinOP::Overload(O::Div) => 6,
        BinOP::Normal(N::Bool(B::And)) => 7,
        BinOP::Normal(N::Bool(B::Or)) => 8,
        BinOP::Normal(N::Bool(B::Implication)) => 9,
        BinOP::Normal(N::Expr(E::Equal)) => 10,
        BinOP::Normal(N::Expr(E::Less)) => 11,
        BinOP::Normal(N::Expr(E::LessOrEq)) => 12,
        BinOP::Normal(N::Expr(E::More)) => 13,
        BinOP::Normal(N::Expr(E::MoreOrEq)) => 14,
        BinOP::Normal(N::Expr(E::NotEqual)) => 15,
    }
}

/// "1 not, 2 minus".
fn unary_flag(op: UnaryOpKind) -> u8 {
    match op {
        UnaryOpKind::Invert => 1,
        UnaryOpKind::Negate => 2,
    }
}

pub fn scopes(module: &Module, scopes: &ModuleScopes) -> canon::Scopes {
    // A scope's parent is private; it is the second of its ancestors, and which number that has shows by where it lies.
    let numbered = scopes.scopes.iter().map(|(id, data)| (data as *const ScopeData, number(id)));
    let number_of: HashMap<*const ScopeData, u32> = numbered.collect();
    let scope = |(id, data)| Scope {
        parent: scopes.ancestors(id).nth(1).map(|parent| number_of[&(parent as *const ScopeData)]),
        kind: scope_kind(data),
    };
    canon::Scopes {
        scopes: scopes.scopes.iter().map(scope).collect(),
        of_expr: module.exprs().map(|(id, _)| scopes.scope_for_expr(id).map(number)).collect(),
    }
}

fn scope_kind(data: &ScopeData) -> ScopeKind {
    match (data.as_with(), data.as_definitions()) {
        (Some(with), _) => ScopeKind::With(number(with)),
        (None, Some(names)) => ScopeKind::Definitions(names.log().iter().map(|&(_, name)| number(name)).collect()),
        (None, None) => unreachable!("a scope holds names or a With"),
    }
}

pub fn resolution(module: &Module, answers: &NameResolution) -> canon::Resolution {
    let references = module.exprs().filter(|(_, e)| matches!(e, lang_ast::Expr::Reference(_)));
    canon::Resolution {
        answers: references.map(|(id, _)| (number(id), answer(answers.get(id)))).collect(),
        references: module.names().map(|(id, _)| numbers(answers.refs_to(id))).collect(),
    }
}

fn answer(result: Option<&ResolveResult>) -> Answer {
    match result {
        None => Answer::None,
        Some(ResolveResult::Definition(name)) => Answer::Definition(number(*name)),
        Some(ResolveResult::Builtin(name)) => {
            let place = GLOBAL_BUILTIN_NAMES.iter().position(|builtin| builtin == name);
            Answer::Builtin(place.expect("a builtin comes from the table") as u32)
        }
        Some(ResolveResult::WithExprs(innermost, rest)) => {
            Answer::Withs([*innermost].iter().chain(rest).map(|&with| number(with)).collect())
        }
    }
}
