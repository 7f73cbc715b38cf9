//! The one text of `Facts`: a line for each thing, fields in a fixed order, texts in hex. What `oracle dump` prints.

use std::fmt::{Display, Formatter, Result};

use crate::{Answer, BindingValue, Bindings, Expr, Facts, Literal, NameKind, Part, Pointer, Resolution, ScopeKind};

impl Display for Pointer {
    fn fmt(&self, f: &mut Formatter<'_>) -> Result {
        write!(f, "{}:{}-{}", self.kind, self.from, self.to)
    }
}

fn hex(text: &[u8]) -> String {
    text.iter().map(|byte| format!("{byte:02x}")).collect()
}

fn numbers(list: &[u32]) -> String {
    list.iter().map(u32::to_string).collect::<Vec<_>>().join(",")
}

fn optional<T: Display>(value: &Option<T>) -> String {
    value.as_ref().map_or("-".to_string(), T::to_string)
}

fn parts(list: &[Part]) -> String {
    let show = |part: &Part| match part {
        Part::Literal(text) => format!("\"{}\"", hex(text)),
        Part::Interpol(e) => e.to_string(),
    };
    list.iter().map(show).collect::<Vec<_>>().join(",")
}

fn bindings(b: &Bindings) -> String {
    let value = |v: &BindingValue| match v {
        BindingValue::Expr(e) => format!("expr:{e}"),
        BindingValue::Inherit(e) => format!("inherit:{e}"),
        BindingValue::InheritFrom(e) => format!("from:{e}"),
    };
    let statics: Vec<String> = b.statics.iter().map(|(name, v)| format!("n{name}={}", value(v))).collect();
    let dynamics: Vec<String> = b.dynamics.iter().map(|(key, v)| format!("{key}={v}")).collect();
    format!("statics=[{}] froms=[{}] dynamics=[{}]", statics.join(","), numbers(&b.inherit_froms), dynamics.join(","))
}

impl Display for Literal {
    fn fmt(&self, f: &mut Formatter<'_>) -> Result {
        match self {
            Literal::Float(bits) => write!(f, "float {bits:016x}"),
            Literal::Integer(value) => write!(f, "integer {value}"),
            Literal::Text(text) => write!(f, "text \"{}\"", hex(text)),
            Literal::Path(text) => write!(f, "path \"{}\"", hex(text)),
            Literal::Uri => write!(f, "uri"),
        }
    }
}

impl Display for Expr {
    fn fmt(&self, f: &mut Formatter<'_>) -> Result {
        match self {
            Expr::Missing => write!(f, "Missing"),
            Expr::Apply { fun, arg } => write!(f, "Apply fun={fun} arg={arg}"),
            Expr::IfThenElse { cond, then_body, else_body } => {
                write!(f, "IfThenElse cond={cond} then={then_body} else={else_body}")
            }
            Expr::Literal(literal) => write!(f, "Literal {literal}"),
            Expr::Lambda { param, pat, body } => {
                let pat = pat.as_ref().map(|p| {
                    let field = |(n, e): &(Option<u32>, Option<u32>)| format!("{}:{}", optional(n), optional(e));
                    let fields: Vec<String> = p.fields.iter().map(field).collect();
                    format!("[{}]{}", fields.join(","), if p.ellipsis { ".." } else { "" })
                });
                write!(f, "Lambda param={} pat={} body={body}", optional(param), optional(&pat))
            }
            Expr::LetIn { bindings: b, body } => write!(f, "LetIn {} body={body}", bindings(b)),
            Expr::List(items) => write!(f, "List [{}]", numbers(items)),
            Expr::BinOp { lhs, rhs, op } => write!(f, "BinOp op={op} lhs={lhs} rhs={rhs}"),
            Expr::AttrSet { is_rec, bindings: b } => write!(f, "AttrSet rec={} {}", u8::from(*is_rec), bindings(b)),
            Expr::UnaryOp { op, expr } => write!(f, "UnaryOp op={op} expr={expr}"),
            Expr::Reference(text) => write!(f, "Reference \"{}\"", hex(text)),
            Expr::Select { set, attrpath, default_expr } => {
                write!(f, "Select set={set} path=[{}] default={}", numbers(attrpath), optional(default_expr))
            }
            Expr::HasAttr { set, attrpath } => write!(f, "HasAttr set={set} path=[{}]", numbers(attrpath)),
            Expr::With { env, body } => write!(f, "With env={env} body={body}"),
            Expr::Assert { cond, body } => write!(f, "Assert cond={cond} body={body}"),
            Expr::StringInterpolation(list) => write!(f, "StringInterpolation [{}]", parts(list)),
            Expr::PathInterpolation(list) => write!(f, "PathInterpolation [{}]", parts(list)),
        }
    }
}

impl Display for Answer {
    fn fmt(&self, f: &mut Formatter<'_>) -> Result {
        let to = match self {
            Answer::None => String::new(),
            Answer::Definition(n) | Answer::Builtin(n) => n.to_string(),
            Answer::Withs(list) => numbers(list),
        };
        write!(f, "answer={} to={to}", self.number())
    }
}

impl Display for Resolution {
    fn fmt(&self, f: &mut Formatter<'_>) -> Result {
        for (expr, answer) in &self.answers {
            writeln!(f, "ref={expr} {answer}")?;
        }
        for (name, list) in self.references.iter().enumerate() {
            writeln!(f, "references n{name} [{}]", numbers(list))?;
        }
        Ok(())
    }
}

impl Display for Facts {
    fn fmt(&self, f: &mut Formatter<'_>) -> Result {
        let module = &self.module;
        writeln!(f, "exprs={}", module.exprs.len())?;
        writeln!(f, "names={}", module.names.len())?;
        writeln!(f, "scopes={}", self.scopes.scopes.len())?;
        writeln!(f, "dups={}", module.diagnostics.len())?;
        writeln!(f, "entry={}", module.entry)?;
        for (i, expr) in module.exprs.iter().enumerate() {
            let scope = self.scopes.of_expr.get(i).copied().flatten();
            writeln!(f, "e{i} {expr} @{} scope={}", optional(&module.expr_pointers[i]), optional(&scope))?;
        }
        for (i, name) in module.names.iter().enumerate() {
            let kind = match name.kind {
                NameKind::LetIn => "LetIn",
                NameKind::PlainAttrset => "PlainAttrset",
                NameKind::RecAttrset => "RecAttrset",
                NameKind::Param => "Param",
                NameKind::PatField => "PatField",
            };
            writeln!(f, "n{i} {kind} \"{}\" @{}", hex(&name.text), module.name_pointers[i])?;
        }
        for (pointer, e) in &module.exprs_by_pointer {
            writeln!(f, "at {pointer} e{e}")?;
        }
        for (pointer, n) in &module.names_by_pointer {
            writeln!(f, "at {pointer} n{n}")?;
        }
        for d in &module.diagnostics {
            writeln!(f, "DuplicateKey \"{}\" first={} second={}", hex(&d.key), d.first, d.second)?;
        }
        for pointer in &module.lost {
            writeln!(f, "lost {pointer}")?;
        }
        for (i, scope) in self.scopes.scopes.iter().enumerate() {
            let kind = match &scope.kind {
                ScopeKind::Definitions(names) => format!("names=[{}]", numbers(names)),
                ScopeKind::With(e) => format!("with={e}"),
            };
            writeln!(f, "s{i} parent={} {kind}", optional(&scope.parent))?;
        }
        write!(f, "{}", self.resolution)
    }
}
