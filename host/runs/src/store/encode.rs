//! An expression as the words of docs/STORE.md: sort, a, b, c, and its items. Fields without a meaning get anything.

use super::module::*;
use generate::Rng;

pub struct Words {
    pub sort: u32,
    pub fields: [u32; 3],
    /// Tag, a and b of each item.
    pub items: Vec<[u32; 3]>,
}

/// The words of an expression; `text` gives a text's number.
pub fn words(expr: &Expr, rng: &mut Rng, text: &mut dyn FnMut(&[u8]) -> u32) -> Words {
    let mut items = Vec::new();
    let (sort, named) = match expr {
        Expr::Hole => (0, vec![]),
        Expr::Missing => (1, vec![]),
        Expr::Apply { function, argument } => (2, vec![*function, *argument]),
        Expr::IfThenElse { condition, then, otherwise } => (3, vec![*condition, *then, *otherwise]),
        Expr::Float(bits) => (4, halves(*bits)),
        Expr::Integer(value) => (5, halves(*value)),
        Expr::String(bytes) => (6, vec![text(bytes)]),
        Expr::Path(bytes) => (7, vec![text(bytes)]),
        Expr::Uri => (8, vec![]),
        Expr::Lambda { body, parameter, pattern } => {
            items = pattern.iter().flat_map(|pattern| &pattern.fields).map(|field| of_field(field, rng)).collect();
            (lambda(*parameter, pattern.as_ref()), [Some(*body), *parameter].into_iter().flatten().collect())
        }
        Expr::LetIn { body, bindings } => {
            items = of_bindings(bindings, rng);
            (15, vec![*body])
        }
        Expr::List(exprs) => {
            items = of_exprs(exprs, rng);
            (16, vec![])
        }
        Expr::BinOp { left, right, operator } => (17, vec![*left, *right, *operator]),
        Expr::AttrSet { recursive, bindings } => {
            items = of_bindings(bindings, rng);
            (if *recursive { 19 } else { 18 }, vec![])
        }
        Expr::UnaryOp { operator, operand } => (20, vec![*operator, *operand]),
        Expr::Reference(bytes) => (21, vec![text(bytes)]),
        Expr::Select { set, default, attributes } => {
            items = of_exprs(attributes, rng);
            (if default.is_some() { 23 } else { 22 }, [Some(*set), *default].into_iter().flatten().collect())
        }
        Expr::HasAttr { set, attributes } => {
            items = of_exprs(attributes, rng);
            (24, vec![*set])
        }
        Expr::With { namespace, body } => (25, vec![*namespace, *body]),
        Expr::Assert { condition, body } => (26, vec![*condition, *body]),
        Expr::StringInterpolation(parts) => {
            items = of_parts(parts, rng, text);
            (27, vec![])
        }
        Expr::PathInterpolation(parts) => {
            items = of_parts(parts, rng, text);
            (28, vec![])
        }
    };
    let mut fields = [(); 3].map(|()| anything(rng));
    fields[..named.len()].copy_from_slice(&named);
    Words { sort, fields, items }
}

/// The word of an answer.
pub fn answer(answer: Answer) -> u32 {
    match answer {
        Answer::None => 0,
        Answer::Withs => 1,
        Answer::Builtin(index) => index + 2,
        Answer::Definition(name) => name + 24,
    }
}

fn anything(rng: &mut Rng) -> u32 {
    let word = rng.draw() as u32;
    rng.pick(&[0, 1, u32::MAX, word])
}

fn halves(number: u64) -> Vec<u32> {
    vec![(number >> 32) as u32, number as u32]
}

fn lambda(parameter: Option<u32>, pattern: Option<&Pattern>) -> u32 {
    let pattern = match pattern {
        None => 9,
        Some(pattern) if !pattern.ellipsis => 11,
        Some(_) => 13,
    };
    pattern + u32::from(parameter.is_some())
}

fn of_field(field: &Field, rng: &mut Rng) -> [u32; 3] {
    let tag = match (field.name, field.default) {
        (None, None) => 2,
        (Some(_), None) => 3,
        (None, Some(_)) => 4,
        (Some(_), Some(_)) => 5,
    };
    [tag, field.name.unwrap_or(anything(rng)), field.default.unwrap_or(anything(rng))]
}

fn of_exprs(exprs: &[u32], rng: &mut Rng) -> Vec<[u32; 3]> {
    exprs.iter().map(|&expr| [0, expr, anything(rng)]).collect()
}

fn of_parts(parts: &[Part], rng: &mut Rng, text: &mut dyn FnMut(&[u8]) -> u32) -> Vec<[u32; 3]> {
    let item = |part: &Part| match part {
        Part::Expr(expr) => [0, *expr, anything(rng)],
        Part::Literal(bytes) => [1, text(bytes), anything(rng)],
    };
    parts.iter().map(item).collect()
}

/// Statics, sources and dynamics mixed, each kind in its own order, which is all that a reader may go by.
fn of_bindings(bindings: &Bindings, rng: &mut Rng) -> Vec<[u32; 3]> {
    let way = |way| match way {
        Way::Plain => 6,
        Way::Inherited => 7,
        Way::InheritedFrom => 8,
    };
    let statics: Vec<_> = bindings.statics.iter().map(|one| [way(one.way), one.name, one.value]).collect();
    let dynamics: Vec<_> = bindings.dynamics.iter().map(|&(key, value)| [9, key, value]).collect();
    let sources = of_exprs(&bindings.sources, rng);
    let mut left = [statics, sources, dynamics].map(|items| items.into_iter().peekable());
    let mut mixed = Vec::new();
    while left.iter_mut().any(|items| items.peek().is_some()) {
        mixed.extend(left[rng.below(3)].next());
    }
    mixed
}
