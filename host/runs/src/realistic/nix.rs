//! Trees for the forms of the language, as short to write as the language itself.

use generate::tree::Tree;
use sheet::kind::*;

/// The numbers of the operators that are used here.
pub const CONCAT: u8 = 1;
pub const UPDATE: u8 = 2;
pub const AND: u8 = 7;
pub const EQUAL: u8 = 10;

pub fn id(text: &str) -> Tree {
    Tree::ident(text.as_bytes())
}

pub fn integer(digits: &str) -> Tree {
    Tree::leaf(INTEGER).with_text(digits.as_bytes())
}

pub fn path(text: &str) -> Tree {
    Tree::leaf(PATH).with_text(text.as_bytes())
}

pub fn literal(text: &str) -> Tree {
    Tree::leaf(LITERAL_PART).with_text(text.as_bytes())
}

pub fn hole(inner: Tree) -> Tree {
    Tree::full(INTERPOLATION, vec![inner])
}

/// A string of one literal part.
pub fn string(text: &str) -> Tree {
    Tree::full(STR, vec![literal(text)])
}

/// A string with an expression in its middle.
pub fn interpolated(before: &str, inner: Tree, after: &str) -> Tree {
    Tree::full(STR, vec![literal(before), hole(inner), literal(after)])
}

pub fn list(items: Vec<Tree>) -> Tree {
    Tree::full(LIST, items)
}

pub fn set(entries: Vec<Tree>) -> Tree {
    Tree::full(ATTR_SET, entries)
}

fn attributes(texts: &[&str]) -> Tree {
    Tree::full(ATTRPATH, texts.iter().map(|text| id(text)).collect())
}

pub fn entry(texts: &[&str], value: Tree) -> Tree {
    Tree::full(ATTRPATH_VALUE, vec![attributes(texts), value])
}

/// An entry whose path ends with a string.
pub fn keyed(texts: &[&str], key: Tree, value: Tree) -> Tree {
    let attributes = texts.iter().map(|text| id(text)).chain([key]).collect();
    Tree::full(ATTRPATH_VALUE, vec![Tree::full(ATTRPATH, attributes), value])
}

pub fn inherit(texts: &[&str]) -> Tree {
    Tree::new(INHERIT, std::iter::once(None).chain(texts.iter().map(|text| Some(id(text)))).collect())
}

pub fn inherit_from(source: Tree, texts: &[&str]) -> Tree {
    let source = Tree::full(INHERIT_FROM, vec![source]);
    Tree::full(INHERIT, std::iter::once(source).chain(texts.iter().map(|text| id(text))).collect())
}

pub fn select(of: &str, texts: &[&str]) -> Tree {
    Tree::new(SELECT, vec![Some(id(of)), Some(attributes(texts)), None])
}

/// A selection with `or`.
pub fn select_or(of: &str, texts: &[&str], default: Tree) -> Tree {
    Tree::full(SELECT, vec![id(of), attributes(texts), default])
}

/// A function applied to some arguments, one after the other.
pub fn apply(function: Tree, arguments: Vec<Tree>) -> Tree {
    arguments.into_iter().fold(function, |function, argument| Tree::full(APPLY, vec![function, argument]))
}

pub fn paren(inner: Tree) -> Tree {
    Tree::full(PAREN, vec![inner])
}

pub fn binary(operator: u8, left: Tree, right: Tree) -> Tree {
    Tree::full(BIN_OP, vec![left, right]).flagged(operator)
}

pub fn not(inner: Tree) -> Tree {
    Tree::full(UNARY_OP, vec![inner]).flagged(1)
}

pub fn with(namespace: Tree, body: Tree) -> Tree {
    Tree::full(WITH, vec![namespace, body])
}

pub fn let_in(entries: Vec<Tree>, body: Tree) -> Tree {
    Tree::full(LET_IN, std::iter::once(body).chain(entries).collect())
}

pub fn if_else(condition: Tree, then: Tree, otherwise: Tree) -> Tree {
    Tree::full(IF_ELSE, vec![condition, then, otherwise])
}

/// A function of one argument.
pub fn lambda(argument: &str, body: Tree) -> Tree {
    Tree::full(LAMBDA, vec![Tree::full(IDENT_PARAM, vec![id(argument)]), body])
}

/// A function of a set with these fields, some with defaults, and more.
pub fn function(bind: Option<&str>, fields: &[(&str, Option<Tree>)], body: Tree) -> Tree {
    let bind = bind.map(|text| Tree::full(PAT_BIND, vec![id(text)]));
    let field = |(text, default): &(&str, Option<Tree>)| Some(Tree::new(PAT_ENTRY, vec![Some(id(text)), default.clone()]));
    let pattern = Tree::new(PATTERN, std::iter::once(bind).chain(fields.iter().map(field)).collect()).flagged(1);
    Tree::full(LAMBDA, vec![pattern, body])
}
