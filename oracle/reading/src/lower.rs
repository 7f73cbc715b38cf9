//! Document 01, "Lowering": expressions, names and their pointers. "Expressions and names are numbered from 0 as
//! `lower` allocates them": the kids of a node in order, then the node's own expression; where another order holds, a
//! comment says so.

use std::collections::BTreeMap;

use canon::{DuplicateKey, Expr, ExprId, Literal, Module, Name, NameId, NameKind, Part, Pat, Pointer};
use sheet::{kind, Node};

use crate::merge::Merging;

/// The largest Integer; one above it gives Missing.
const MAX_INTEGER: u64 = 9_223_372_036_854_775_807;

/// The module of an accepted sheet's nodes.
pub(crate) fn lower(nodes: &[Node]) -> Module {
    let mut lowering = Lowering {
        nodes,
        exprs: Vec::new(),
        expr_pointers: Vec::new(),
        names: Vec::new(),
        name_pointers: Vec::new(),
        diagnostics: Vec::new(),
    };
    let entry = lowering.expr(Some(0));
    lowering.into_module(entry)
}

/// A node's place in its parent: its number, or none where it is absent.
pub(crate) type Place = Option<u32>;

/// What an attribute of an entry or of an inherit says.
pub(crate) enum Key {
    Static(Vec<u8>),
    /// The expression that makes the key.
    Dynamic(Place),
}

pub(crate) struct Lowering<'a> {
    nodes: &'a [Node],
    exprs: Vec<Expr>,
    expr_pointers: Vec<Option<Pointer>>,
    names: Vec<Name>,
    name_pointers: Vec<Pointer>,
    diagnostics: Vec<DuplicateKey>,
}

/// "The node's pointer is kind, from, to."
pub(crate) fn pointer(node: &Node) -> Pointer {
    Pointer { kind: node.kind, from: node.from, to: node.to }
}

/// Allocation, and the way to the nodes.
impl<'a> Lowering<'a> {
    pub(crate) fn node(&self, number: u32) -> &'a Node {
        &self.nodes[number as usize]
    }

    /// The node of a list's item, which is never absent.
    pub(crate) fn item(&self, place: Place) -> &'a Node {
        self.node(place.expect("an item of a list is present in an accepted sheet"))
    }

    pub(crate) fn alloc(&mut self, expr: Expr, pointer: Option<Pointer>) -> ExprId {
        self.exprs.push(expr);
        self.expr_pointers.push(pointer);
        (self.exprs.len() - 1) as ExprId
    }

    pub(crate) fn missing(&mut self) -> ExprId {
        self.alloc(Expr::Missing, None)
    }

    pub(crate) fn alloc_name(&mut self, text: Vec<u8>, kind: NameKind, pointer: Pointer) -> NameId {
        self.names.push(Name { text, kind });
        self.name_pointers.push(pointer);
        (self.names.len() - 1) as NameId
    }

    /// "adds a DuplicateKey (first: the name's pointer)".
    ///
    /// OPEN: the papers do not say what the second pointer is. That of the attribute that brings the second value.
    pub(crate) fn duplicate(&mut self, key: Vec<u8>, name: NameId, second: Pointer) {
        let first = self.name_pointers[name as usize];
        self.diagnostics.push(DuplicateKey { key, first, second });
    }

    fn into_module(self, entry: ExprId) -> Module {
        Module {
            entry,
            exprs_by_pointer: last_writers(self.expr_pointers.iter().copied()),
            names_by_pointer: last_writers(self.name_pointers.iter().copied().map(Some)),
            // "Lost list (added): per DuplicateKey, its first pointer."
            lost: self.diagnostics.iter().map(|d| d.first).collect(),
            exprs: self.exprs,
            expr_pointers: self.expr_pointers,
            names: self.names,
            name_pointers: self.name_pointers,
            diagnostics: self.diagnostics,
        }
    }
}

/// "The source map's pointer-to-number side keeps the last writer." A pointer is written when its expression or name is
/// allocated, and numbers ascend in the order of allocation: so the last writer is the highest number that has the
/// pointer.
fn last_writers(pointers: impl Iterator<Item = Option<Pointer>>) -> BTreeMap<Pointer, u32> {
    let mut by_pointer = BTreeMap::new();
    for (number, pointer) in (0..).zip(pointers) {
        if let Some(pointer) = pointer {
            by_pointer.insert(pointer, number);
        }
    }
    by_pointer
}

/// Expressions.
impl<'a> Lowering<'a> {
    /// The expression of a place. "An absent expression ... give[s] Missing without a pointer"; "Paren and Root give
    /// the inner number".
    pub(crate) fn expr(&mut self, place: Place) -> ExprId {
        let Some(number) = place else { return self.missing() };
        let node = self.node(number);
        if matches!(node.kind, kind::PAREN | kind::ROOT) {
            return self.expr(node.kids[0]);
        }
        match self.shape(node) {
            Some(expr) => self.alloc(expr, Some(pointer(node))),
            None => self.missing(),
        }
    }

    /// A node's expression with all inside it lowered; `None` where it gives Missing without a pointer.
    fn shape(&mut self, node: &'a Node) -> Option<Expr> {
        let kids = &node.kids;
        let expr = match node.kind {
            kind::APPLY => Expr::Apply { fun: self.expr(kids[0]), arg: self.expr(kids[1]) },
            kind::IF_ELSE => Expr::IfThenElse { cond: self.expr(kids[0]), then_body: self.expr(kids[1]), else_body: self.expr(kids[2]) },
            kind::SELECT => self.select(node),
            kind::WITH => Expr::With { env: self.expr(kids[0]), body: self.expr(kids[1]) },
            kind::HAS_ATTR => Expr::HasAttr { set: self.expr(kids[0]), attrpath: self.attrpath(kids[1]) },
            kind::STR => self.string(node),
            kind::PATH => self.path(node),
            kind::FLOAT => Expr::Literal(Literal::Float(float_bits(node)?)),
            kind::INTEGER => Expr::Literal(Literal::Integer(integer(&node.text)?)),
            kind::URI => Expr::Literal(Literal::Uri),
            kind::LAMBDA => self.lambda(node),
            kind::LET_IN => self.let_in(node),
            kind::LIST => Expr::List(kids.iter().map(|&item| self.expr(item)).collect()),
            kind::BIN_OP => self.bin_op(node)?,
            kind::ATTR_SET => self.attr_set(node),
            // "a flag-0 ... UnaryOp": nothing of its operand is lowered (D9).
            kind::UNARY_OP if node.flag == 0 => return None,
            kind::UNARY_OP => Expr::UnaryOp { op: node.flag, expr: self.expr(kids[0]) },
            // "Error, LegacyLet and a flag-0 Ident give Missing with one."
            kind::IDENT if node.flag == 0 => Expr::Missing,
            kind::IDENT => Expr::Reference(node.text.clone()),
            kind::ASSERT => Expr::Assert { cond: self.expr(kids[0]), body: self.expr(kids[1]) },
            kind::ERROR | kind::LEGACY_LET => Expr::Missing,
            other => panic!("kind {other} stands in an expression place of no accepted sheet"),
        };
        Some(expr)
    }

    /// An absent default allocates nothing (D1).
    fn select(&mut self, node: &'a Node) -> Expr {
        let set = self.expr(node.kids[0]);
        let attrpath = self.attrpath(node.kids[1]);
        let default_expr = node.kids[2].map(|default| self.expr(Some(default)));
        Expr::Select { set, attrpath, default_expr }
    }

    /// The path of a Select or HasAttr, an expression for each attribute; an absent path has none.
    fn attrpath(&mut self, place: Place) -> Vec<ExprId> {
        let Some(number) = place else { return Vec::new() };
        self.node(number).kids.iter().map(|&attr| self.path_attribute(attr)).collect()
    }

    /// "a flag-0 Ident as a path attribute" gives Missing without a pointer: here, and not in an entry's path (D2).
    ///
    /// OPEN: the rule on static keys inside a Dynamic is read as one on the keys of sets. Here a Dynamic gives what is
    /// inside it, so that in `e.${"a"}` the text has the pointer of the Str.
    fn path_attribute(&mut self, attr: Place) -> ExprId {
        let node = self.item(attr);
        match node.kind {
            kind::IDENT if node.flag == 0 => self.missing(),
            kind::IDENT => self.alloc(Expr::Literal(Literal::Text(node.text.clone())), Some(pointer(node))),
            kind::DYNAMIC => self.expr(node.kids[0]),
            _ => self.expr(attr),
        }
    }

    /// "A flag-0 BinOp lowers its left side first": the left side is then nobody's child (D9).
    fn bin_op(&mut self, node: &'a Node) -> Option<Expr> {
        let lhs = self.expr(node.kids[0]);
        if node.flag == 0 {
            return None;
        }
        let rhs = self.expr(node.kids[1]);
        Some(Expr::BinOp { lhs, rhs, op: node.flag })
    }

    /// A text where the Str would be a static key, else its parts.
    ///
    /// OPEN: what two parts without interpolation give. No Nix text gives them, and as a key they are dynamic (D3): the
    /// parts.
    fn string(&mut self, node: &'a Node) -> Expr {
        match self.plain_text(node) {
            Some(text) => Expr::Literal(Literal::Text(text)),
            None => Expr::StringInterpolation(self.parts(node)),
        }
    }

    /// "Path (parts; text whole)".
    ///
    /// OPEN: what parts without interpolation give. The whole text, which is there for it.
    fn path(&mut self, node: &'a Node) -> Expr {
        if node.kids.iter().any(|&part| self.item(part).kind == kind::INTERPOLATION) {
            return Expr::PathInterpolation(self.parts(node));
        }
        Expr::Literal(Literal::Path(node.text.clone()))
    }

    fn parts(&mut self, node: &'a Node) -> Vec<Part> {
        let mut parts = Vec::new();
        for &place in &node.kids {
            let part = self.item(place);
            parts.push(match part.kind {
                kind::INTERPOLATION => Part::Interpol(self.expr(part.kids[0])),
                _ => Part::Literal(part.text.clone()),
            });
        }
        parts
    }

    /// Entries first and the body after them, though its node comes first (D11).
    fn let_in(&mut self, node: &'a Node) -> Expr {
        let (body, entries) = node.kids.split_first().expect("a LetIn has its body's place");
        let bindings = Merging::of(self, NameKind::LetIn, pointer(node), entries);
        Expr::LetIn { bindings, body: self.expr(*body) }
    }

    fn attr_set(&mut self, node: &'a Node) -> Expr {
        let is_rec = node.flag == 1;
        let kind = if is_rec { NameKind::RecAttrset } else { NameKind::PlainAttrset };
        Expr::AttrSet { is_rec, bindings: Merging::of(self, kind, pointer(node), &node.kids) }
    }
}

/// Functions and their names.
impl<'a> Lowering<'a> {
    fn lambda(&mut self, node: &'a Node) -> Expr {
        let (param, pat) = match node.kids[0].map(|number| self.node(number)) {
            None => (None, None),
            Some(param) if param.kind == kind::IDENT_PARAM => (self.ident_name(param.kids[0], NameKind::Param), None),
            Some(pattern) => {
                let bind = pattern.kids[0].and_then(|number| self.node(number).kids[0]);
                (self.ident_name(bind, NameKind::Param), Some(self.pattern(pattern)))
            }
        };
        Expr::Lambda { param, pat, body: self.expr(node.kids[1]) }
    }

    /// The fields, each its name and then its default; an absent default allocates nothing (D1).
    fn pattern(&mut self, node: &'a Node) -> Pat {
        let mut fields = Vec::new();
        for &place in &node.kids[1..] {
            let entry = self.item(place);
            let name = self.ident_name(entry.kids[0], NameKind::PatField);
            let default = entry.kids[1].map(|default| self.expr(Some(default)));
            fields.push((name, default));
        }
        Pat { fields, ellipsis: node.flag == 1 }
    }

    /// "A flag-0 Ident as parameter, bind or pattern entry gives a name with the empty text; an absent one gives no
    /// name" (D6). It has the Ident's pointer, as the Ident gives it.
    fn ident_name(&mut self, ident: Place, kind: NameKind) -> Option<NameId> {
        let node = self.node(ident?);
        Some(self.alloc_name(node.text.clone(), kind, pointer(node)))
    }
}

/// Keys of sets.
impl<'a> Lowering<'a> {
    /// "A static key is an Ident, or a Str without interpolation and with at most one part; such a Str, but no Ident,
    /// also inside Dynamic and any Parens. No text means the empty key."
    pub(crate) fn key(&self, attr: Place) -> Key {
        let node = self.item(attr);
        let (text, dynamic) = match node.kind {
            // A flag-0 Ident has no text (D2).
            kind::IDENT => (Some(node.text.clone()), attr),
            kind::DYNAMIC => (self.inside_parens(node.kids[0]).and_then(|inner| self.plain_text(inner)), node.kids[0]),
            _ => (self.plain_text(node), attr),
        };
        text.map_or(Key::Dynamic(dynamic), Key::Static)
    }

    /// What is inside any Parens. "Root is no Paren" (D8).
    fn inside_parens(&self, place: Place) -> Option<&'a Node> {
        let node = self.node(place?);
        if node.kind == kind::PAREN {
            return self.inside_parens(node.kids[0]);
        }
        Some(node)
    }

    /// The text of a Str without interpolation and with at most one part.
    fn plain_text(&self, node: &Node) -> Option<Vec<u8>> {
        if node.kind != kind::STR {
            return None;
        }
        match node.kids[..] {
            [] => Some(Vec::new()),
            [part] => Some(self.item(part)).filter(|part| part.kind == kind::LITERAL_PART).map(|part| part.text.clone()),
            _ => None,
        }
    }

    /// The entries of a value that is an AttrSet. Neither a Paren nor a Root around one is (D8).
    pub(crate) fn set_value(&self, value: Place) -> Option<&'a [Place]> {
        let node = self.node(value?);
        (node.kind == kind::ATTR_SET).then_some(&node.kids[..])
    }
}

/// "flag 1: text is eight bytes, highest first, of an f64"; a flag-0 Float has none.
fn float_bits(node: &Node) -> Option<u64> {
    let bytes = <[u8; 8]>::try_from(node.text.as_slice()).ok()?;
    (node.flag == 1).then_some(u64::from_be_bytes(bytes))
}

/// The value of decimal digits, any number of them and leading zeros allowed (D18); `None` above the largest.
fn integer(digits: &[u8]) -> Option<i64> {
    let mut value: u64 = 0;
    for digit in digits {
        // The value so far is at most the largest one, so ten times it and a digit may pass 64 bits: checked.
        value = value.checked_mul(10)?.checked_add(u64::from(digit - b'0'))?;
        if value > MAX_INTEGER {
            return None;
        }
    }
    Some(value as i64)
}

#[cfg(test)]
mod tests {
    use super::integer;

    #[test]
    fn an_integer_is_its_digits_value() {
        assert_eq!(integer(b"0"), Some(0));
        assert_eq!(integer(b"000000000000000000000000000007"), Some(7));
        assert_eq!(integer(b"9223372036854775807"), Some(i64::MAX));
        assert_eq!(integer(b"0009223372036854775807"), Some(i64::MAX));
        assert_eq!(integer(b"9223372036854775808"), None);
        assert_eq!(integer(b"18446744073709551616"), None);
        assert_eq!(integer(b"99999999999999999999999999999999"), None);
    }
}
