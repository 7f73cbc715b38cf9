//! What a sheet comes to, in one plain form that every reading of the rules fills in and that has one text:
//! expressions, names, both sides of the source map, diagnostics, lost list, scopes, answers and kept references. Two
//! readings agree when these are equal.

use std::collections::BTreeMap;

mod show;

pub type ExprId = u32;
pub type NameId = u32;
pub type ScopeId = u32;

/// A node's pointer: equal triples are equal pointers.
#[derive(Debug, Clone, Copy, PartialEq, Eq, PartialOrd, Ord, Hash)]
pub struct Pointer {
    pub kind: u8,
    pub from: u32,
    pub to: u32,
}

#[derive(Debug, Clone, PartialEq, Eq)]
pub enum Literal {
    /// By its bits, so that two are equal exactly when they are the same float.
    Float(u64),
    Integer(i64),
    Text(Vec<u8>),
    Path(Vec<u8>),
    Uri,
}

#[derive(Debug, Clone, PartialEq, Eq)]
pub enum Part {
    Literal(Vec<u8>),
    Interpol(ExprId),
}

#[derive(Debug, Clone, Copy, PartialEq, Eq)]
pub enum BindingValue {
    Expr(ExprId),
    Inherit(ExprId),
    InheritFrom(ExprId),
}

#[derive(Debug, Clone, PartialEq, Eq, Default)]
pub struct Bindings {
    pub statics: Vec<(NameId, BindingValue)>,
    pub inherit_froms: Vec<ExprId>,
    pub dynamics: Vec<(ExprId, ExprId)>,
}

#[derive(Debug, Clone, PartialEq, Eq)]
pub struct Pat {
    pub fields: Vec<(Option<NameId>, Option<ExprId>)>,
    pub ellipsis: bool,
}

/// The constructors of lang_ast's `Expr`. An operator is its number in the sheet.
#[derive(Debug, Clone, PartialEq, Eq)]
pub enum Expr {
    Missing,
    Apply { fun: ExprId, arg: ExprId },
    IfThenElse { cond: ExprId, then_body: ExprId, else_body: ExprId },
    Literal(Literal),
    Lambda { param: Option<NameId>, pat: Option<Pat>, body: ExprId },
    LetIn { bindings: Bindings, body: ExprId },
    List(Vec<ExprId>),
    BinOp { lhs: ExprId, rhs: ExprId, op: u8 },
    AttrSet { is_rec: bool, bindings: Bindings },
    UnaryOp { op: u8, expr: ExprId },
    Reference(Vec<u8>),
    Select { set: ExprId, attrpath: Vec<ExprId>, default_expr: Option<ExprId> },
    HasAttr { set: ExprId, attrpath: Vec<ExprId> },
    With { env: ExprId, body: ExprId },
    Assert { cond: ExprId, body: ExprId },
    StringInterpolation(Vec<Part>),
    PathInterpolation(Vec<Part>),
}

#[derive(Debug, Clone, Copy, PartialEq, Eq)]
pub enum NameKind {
    LetIn,
    PlainAttrset,
    RecAttrset,
    Param,
    PatField,
}

#[derive(Debug, Clone, PartialEq, Eq)]
pub struct Name {
    pub text: Vec<u8>,
    pub kind: NameKind,
}

#[derive(Debug, Clone, PartialEq, Eq)]
pub struct DuplicateKey {
    pub key: Vec<u8>,
    pub first: Pointer,
    pub second: Pointer,
}

/// What lowering makes of a sheet.
#[derive(Debug, Clone, PartialEq, Eq)]
pub struct Module {
    pub entry: ExprId,
    pub exprs: Vec<Expr>,
    /// The pointer of each expression, where it has one.
    pub expr_pointers: Vec<Option<Pointer>>,
    pub names: Vec<Name>,
    pub name_pointers: Vec<Pointer>,
    /// The pointer-to-number side of the source map.
    pub exprs_by_pointer: BTreeMap<Pointer, ExprId>,
    pub names_by_pointer: BTreeMap<Pointer, NameId>,
    pub diagnostics: Vec<DuplicateKey>,
    /// The lost list of docs/RULES.md.
    pub lost: Vec<Pointer>,
}

#[derive(Debug, Clone, PartialEq, Eq)]
pub enum ScopeKind {
    /// Every name entered, in the order of entering; hidden ones too.
    Definitions(Vec<NameId>),
    With(ExprId),
}

#[derive(Debug, Clone, PartialEq, Eq)]
pub struct Scope {
    pub parent: Option<ScopeId>,
    pub kind: ScopeKind,
}

#[derive(Debug, Clone, PartialEq, Eq)]
pub struct Scopes {
    pub scopes: Vec<Scope>,
    /// The scope of each expression, where it is walked.
    pub of_expr: Vec<Option<ScopeId>>,
}

#[derive(Debug, Clone, PartialEq, Eq)]
pub enum Answer {
    None,
    Definition(NameId),
    /// The index among the 22 builtin names.
    Builtin(u32),
    /// Every enclosing With, innermost first; never empty.
    Withs(Vec<ExprId>),
}

impl Answer {
    /// Document 01's number of the answer.
    pub fn number(&self) -> u32 {
        match self {
            Answer::None => 0,
            Answer::Definition(_) => 1,
            Answer::Builtin(_) => 2,
            Answer::Withs(_) => 3,
        }
    }
}

/// The answers of all References and the kept references of all names.
#[derive(Debug, Clone, PartialEq, Eq)]
pub struct Resolution {
    pub answers: BTreeMap<ExprId, Answer>,
    /// For each name the References answered with it, ascending.
    pub references: Vec<Vec<ExprId>>,
}

/// All that a load leaves.
#[derive(Debug, Clone, PartialEq, Eq)]
pub struct Facts {
    pub module: Module,
    pub scopes: Scopes,
    pub resolution: Resolution,
}

/// One reading of the rules, over a module whose texts can be set: what a load makes, and what holds afresh for the
/// texts as they then read.
pub trait Reading {
    fn facts(&self) -> Facts;
    /// Sets the text of a name; the number must be that of a name.
    fn set_name(&mut self, name: NameId, text: &[u8]);
    /// Sets the text of a Reference; the number must be that of a Reference.
    fn set_reference(&mut self, expr: ExprId, text: &[u8]);
    /// The answers worked out afresh.
    fn resolution(&self) -> Resolution;
}
