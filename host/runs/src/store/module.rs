//! A module as plain Rust values. Expressions, names and scopes are numbers; texts are bytes that somebody else keeps.

#[derive(Debug, Clone, Default, PartialEq, Eq)]
pub struct Module<'a> {
    pub exprs: Vec<Placed<'a>>,
    pub names: Vec<Name<'a>>,
    pub diagnostics: Vec<Duplicate<'a>>,
    pub lost: Vec<Pointer>,
    /// None where there is no expression.
    pub entry: Option<u32>,
    pub scopes: Vec<Scope>,
    /// Bytes of the change room that are spent.
    pub spent: u32,
    /// Bytes of texts in use.
    pub texts: u32,
}

/// An expression and what is known of it.
#[derive(Debug, Clone, PartialEq, Eq)]
pub struct Placed<'a> {
    pub expr: Expr<'a>,
    pub pointer: Option<Pointer>,
    pub scope: Option<u32>,
    pub answer: Answer,
}

#[derive(Debug, Clone, Copy, PartialEq, Eq)]
pub struct Pointer {
    pub kind: u32,
    pub from: u32,
    pub to: u32,
}

#[derive(Debug, Clone, PartialEq, Eq)]
pub enum Expr<'a> {
    /// Missing without a pointer.
    Hole,
    Missing,
    Apply {
        function: u32,
        argument: u32,
    },
    IfThenElse {
        condition: u32,
        then: u32,
        otherwise: u32,
    },
    /// The bits of an f64.
    Float(u64),
    Integer(u64),
    String(&'a [u8]),
    Path(&'a [u8]),
    Uri,
    Lambda {
        body: u32,
        parameter: Option<u32>,
        pattern: Option<Pattern>,
    },
    LetIn {
        body: u32,
        bindings: Bindings,
    },
    List(Vec<u32>),
    BinOp {
        left: u32,
        right: u32,
        operator: u32,
    },
    AttrSet {
        recursive: bool,
        bindings: Bindings,
    },
    UnaryOp {
        operator: u32,
        operand: u32,
    },
    Reference(&'a [u8]),
    Select {
        set: u32,
        default: Option<u32>,
        attributes: Vec<u32>,
    },
    HasAttr {
        set: u32,
        attributes: Vec<u32>,
    },
    With {
        namespace: u32,
        body: u32,
    },
    Assert {
        condition: u32,
        body: u32,
    },
    StringInterpolation(Vec<Part<'a>>),
    PathInterpolation(Vec<Part<'a>>),
}

#[derive(Debug, Clone, PartialEq, Eq)]
pub struct Pattern {
    pub fields: Vec<Field>,
    pub ellipsis: bool,
}

#[derive(Debug, Clone, Copy, PartialEq, Eq)]
pub struct Field {
    pub name: Option<u32>,
    pub default: Option<u32>,
}

#[derive(Debug, Clone, Copy, PartialEq, Eq)]
pub enum Part<'a> {
    Literal(&'a [u8]),
    Expr(u32),
}

#[derive(Debug, Clone, Default, PartialEq, Eq)]
pub struct Bindings {
    pub statics: Vec<Static>,
    pub sources: Vec<u32>,
    /// Key and value.
    pub dynamics: Vec<(u32, u32)>,
}

#[derive(Debug, Clone, Copy, PartialEq, Eq)]
pub struct Static {
    pub name: u32,
    pub value: u32,
    pub way: Way,
}

/// Where the value of a static comes from.
#[derive(Debug, Clone, Copy, PartialEq, Eq)]
pub enum Way {
    Plain,
    Inherited,
    InheritedFrom,
}

#[derive(Debug, Clone, Copy, PartialEq, Eq)]
pub enum Answer {
    None,
    Withs,
    /// By its index.
    Builtin(u32),
    /// By the name's number.
    Definition(u32),
}

#[derive(Debug, Clone, PartialEq, Eq)]
pub struct Name<'a> {
    pub text: &'a [u8],
    pub kind: u32,
    pub pointer: Pointer,
    /// The kept references of the name.
    pub references: Vec<u32>,
}

#[derive(Debug, Clone, Copy, PartialEq, Eq)]
pub struct Duplicate<'a> {
    pub key: &'a [u8],
    pub first: Pointer,
    pub second: Pointer,
}

#[derive(Debug, Clone, PartialEq, Eq)]
pub struct Scope {
    pub parent: Option<u32>,
    pub what: Scoped,
}

#[derive(Debug, Clone, PartialEq, Eq)]
pub enum Scoped {
    /// Names in the order of entering.
    Definitions(Vec<u32>),
    With(u32),
}
