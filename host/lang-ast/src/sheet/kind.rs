//! The 33 kinds of nodes, with what each has: its kids' places, its flag and its text.

use crate::operator::{BinOp, UnaryOp};
use crate::page::Pointer;

/// The most attributes of an Attrpath.
const MOST_ATTRIBUTES: usize = 16;

/// The highest bits of a Float, those of infinity.
const INFINITY: u64 = 0x7ff0_0000_0000_0000;

/// The kind of a node, with its flag and its text where the kind has them. Its kids are linked to it by a
/// [`SheetWriter`](crate::SheetWriter).
///
/// For each kind stands here which kids it has, in the order in which they are linked. That is not always the order of
/// the text: a [`LetIn`](Kind::LetIn) has its body first. A place that is absent is linked as `None`, also the last;
/// an item of a list can't be absent.
///
/// What kids are called, and which kinds they are of:
///
/// - An **expression** is of one of the kinds from [`Apply`](Kind::Apply) to [`LegacyLet`](Kind::LegacyLet). Functions,
///   arguments, conditions, then and else, sets, defaults, namespaces, bodies, values, left and right are expressions.
/// - A **path** is an [`Attrpath`](Kind::Attrpath): what stands before the `=` of an entry, and behind the `.` or the
///   `?` of `set.path` and `set ? path`.
/// - An **attribute** is what a path has between its dots, or one of those that an inherit lists: an
///   [`Ident`](Kind::Ident), a [`Str`](Kind::Str) or a [`Dynamic`](Kind::Dynamic).
/// - An **entry** is what sets and lets are made of: an [`AttrpathValue`](Kind::AttrpathValue), `path = value;`, or an
///   [`Inherit`](Kind::Inherit), `inherit ..;`.
/// - A **part** is a piece of a string or of a path as `./a`: a [`LiteralPart`](Kind::LiteralPart) or an
///   [`Interpolation`](Kind::Interpolation).
/// - A **parameter** is what a function has before its colon: an [`IdentParam`](Kind::IdentParam), `x:`, or a
///   [`Pattern`](Kind::Pattern), `{ .. }:`.
/// - A **from** is the `(source)` of `inherit (source) ..;`: an [`InheritFrom`](Kind::InheritFrom).
#[derive(Debug, Clone, PartialEq)]
pub enum Kind {
    /// `f a`: function, argument.
    Apply,
    /// `if c then a else b`: condition, then, else.
    IfElse,
    /// `set.path or default`: set, path, default.
    Select,
    /// `with namespace; body`: namespace, body.
    With,
    /// `set ? path`: set, path.
    HasAttr,
    /// A string: a list of parts.
    Str,
    /// A path as `./a`: a list of parts; here the whole path as it is written.
    Path(Vec<u8>),
    /// No kids; its value, which is not negative and no NaN, or none if it has no value.
    Float(Option<f64>),
    /// No kids; its digits, one or more.
    Integer(Vec<u8>),
    /// No kids.
    Uri,
    /// A function: parameter, body.
    Lambda,
    /// `let entries in body`: the body, then a list of entries.
    LetIn,
    /// `[ .. ]`: a list of expressions.
    List,
    /// Left, right; the operator, if there is one.
    BinOp(Option<BinOp>),
    /// `( .. )`: an expression.
    Paren,
    /// `{ .. }`: a list of entries.
    AttrSet {
        /// Whether it is `rec { .. }`.
        rec: bool,
    },
    /// An expression; the operator, if there is one.
    UnaryOp(Option<UnaryOp>),
    /// No kids; its text, which may be empty, or none if it has no text.
    Ident(Option<Vec<u8>>),
    /// `assert condition; body`: condition, body.
    Assert,
    /// No kids: what could not be parsed.
    Error,
    /// An expression: the whole file.
    Root,
    /// `let { .. }`: no kids.
    LegacyLet,
    /// `a.b`: a list of at most 16 attributes.
    Attrpath,
    /// An expression: the attribute `${..}`.
    Dynamic,
    /// `path = value;`: path, value.
    AttrpathValue,
    /// `inherit from attributes;`: the from, then a list of attributes.
    Inherit,
    /// `(source)`: an expression.
    InheritFrom,
    /// The parameter `x:`; an Ident.
    IdentParam,
    /// The parameter `bind@{ entries }:`; a PatBind, then a list of PatEntries.
    Pattern {
        /// Whether it ends in `...`.
        ellipsis: bool,
    },
    /// The `x@` of a pattern; an Ident.
    PatBind,
    /// The `x` or `x ? default` of a pattern; an Ident, and a default.
    PatEntry,
    /// No kids; the text of a part that is not interpolated.
    LiteralPart(Vec<u8>),
    /// An expression: the part `${..}`.
    Interpolation,
}

/// What a place takes.
#[derive(Debug, Clone, Copy, PartialEq, Eq)]
pub(crate) enum Place {
    Expression,
    Path,
    Attribute,
    Entry,
    Part,
    Parameter,
    From,
    Ident,
    Bind,
    PatternEntry,
}

impl Place {
    pub fn takes(self, kind: &Kind) -> bool {
        match self {
            Place::Expression => kind.number() <= 22,
            Place::Path => matches!(kind, Kind::Attrpath),
            Place::Attribute => matches!(kind, Kind::Str | Kind::Ident(_) | Kind::Dynamic),
            Place::Entry => matches!(kind, Kind::AttrpathValue | Kind::Inherit),
            Place::Part => matches!(kind, Kind::LiteralPart(_) | Kind::Interpolation),
            Place::Parameter => matches!(kind, Kind::IdentParam | Kind::Pattern { .. }),
            Place::From => matches!(kind, Kind::InheritFrom),
            Place::Ident => matches!(kind, Kind::Ident(_)),
            Place::Bind => matches!(kind, Kind::PatBind),
            Place::PatternEntry => matches!(kind, Kind::PatEntry),
        }
    }

    /// What the place takes, in words.
    pub const fn wants(self) -> &'static str {
        match self {
            Place::Expression => "an expression",
            Place::Path => "an Attrpath",
            Place::Attribute => "a Str, an Ident or a Dynamic",
            Place::Entry => "an AttrpathValue or an Inherit",
            Place::Part => "a LiteralPart or an Interpolation",
            Place::Parameter => "an IdentParam or a Pattern",
            Place::From => "an InheritFrom",
            Place::Ident => "an Ident",
            Place::Bind => "a PatBind",
            Place::PatternEntry => "a PatEntry",
        }
    }
}

/// The kids of a kind: counted places, each of which may be absent, then perhaps a list, no item of which may.
#[derive(Clone, Copy)]
pub(crate) struct Places {
    pub counted: &'static [Place],
    pub list: Option<Place>,
    /// The most items of the list.
    limit: usize,
}

impl Places {
    /// The place of the kid with this index, if there is one.
    pub fn of(&self, index: usize) -> Option<Place> {
        self.counted.get(index).copied().or(self.list)
    }

    pub fn least(&self) -> usize {
        self.counted.len()
    }

    pub fn most(&self) -> usize {
        self.counted.len().saturating_add(self.limit)
    }
}

const fn counted(counted: &'static [Place]) -> Places {
    Places { counted, list: None, limit: 0 }
}

const fn then_list(counted: &'static [Place], list: Place) -> Places {
    Places { counted, list: Some(list), limit: usize::MAX }
}

impl Kind {
    /// An Ident with this text.
    ///
    /// ```
    /// use lang_ast::Kind;
    /// assert_eq!(Kind::ident("x"), Kind::Ident(Some(b"x".to_vec())));
    /// ```
    pub fn ident(text: impl Into<Vec<u8>>) -> Self {
        Kind::Ident(Some(text.into()))
    }

    /// An Integer with these digits.
    pub fn integer(digits: impl Into<Vec<u8>>) -> Self {
        Kind::Integer(digits.into())
    }

    /// A Path that is written so.
    pub fn path(text: impl Into<Vec<u8>>) -> Self {
        Kind::Path(text.into())
    }

    /// A part with this text that is not interpolated.
    pub fn literal_part(text: impl Into<Vec<u8>>) -> Self {
        Kind::LiteralPart(text.into())
    }

    /// The kind's number in sheets and [`Pointer`](crate::Pointer)s, 1 to 33.
    ///
    /// ```
    /// use lang_ast::Kind;
    /// assert_eq!(Kind::Apply.number(), 1);
    /// assert_eq!(Kind::Interpolation.number(), 33);
    /// ```
    pub const fn number(&self) -> u32 {
        self.numbered().0
    }

    /// The pointer of a node of this kind from here to there. Its text and its flag are no part of it.
    ///
    /// ```
    /// use lang_ast::{Kind, Pointer};
    /// assert_eq!(Kind::ident("x").pointer(3, 4), Pointer::new(18, 3, 4));
    /// assert_eq!(Kind::ident("x").pointer(3, 4), Kind::Ident(None).pointer(3, 4));
    /// ```
    pub const fn pointer(&self, from: u32, to: u32) -> Pointer {
        Pointer::new(self.number(), from, to)
    }

    /// What the kind is called.
    ///
    /// ```
    /// assert_eq!(lang_ast::Kind::ident("x").name(), "Ident");
    /// ```
    pub const fn name(&self) -> &'static str {
        self.numbered().1
    }

    const fn numbered(&self) -> (u32, &'static str) {
        match self {
            Kind::Apply => (1, "Apply"),
            Kind::IfElse => (2, "IfElse"),
            Kind::Select => (3, "Select"),
            Kind::With => (4, "With"),
            Kind::HasAttr => (5, "HasAttr"),
            Kind::Str => (6, "Str"),
            Kind::Path(_) => (7, "Path"),
            Kind::Float(_) => (8, "Float"),
            Kind::Integer(_) => (9, "Integer"),
            Kind::Uri => (10, "Uri"),
            Kind::Lambda => (11, "Lambda"),
            Kind::LetIn => (12, "LetIn"),
            Kind::List => (13, "List"),
            Kind::BinOp(_) => (14, "BinOp"),
            Kind::Paren => (15, "Paren"),
            Kind::AttrSet { .. } => (16, "AttrSet"),
            Kind::UnaryOp(_) => (17, "UnaryOp"),
            Kind::Ident(_) => (18, "Ident"),
            Kind::Assert => (19, "Assert"),
            Kind::Error => (20, "Error"),
            Kind::Root => (21, "Root"),
            Kind::LegacyLet => (22, "LegacyLet"),
            Kind::Attrpath => (23, "Attrpath"),
            Kind::Dynamic => (24, "Dynamic"),
            Kind::AttrpathValue => (25, "AttrpathValue"),
            Kind::Inherit => (26, "Inherit"),
            Kind::InheritFrom => (27, "InheritFrom"),
            Kind::IdentParam => (28, "IdentParam"),
            Kind::Pattern { .. } => (29, "Pattern"),
            Kind::PatBind => (30, "PatBind"),
            Kind::PatEntry => (31, "PatEntry"),
            Kind::LiteralPart(_) => (32, "LiteralPart"),
            Kind::Interpolation => (33, "Interpolation"),
        }
    }

    /// The flag that a sheet has for it.
    pub(crate) fn flag(&self) -> u32 {
        match self {
            Kind::Float(value) => u32::from(value.is_some()),
            Kind::BinOp(operator) => operator.map_or(0, BinOp::number),
            Kind::AttrSet { rec } => u32::from(*rec),
            Kind::UnaryOp(operator) => operator.map_or(0, UnaryOp::number),
            Kind::Ident(text) => u32::from(text.is_some()),
            Kind::Pattern { ellipsis } => u32::from(*ellipsis),
            _ => 0,
        }
    }

    /// The text that a sheet has for it.
    pub(crate) fn text(&self) -> Vec<u8> {
        match self {
            Kind::Path(text) | Kind::Integer(text) | Kind::LiteralPart(text) | Kind::Ident(Some(text)) => text.clone(),
            Kind::Float(Some(value)) => value.to_bits().to_be_bytes().to_vec(),
            _ => Vec::new(),
        }
    }

    /// Whether flag and text are such as its kind may have. The type leaves only two faults: of a Float's value and of
    /// an Integer's digits.
    pub(crate) fn value_fits(&self) -> bool {
        match self {
            Kind::Float(Some(value)) => value.to_bits() <= INFINITY,
            Kind::Integer(digits) => !digits.is_empty() && digits.iter().all(u8::is_ascii_digit),
            _ => true,
        }
    }

    /// The kids that it has.
    pub(crate) fn places(&self) -> Places {
        use Place::*;
        match self {
            Kind::Apply | Kind::With | Kind::BinOp(_) | Kind::Assert => counted(&[Expression, Expression]),
            Kind::IfElse => counted(&[Expression, Expression, Expression]),
            Kind::Select => counted(&[Expression, Path, Expression]),
            Kind::HasAttr => counted(&[Expression, Path]),
            Kind::Str | Kind::Path(_) => then_list(&[], Part),
            Kind::Lambda => counted(&[Parameter, Expression]),
            Kind::LetIn => then_list(&[Expression], Entry),
            Kind::List => then_list(&[], Expression),
            Kind::Paren | Kind::UnaryOp(_) | Kind::Root => counted(&[Expression]),
            Kind::AttrSet { .. } => then_list(&[], Entry),
            Kind::Attrpath => Places { limit: MOST_ATTRIBUTES, ..then_list(&[], Attribute) },
            Kind::Dynamic | Kind::InheritFrom | Kind::Interpolation => counted(&[Expression]),
            Kind::AttrpathValue => counted(&[Path, Expression]),
            Kind::Inherit => then_list(&[From], Attribute),
            Kind::IdentParam | Kind::PatBind => counted(&[Ident]),
            Kind::Pattern { .. } => then_list(&[Bind], PatternEntry),
            Kind::PatEntry => counted(&[Ident, Expression]),
            Kind::Float(_) | Kind::Integer(_) | Kind::Uri | Kind::Ident(_) => counted(&[]),
            Kind::Error | Kind::LegacyLet | Kind::LiteralPart(_) => counted(&[]),
        }
    }

    /// A sentence on the kids that it has, in their order.
    pub(crate) fn kids_in_words(&self) -> String {
        let name = self.name();
        let article = if name.starts_with(['A', 'E', 'I']) { "an" } else { "a" };
        let Places { counted, list, .. } = self.places();
        match (counted.len(), list) {
            (0, None) => format!("{article} {name} has no kids"),
            (1, None) => format!("the kid of {article} {name} is {}", self.kids()),
            _ => format!("the kids of {article} {name} are {}", self.kids()),
        }
    }

    const fn kids(&self) -> &'static str {
        match self {
            Kind::Apply => "its function and its argument",
            Kind::IfElse => "its condition, its then and its else",
            Kind::Select => "its set, its path and its default",
            Kind::With => "its namespace and its body",
            Kind::HasAttr => "its set and its path",
            Kind::Str | Kind::Path(_) => "its parts",
            Kind::Lambda => "its parameter and its body",
            Kind::LetIn => "its body, then its entries",
            Kind::List => "its expressions",
            Kind::BinOp(_) => "its left and its right",
            Kind::AttrSet { .. } => "its entries",
            Kind::Assert => "its condition and its body",
            Kind::Paren | Kind::UnaryOp(_) | Kind::Root => "its expression",
            Kind::Dynamic | Kind::InheritFrom | Kind::Interpolation => "its expression",
            Kind::Attrpath => "its attributes",
            Kind::AttrpathValue => "its path and its value",
            Kind::Inherit => "its from, then its attributes",
            Kind::IdentParam | Kind::PatBind => "its Ident",
            Kind::Pattern { .. } => "its PatBind, then its PatEntries",
            Kind::PatEntry => "its Ident and its default",
            Kind::Float(_) | Kind::Integer(_) | Kind::Uri | Kind::Ident(_) => "none",
            Kind::Error | Kind::LegacyLet | Kind::LiteralPart(_) => "none",
        }
    }
}
