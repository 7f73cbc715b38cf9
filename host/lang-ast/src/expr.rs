//! Expressions, and how they are read from their rows.

use crate::ids::{ExprId, NameId};
use crate::layout;
use crate::operator::{BinOp, UnaryOp};
use crate::page::{below, Page};

/// The highest bits of a Float, those of infinity.
const INFINITY: u64 = 0x7ff0_0000_0000_0000;

/// The sort of a Missing without a pointer, and that of a Reference.
pub(crate) const HOLE: u32 = 0;
pub(crate) const REFERENCE: u32 = 21;

/// An expression. Its parts are other expressions, by their numbers, which are below its own.
#[derive(Clone, PartialEq)]
#[allow(missing_docs, reason = "the fields are called what Nix calls them, or what the operator is")]
pub enum Expr<'a> {
    /// What could not be parsed, was not there, or is of no use.
    Missing,
    /// `fun arg`
    Apply { fun: ExprId, arg: ExprId },
    /// `if cond then then_body else else_body`
    IfThenElse { cond: ExprId, then_body: ExprId, else_body: ExprId },
    /// A number, a text without interpolation, or what is like it.
    Literal(Literal<'a>),
    /// `param: body`, `{ fields }: body` or `param@{ fields }: body`
    Lambda { param: Option<NameId>, pat: Option<Pat>, body: ExprId },
    /// `let bindings in body`
    LetIn { bindings: Bindings, body: ExprId },
    /// `[ .. ]`
    List(Vec<ExprId>),
    /// `lhs op rhs`
    BinOp { lhs: ExprId, rhs: ExprId, op: BinOp },
    /// `{ bindings }` or `rec { bindings }`
    AttrSet { is_rec: bool, bindings: Bindings },
    /// `op expr`
    UnaryOp { op: UnaryOp, expr: ExprId },
    /// A name that is used, with its text.
    Reference(&'a [u8]),
    /// `set.attrpath or default_expr`
    Select { set: ExprId, attrpath: Vec<ExprId>, default_expr: Option<ExprId> },
    /// `set ? attrpath`
    HasAttr { set: ExprId, attrpath: Vec<ExprId> },
    /// `with env; body`
    With { env: ExprId, body: ExprId },
    /// `assert cond; body`
    Assert { cond: ExprId, body: ExprId },
    /// A text with `${..}` in it.
    StringInterpolation(Vec<InterpolPart<'a>>),
    /// A path with `${..}` in it.
    PathInterpolation(Vec<InterpolPart<'a>>),
}

/// A literal.
#[derive(Clone, Copy, PartialEq)]
pub enum Literal<'a> {
    /// A number with a point; never negative, and no NaN.
    Float(f64),
    /// A whole number; never negative.
    Integer(i64),
    /// A text, or the key of an attribute.
    String(&'a [u8]),
    /// A path.
    Path(&'a [u8]),
    /// A URI; its text is not kept.
    Uri,
}

/// The pattern of a Lambda: `{ a, b ? c, ... }`.
#[derive(Debug, Clone, PartialEq, Eq)]
pub struct Pat {
    /// Its fields in the order in which they are written.
    pub fields: Vec<PatField>,
    /// Whether it ends in `...`.
    pub ellipsis: bool,
}

/// A field of a [`Pat`].
#[derive(Debug, Clone, Copy, PartialEq, Eq)]
pub struct PatField {
    /// Its name; none where the source text has none.
    pub name: Option<NameId>,
    /// What stands after `?`.
    pub default: Option<ExprId>,
}

/// A part of an interpolated text or path.
#[derive(Clone, Copy, PartialEq, Eq)]
pub enum InterpolPart<'a> {
    /// As it is written.
    Literal(&'a [u8]),
    /// `${..}`
    Interpol(ExprId),
}

/// What a set or a let binds.
#[derive(Debug, Clone, Default, PartialEq, Eq)]
pub struct Bindings {
    /// The bindings whose keys are known, in byte order of the keys as loaded.
    pub statics: Vec<(NameId, BindingValue)>,
    /// The sources of `inherit (source) ..`.
    pub inherit_froms: Vec<ExprId>,
    /// Key and value of the others.
    pub dynamics: Vec<(ExprId, ExprId)>,
}

/// Where the value of a static binding comes from.
#[derive(Debug, Clone, Copy, PartialEq, Eq)]
pub enum BindingValue {
    /// `key = expr;`
    Expr(ExprId),
    /// `inherit key;`, with the Reference that it stands for.
    Inherit(ExprId),
    /// `inherit (source) key;`, with the Select that it stands for.
    InheritFrom(ExprId),
}

impl BindingValue {
    /// The expression, wherever it comes from.
    pub const fn expr(self) -> ExprId {
        match self {
            BindingValue::Expr(expr) | BindingValue::Inherit(expr) | BindingValue::InheritFrom(expr) => expr,
        }
    }
}

/// An item as it lies in its row: tag, a, b.
type Item = [u32; 3];

/// The row of an expression.
#[derive(Clone, Copy)]
pub(crate) struct Row<'a> {
    page: Page<'a>,
    number: u32,
}

impl<'a> Row<'a> {
    /// The row of an expression, if there is such an expression.
    pub fn of(page: Page<'a>, expr: ExprId) -> Option<Self> {
        below(expr.0, page.exprs()).map(|number| Row { page, number })
    }

    pub fn sort(self) -> Option<u32> {
        self.word(1)
    }

    /// The text of a Reference.
    pub fn reference(self) -> Option<&'a [u8]> {
        if self.sort()? != REFERENCE {
            return None;
        }
        Some(self.page.text(self.word(2)?))
    }

    /// The expression; none where the row is not as the page lets it be.
    pub fn expr(self) -> Option<Expr<'a>> {
        let (sort, a, b, c) = (self.sort()?, self.word(2)?, self.word(3)?, self.word(4)?);
        Some(match sort {
            0 | 1 => Expr::Missing,
            2 => Expr::Apply { fun: self.child(a)?, arg: self.child(b)? },
            3 => Expr::IfThenElse { cond: self.child(a)?, then_body: self.child(b)?, else_body: self.child(c)? },
            4..=8 => Expr::Literal(self.literal(sort, a, b)?),
            9..=14 => self.lambda(sort, a, b)?,
            15 => Expr::LetIn { bindings: self.bindings()?, body: self.child(a)? },
            16 => Expr::List(self.exprs()?),
            17 => Expr::BinOp { lhs: self.child(a)?, rhs: self.child(b)?, op: BinOp::from_number(c)? },
            18 | 19 => Expr::AttrSet { is_rec: sort == 19, bindings: self.bindings()? },
            20 => Expr::UnaryOp { op: UnaryOp::from_number(a)?, expr: self.child(b)? },
            REFERENCE => Expr::Reference(self.page.text(a)),
            22 => Expr::Select { set: self.child(a)?, attrpath: self.exprs()?, default_expr: None },
            23 => Expr::Select { set: self.child(a)?, attrpath: self.exprs()?, default_expr: Some(self.child(b)?) },
            24 => Expr::HasAttr { set: self.child(a)?, attrpath: self.exprs()? },
            25 => Expr::With { env: self.child(a)?, body: self.child(b)? },
            26 => Expr::Assert { cond: self.child(a)?, body: self.child(b)? },
            27 => Expr::StringInterpolation(self.parts()?),
            28 => Expr::PathInterpolation(self.parts()?),
            _ => return None,
        })
    }

    fn word(self, place: usize) -> Option<u32> {
        self.page.field(layout::EXPRS, self.number, place)
    }

    fn child(self, number: u32) -> Option<ExprId> {
        below(number, self.number).map(ExprId)
    }

    fn name(self, number: u32) -> Option<NameId> {
        below(number, self.page.names()).map(NameId)
    }

    fn literal(self, sort: u32, a: u32, b: u32) -> Option<Literal<'a>> {
        let bits = u64::from(a) << 32 | u64::from(b);
        Some(match sort {
            4 => Literal::Float(f64::from_bits(Some(bits).filter(|&bits| bits <= INFINITY)?)),
            5 => Literal::Integer(i64::try_from(bits).ok()?),
            6 => Literal::String(self.page.text(a)),
            7 => Literal::Path(self.page.text(a)),
            _ => Literal::Uri,
        })
    }

    fn lambda(self, sort: u32, a: u32, b: u32) -> Option<Expr<'a>> {
        let param = match sort {
            10 | 12 | 14 => Some(self.name(b)?),
            _ => None,
        };
        let pat = match sort {
            11..=14 => Some(Pat { fields: self.fields()?, ellipsis: sort >= 13 }),
            _ => None,
        };
        Some(Expr::Lambda { param, pat, body: self.child(a)? })
    }

    /// What each item of the row's list comes to.
    fn each<T>(self, read: impl Fn(Item) -> Option<T>) -> Option<Vec<T>> {
        let word = |row, place| self.page.field(layout::ITEMS, row, place);
        let mut items = self.page.list(layout::EXPRS, self.number, layout::ITEMS)?;
        items.try_fold(Vec::new(), |mut read_so_far, row| {
            read_so_far.push(read([word(row, 0)?, word(row, 1)?, word(row, 2)?])?);
            Some(read_so_far)
        })
    }

    fn exprs(self) -> Option<Vec<ExprId>> {
        self.each(|[tag, a, _]| if tag == 0 { self.child(a) } else { None })
    }

    fn parts(self) -> Option<Vec<InterpolPart<'a>>> {
        self.each(|[tag, a, _]| match tag {
            0 => Some(InterpolPart::Interpol(self.child(a)?)),
            1 => Some(InterpolPart::Literal(self.page.text(a))),
            _ => None,
        })
    }

    fn fields(self) -> Option<Vec<PatField>> {
        self.each(|[tag, a, b]| {
            let name = if matches!(tag, 3 | 5) { Some(self.name(a)?) } else { None };
            let default = if matches!(tag, 4 | 5) { Some(self.child(b)?) } else { None };
            matches!(tag, 2..=5).then_some(PatField { name, default })
        })
    }

    fn bindings(self) -> Option<Bindings> {
        let mut bindings = Bindings::default();
        for [tag, a, b] in self.each(Some)? {
            match tag {
                0 => bindings.inherit_froms.push(self.child(a)?),
                6 => bindings.statics.push((self.name(a)?, BindingValue::Expr(self.child(b)?))),
                7 => bindings.statics.push((self.name(a)?, BindingValue::Inherit(self.child(b)?))),
                8 => bindings.statics.push((self.name(a)?, BindingValue::InheritFrom(self.child(b)?))),
                9 => bindings.dynamics.push((self.child(a)?, self.child(b)?)),
                _ => return None,
            }
        }
        Some(bindings)
    }
}
