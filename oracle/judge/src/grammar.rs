//! What docs/RULES.md says of the 33 kinds, as tables: their kids' places, what each place takes, and the rules of flag
//! and text.

use crate::cause::{FlagFamily, TextFault};
use sheet::kind::*;

/// Kinds are numbered from 1 to this.
pub const KINDS: u8 = INTERPOLATION;
/// The bits of infinity, the highest that a Float may have.
pub const INFINITY: u64 = 0x7ff0_0000_0000_0000;

/// The sorts of place that a kid can stand in.
#[derive(Debug, Clone, Copy, PartialEq, Eq, Hash, PartialOrd, Ord)]
pub enum Place {
    Expression,
    Attribute,
    Entry,
    Part,
    Parameter,
    PatternEntry,
    Path,
    From,
    Bind,
    Ident,
}

impl Place {
    pub const ALL: [Place; 10] = [
        Place::Expression,
        Place::Attribute,
        Place::Entry,
        Place::Part,
        Place::Parameter,
        Place::PatternEntry,
        Place::Path,
        Place::From,
        Place::Bind,
        Place::Ident,
    ];

    /// The kinds that the place takes.
    pub fn takes(self) -> &'static [u8] {
        match self {
            Place::Expression => &[1, 2, 3, 4, 5, 6, 7, 8, 9, 10, 11, 12, 13, 14, 15, 16, 17, 18, 19, 20, 21, 22],
            Place::Attribute => &[STR, IDENT, DYNAMIC],
            Place::Entry => &[ATTRPATH_VALUE, INHERIT],
            Place::Part => &[LITERAL_PART, INTERPOLATION],
            Place::Parameter => &[IDENT_PARAM, PATTERN],
            Place::PatternEntry => &[PAT_ENTRY],
            Place::Path => &[ATTRPATH],
            Place::From => &[INHERIT_FROM],
            Place::Bind => &[PAT_BIND],
            Place::Ident => &[IDENT],
        }
    }
}

/// The kids of a kind: first the counted places, each of which may be absent, then a list of at most `limit` items,
/// none of which may.
#[derive(Debug, Clone, Copy, PartialEq, Eq)]
pub struct Form {
    pub counted: &'static [Place],
    pub items: Option<Place>,
    limit: usize,
}

impl Form {
    /// The most kids; `usize::MAX` where only the sheet sets an end.
    pub fn most(&self) -> usize {
        self.counted.len().saturating_add(self.limit)
    }

    /// The place of the kid with this index, if there is one.
    pub fn place(&self, index: usize) -> Option<Place> {
        self.counted.get(index).copied().or(self.items)
    }

    pub fn is_item(&self, index: usize) -> bool {
        self.items.is_some() && index >= self.counted.len()
    }
}

const fn counted(counted: &'static [Place]) -> Form {
    Form { counted, items: None, limit: 0 }
}

const fn list(counted: &'static [Place], items: Place) -> Form {
    Form { counted, items: Some(items), limit: usize::MAX }
}

/// The kids that a kind has. A number that is no kind has none.
pub fn form(kind: u8) -> Form {
    use Place::*;
    match kind {
        APPLY | WITH | BIN_OP | ASSERT => counted(&[Expression, Expression]),
        IF_ELSE => counted(&[Expression, Expression, Expression]),
        SELECT => counted(&[Expression, Path, Expression]),
        HAS_ATTR => counted(&[Expression, Path]),
        PAREN | UNARY_OP | ROOT | DYNAMIC | INHERIT_FROM | INTERPOLATION => counted(&[Expression]),
        LAMBDA => counted(&[Parameter, Expression]),
        ATTRPATH_VALUE => counted(&[Path, Expression]),
        IDENT_PARAM | PAT_BIND => counted(&[Ident]),
        PAT_ENTRY => counted(&[Ident, Expression]),
        STR | PATH => list(&[], Part),
        LIST => list(&[], Expression),
        ATTR_SET => list(&[], Entry),
        LET_IN => list(&[Expression], Entry),
        INHERIT => list(&[From], Attribute),
        PATTERN => list(&[Bind], PatternEntry),
        ATTRPATH => Form { limit: sheet::MAX_ATTRS, ..list(&[], Attribute) },
        _ => counted(&[]),
    }
}

/// The kinds that have a flag by name, and its highest value; for all others it is 0.
pub fn flag_family(kind: u8) -> (FlagFamily, u64) {
    match kind {
        FLOAT => (FlagFamily::Float, 1),
        BIN_OP => (FlagFamily::BinOp, 15),
        ATTR_SET => (FlagFamily::AttrSet, 1),
        UNARY_OP => (FlagFamily::UnaryOp, 2),
        IDENT => (FlagFamily::Ident, 1),
        PATTERN => (FlagFamily::Pattern, 1),
        _ => (FlagFamily::Flagless, 0),
    }
}

/// What is wrong with a text under a node of this kind and flag, if anything is.
pub fn text_fault(kind: u8, flag: u64, text: &[u8]) -> Option<TextFault> {
    match (kind, flag) {
        (PATH | LITERAL_PART, _) | (IDENT, 1) => None,
        (INTEGER, _) if text.is_empty() => Some(TextFault::IntegerEmpty),
        (INTEGER, _) => (!text.iter().all(u8::is_ascii_digit)).then_some(TextFault::IntegerNoDigit),
        (FLOAT, 1) => match <[u8; 8]>::try_from(text) {
            Ok(bits) => (u64::from_be_bytes(bits) > INFINITY).then_some(TextFault::FloatBits),
            Err(_) => Some(TextFault::FloatLength),
        },
        _ if text.is_empty() => None,
        (FLOAT, _) => Some(TextFault::FloatFlagless),
        (IDENT, _) => Some(TextFault::IdentFlagless),
        _ => Some(TextFault::Textless),
    }
}
