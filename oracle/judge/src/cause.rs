//! A name for each way to be refused.

use crate::grammar::{self, Place};

/// The kinds of line a sheet has.
#[derive(Debug, Clone, Copy, PartialEq, Eq, Hash, PartialOrd, Ord)]
pub enum Line {
    Nodes,
    Kind,
    From,
    To,
    Flag,
    Kids,
    Text,
}

impl Line {
    /// The six lines of a node, in their order.
    pub const OF_NODE: [Line; 6] = [Line::Kind, Line::From, Line::To, Line::Flag, Line::Kids, Line::Text];
    pub const ALL: [Line; 7] = [Line::Nodes, Line::Kind, Line::From, Line::To, Line::Flag, Line::Kids, Line::Text];

    pub fn key(self) -> &'static [u8] {
        match self {
            Line::Nodes => b"nodes=",
            Line::Kind => b"kind=",
            Line::From => b"from=",
            Line::To => b"to=",
            Line::Flag => b"flag=",
            Line::Kids => b"kids=",
            Line::Text => b"text=",
        }
    }
}

/// Kinds that share a rule for their flag.
#[derive(Debug, Clone, Copy, PartialEq, Eq, Hash, PartialOrd, Ord)]
pub enum FlagFamily {
    Float,
    BinOp,
    AttrSet,
    UnaryOp,
    Ident,
    Pattern,
    /// All others: the flag is 0.
    Flagless,
}

/// The ways in which a text breaks its kind's rule.
#[derive(Debug, Clone, Copy, PartialEq, Eq, Hash, PartialOrd, Ord)]
pub enum TextFault {
    /// A flag-0 Float with a text.
    FloatFlagless,
    /// A flag-1 Float that is not of eight bytes.
    FloatLength,
    /// A flag-1 Float with bits above those of infinity.
    FloatBits,
    IntegerEmpty,
    IntegerNoDigit,
    /// A flag-0 Ident with a text.
    IdentFlagless,
    /// A text where the kind has none.
    Textless,
}

/// The ways to be refused. Kinds are by their number.
#[derive(Debug, Clone, Copy, PartialEq, Eq, Hash, PartialOrd, Ord)]
pub enum Cause {
    /// 1
    TooLong,
    /// 2: no byte is left where the line should begin.
    MissingLine(Line),
    /// 2: the line begins with something else than its key.
    WrongKey(Line),
    /// 2: what follows the key has not the line's form.
    BadForm(Line),
    /// 2: the sheet ends before the line does.
    NoLineEnd(Line),
    /// 2: bytes after the last line.
    Trailing,
    /// 3
    NodesRange,
    /// 3
    KindRange,
    /// 3
    RootKind,
    /// 33
    FromRange,
    /// 33
    ToRange,
    /// 33, at the `to` line.
    FromAboveTo,
    /// 31
    FlagRule(FlagFamily),
    /// 3
    KidRange,
    /// 32
    TextRule(TextFault),
    /// 4
    TooFewKids(u8),
    /// 4
    TooManyKids(u8),
    /// 5: an item of a list is absent.
    AbsentItem(Place),
    /// 5: not numbered one above the highest node met.
    KidOrder,
    /// 5: of a kind that the place does not take.
    KidKind(Place),
    /// 6
    Depth,
    /// 7
    Unmet,
}

impl Cause {
    /// The number of the refusal that it is.
    pub fn number(self) -> u32 {
        match self {
            Cause::TooLong => 1,
            Cause::MissingLine(_) | Cause::WrongKey(_) | Cause::BadForm(_) | Cause::NoLineEnd(_) | Cause::Trailing => 2,
            Cause::NodesRange | Cause::KindRange | Cause::RootKind | Cause::KidRange => 3,
            Cause::TooFewKids(_) | Cause::TooManyKids(_) => 4,
            Cause::AbsentItem(_) | Cause::KidOrder | Cause::KidKind(_) => 5,
            Cause::Depth => 6,
            Cause::Unmet => 7,
            Cause::FlagRule(_) => 31,
            Cause::TextRule(_) => 32,
            Cause::FromRange | Cause::ToRange | Cause::FromAboveTo => 33,
        }
    }

    /// Every cause that a sheet can have.
    pub fn all() -> Vec<Cause> {
        use Cause::*;
        let mut all = vec![TooLong, Trailing, NodesRange, KindRange, RootKind, FromRange, ToRange, FromAboveTo, KidRange];
        all.extend([KidOrder, Depth, Unmet]);
        all.extend(Line::ALL.iter().flat_map(|&line| [MissingLine(line), WrongKey(line), BadForm(line), NoLineEnd(line)]));
        use FlagFamily::*;
        all.extend([Float, BinOp, AttrSet, UnaryOp, Ident, Pattern, Flagless].map(FlagRule));
        use TextFault::*;
        let texts = [FloatFlagless, FloatLength, FloatBits, IntegerEmpty, IntegerNoDigit, IdentFlagless, Textless];
        all.extend(texts.map(TextRule));
        for kind in 1..=grammar::KINDS {
            let form = grammar::form(kind);
            all.extend((!form.counted.is_empty()).then_some(TooFewKids(kind)));
            all.extend((form.most() < usize::MAX).then_some(TooManyKids(kind)));
        }
        all.extend(Place::ALL.map(KidKind));
        all.extend([Place::Expression, Place::Attribute, Place::Entry, Place::Part, Place::PatternEntry].map(AbsentItem));
        all
    }
}
