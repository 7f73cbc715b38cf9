//! Tokens, literals and parts: the views that have a text.

use rowan::ast::AstNode;
use sheet::kind;

use super::{Interpol, Literal, Path, Str};
use crate::{SyntaxNode, SyntaxToken};

/// A token known to be of a certain sort.
pub trait AstToken {
    fn cast(token: SyntaxToken) -> Option<Self>
    where
        Self: Sized;

    fn syntax(&self) -> &SyntaxToken;
}

/// A comment. There is none in a sheet, so there is no value of this type.
#[derive(Debug, Clone, Copy, PartialEq, Eq, Hash)]
pub enum Comment {}

impl AstToken for Comment {
    fn cast(_token: SyntaxToken) -> Option<Self> {
        None
    }

    fn syntax(&self) -> &SyntaxToken {
        match *self {}
    }
}

impl Comment {
    pub fn text(&self) -> &str {
        match *self {}
    }
}

/// A literal part of a path, or of a string.
macro_rules! contents {
    ($($name:ident)*) => {$(
        #[derive(Debug, Clone, PartialEq, Eq, Hash)]
        pub struct $name(SyntaxToken);

        impl AstToken for $name {
            fn cast(token: SyntaxToken) -> Option<Self> {
                Some($name(token))
            }

            fn syntax(&self) -> &SyntaxToken {
                &self.0
            }
        }
    )*};
}

contents! { PathContent StrContent }

#[derive(Debug, Clone, PartialEq, Eq, Hash)]
pub enum InterpolPart<T> {
    Literal(T),
    Interpolation(Interpol),
}

/// The parts of a Str or a Path, the literal ones by what `literal` makes of their node.
fn parts<T>(node: &SyntaxNode, literal: impl Fn(SyntaxNode) -> Option<T>) -> Vec<InterpolPart<T>> {
    let part = |kid: SyntaxNode| match kid.kind() {
        kind::LITERAL_PART => literal(kid).map(InterpolPart::Literal),
        _ => Interpol::cast(kid).map(InterpolPart::Interpolation),
    };
    node.kids_from(0).filter_map(part).collect()
}

impl Str {
    /// The sheet has normalized parts alone, so these are as many and of the same sorts.
    pub fn parts(&self) -> impl Iterator<Item = InterpolPart<StrContent>> {
        parts(self.syntax(), |kid| StrContent::cast(kid.token())).into_iter()
    }

    pub fn normalized_parts(&self) -> Vec<InterpolPart<String>> {
        parts(self.syntax(), |kid| Some(kid.text()))
    }
}

impl Path {
    pub fn parts(&self) -> impl Iterator<Item = InterpolPart<PathContent>> {
        parts(self.syntax(), |kid| PathContent::cast(kid.token())).into_iter()
    }
}

/// A float by the eight bytes of the sheet.
#[derive(Debug, Clone, PartialEq, Eq, Hash)]
pub struct Float(SyntaxNode);

/// An integer by its digits.
#[derive(Debug, Clone, PartialEq, Eq, Hash)]
pub struct Integer(SyntaxNode);

#[derive(Debug, Clone, PartialEq, Eq, Hash)]
pub struct Uri(SyntaxNode);

#[derive(Debug, Clone, PartialEq, Eq, Hash)]
pub enum LiteralKind {
    Float(Float),
    Integer(Integer),
    Uri(Uri),
}

impl Literal {
    pub fn kind(&self) -> LiteralKind {
        let node = self.syntax().clone();
        match node.kind() {
            kind::FLOAT => LiteralKind::Float(Float(node)),
            kind::INTEGER => LiteralKind::Integer(Integer(node)),
            _ => LiteralKind::Uri(Uri(node)),
        }
    }
}

/// The text is no float; in the real one std's error.
#[derive(Debug, Clone, Copy, PartialEq, Eq)]
pub struct NoFloat;

impl Float {
    /// With flag 1 the float of the eight bytes, highest first.
    pub fn value(&self) -> Result<f64, NoFloat> {
        let bytes: [u8; 8] = self.0.bytes().try_into().map_err(|_| NoFloat)?;
        if self.0.flag() == 1 {
            Ok(f64::from_be_bytes(bytes))
        } else {
            Err(NoFloat)
        }
    }
}

impl Integer {
    pub fn value(&self) -> Result<i64, std::num::ParseIntError> {
        self.0.text().parse()
    }
}
