//! Operators, as expressions have them and as sheets write them.

use std::fmt;

/// The operator of a [`BinOp`](crate::Expr::BinOp).
#[derive(Debug, Clone, Copy, PartialEq, Eq, PartialOrd, Ord, Hash)]
pub enum BinOp {
    /// `++`
    Concat,
    /// `//`
    Update,
    /// `+`
    Add,
    /// `-`
    Sub,
    /// `*`
    Mul,
    /// `/`
    Div,
    /// `&&`
    And,
    /// `||`
    Or,
    /// `->`
    Implication,
    /// `==`
    Equal,
    /// `<`
    Less,
    /// `<=`
    LessOrEq,
    /// `>`
    More,
    /// `>=`
    MoreOrEq,
    /// `!=`
    NotEqual,
}

impl BinOp {
    /// All of them, by their number.
    pub const ALL: [BinOp; 15] = [
        BinOp::Concat,
        BinOp::Update,
        BinOp::Add,
        BinOp::Sub,
        BinOp::Mul,
        BinOp::Div,
        BinOp::And,
        BinOp::Or,
        BinOp::Implication,
        BinOp::Equal,
        BinOp::Less,
        BinOp::LessOrEq,
        BinOp::More,
        BinOp::MoreOrEq,
        BinOp::NotEqual,
    ];

    /// Its number in sheets and stores, 1 to 15.
    pub const fn number(self) -> u32 {
        self as u32 + 1
    }

    /// The operator with this number.
    ///
    /// ```
    /// use lang_ast::BinOp;
    /// assert_eq!(BinOp::from_number(3), Some(BinOp::Add));
    /// assert_eq!(BinOp::from_number(0), None);
    /// ```
    pub fn from_number(number: u32) -> Option<Self> {
        BinOp::ALL.into_iter().find(|operator| operator.number() == number)
    }

    /// How Nix writes it.
    pub const fn symbol(self) -> &'static str {
        match self {
            BinOp::Concat => "++",
            BinOp::Update => "//",
            BinOp::Add => "+",
            BinOp::Sub => "-",
            BinOp::Mul => "*",
            BinOp::Div => "/",
            BinOp::And => "&&",
            BinOp::Or => "||",
            BinOp::Implication => "->",
            BinOp::Equal => "==",
            BinOp::Less => "<",
            BinOp::LessOrEq => "<=",
            BinOp::More => ">",
            BinOp::MoreOrEq => ">=",
            BinOp::NotEqual => "!=",
        }
    }
}

impl fmt::Display for BinOp {
    fn fmt(&self, f: &mut fmt::Formatter<'_>) -> fmt::Result {
        f.write_str(self.symbol())
    }
}

/// The operator of a [`UnaryOp`](crate::Expr::UnaryOp).
#[derive(Debug, Clone, Copy, PartialEq, Eq, PartialOrd, Ord, Hash)]
pub enum UnaryOp {
    /// `!`
    Invert,
    /// `-`
    Negate,
}

impl UnaryOp {
    /// Its number in sheets and stores, 1 or 2.
    pub const fn number(self) -> u32 {
        self as u32 + 1
    }

    /// The operator with this number.
    ///
    /// ```
    /// use lang_ast::UnaryOp;
    /// assert_eq!(UnaryOp::from_number(2), Some(UnaryOp::Negate));
    /// assert_eq!(UnaryOp::from_number(3), None);
    /// ```
    pub fn from_number(number: u32) -> Option<Self> {
        match number {
            1 => Some(UnaryOp::Invert),
            2 => Some(UnaryOp::Negate),
            _ => None,
        }
    }

    /// How Nix writes it.
    pub const fn symbol(self) -> &'static str {
        match self {
            UnaryOp::Invert => "!",
            UnaryOp::Negate => "-",
        }
    }
}

impl fmt::Display for UnaryOp {
    fn fmt(&self, f: &mut fmt::Formatter<'_>) -> fmt::Result {
        f.write_str(self.symbol())
    }
}
