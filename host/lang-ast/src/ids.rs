//! The numbers of expressions, names and scopes. They are three sorts, so that a name's number can't be taken for an
//! expression's.

use std::fmt;

macro_rules! number {
    ($(#[$doc:meta])* $name:ident, $letter:literal) => {
        $(#[$doc])*
        #[derive(Debug, Clone, Copy, PartialEq, Eq, PartialOrd, Ord, Hash)]
        pub struct $name(
            /// The number, from 0.
            pub u32,
        );

        impl $name {
            /// The number, from 0.
            pub const fn number(self) -> u32 {
                self.0
            }
        }

        impl fmt::Display for $name {
            fn fmt(&self, f: &mut fmt::Formatter<'_>) -> fmt::Result {
                write!(f, concat!($letter, "{}"), self.0)
            }
        }

        impl From<u32> for $name {
            fn from(number: u32) -> Self {
                $name(number)
            }
        }
    };
}

number! {
    /// The number of an expression, shown as `e0`. It is not the number of its node in the sheet; see
    /// [`Store::expr_at`](crate::Store::expr_at).
    ///
    /// ```
    /// assert_eq!(lang_ast::ExprId(3).to_string(), "e3");
    /// ```
    ExprId, "e"
}
number! {
    /// The number of a name, shown as `n0`. It is not the number of its node in the sheet; see
    /// [`Store::name_at`](crate::Store::name_at).
    ///
    /// ```
    /// assert_eq!(lang_ast::NameId(3).to_string(), "n3");
    /// ```
    NameId, "n"
}
number! {
    /// The number of a scope, shown as `s0`. Scope 0 is the whole file's.
    ///
    /// ```
    /// assert_eq!(lang_ast::ScopeId(0).to_string(), "s0");
    /// ```
    ScopeId, "s"
}
