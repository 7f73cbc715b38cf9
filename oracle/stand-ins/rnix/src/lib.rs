//! Stands in for rnix: the typed syntax tree of Nix, over a sheet's nodes.
//!
//! Different on purpose: parsing is outside, so `Root::parse` gives an empty tree whatever the text, and a tree is made
//! of a sheet's nodes by `Root::of_nodes`. Every accessor goes by the place that docs/RULES.md gives the kid; see
//! `ast`.

pub mod ast;

pub use ast::Root;
pub use rowan::{NodeOrToken, TextRange, TextSize, WalkEvent};

/// The language of the trees; there is no value of it.
#[derive(Debug, Clone, Copy, PartialEq, Eq, PartialOrd, Ord, Hash)]
pub enum NixLanguage {}

impl rowan::Language for NixLanguage {}

pub type SyntaxNode = rowan::SyntaxNode<NixLanguage>;
pub type SyntaxToken = rowan::SyntaxToken<NixLanguage>;

/// What `Root::parse` gives.
#[derive(Debug, Clone)]
pub struct Parse {
    root: Root,
}

impl Parse {
    pub fn tree(&self) -> Root {
        self.root.clone()
    }
}

/// Matches a node or a token against typed views, the first that fits; as the real one.
#[macro_export]
macro_rules! match_ast {
    (match $node:ident { $($arms:tt)* }) => {
        $crate::match_ast!(match ($node) { $($arms)* })
    };
    (match ($node:expr) { $( ast::$view:ident($it:ident) => $result:expr, )* _ => $otherwise:expr $(,)? }) => {{
        $( if let Some($it) = ast::$view::cast($node.clone()) { $result } else )*
        { $otherwise }
    }};
}
