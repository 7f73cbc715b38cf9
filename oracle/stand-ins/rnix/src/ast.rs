//! The typed views that lang_ast uses, by the sheet's kinds and places.

mod text;

pub use text::{AstToken, Comment, Float, Integer, InterpolPart, LiteralKind, NoFloat, PathContent, StrContent, Uri};

use std::rc::Rc;

use rowan::ast::{AstChildren, AstNode};
use sheet::{kind, Node};

use crate::{NixLanguage, Parse, SyntaxNode, SyntaxToken};

/// Views of one or more kinds that are a node and nothing else.
macro_rules! views {
    ($($name:ident: $($kind:ident)|+;)*) => {$(
        #[derive(Debug, Clone, PartialEq, Eq, Hash)]
        pub struct $name(SyntaxNode);

        impl AstNode for $name {
            type Language = NixLanguage;

            fn can_cast(kind: u8) -> bool {
                matches!(kind, $(kind::$kind)|+)
            }

            fn cast(node: SyntaxNode) -> Option<Self> {
                Self::can_cast(node.kind()).then_some($name(node))
            }

            fn syntax(&self) -> &SyntaxNode {
                &self.0
            }
        }
    )*};
}

views! {
    Apply: APPLY;
    IfElse: IF_ELSE;
    Select: SELECT;
    With: WITH;
    HasAttr: HAS_ATTR;
    Str: STR;
    Path: PATH;
    Literal: FLOAT | INTEGER | URI;
    Lambda: LAMBDA;
    LetIn: LET_IN;
    List: LIST;
    BinOp: BIN_OP;
    Paren: PAREN;
    AttrSet: ATTR_SET;
    UnaryOp: UNARY_OP;
    Ident: IDENT;
    Assert: ASSERT;
    Error: ERROR;
    Root: ROOT;
    LegacyLet: LEGACY_LET;
    Attrpath: ATTRPATH;
    Dynamic: DYNAMIC;
    AttrpathValue: ATTRPATH_VALUE;
    Inherit: INHERIT;
    InheritFrom: INHERIT_FROM;
    IdentParam: IDENT_PARAM;
    Pattern: PATTERN;
    PatBind: PAT_BIND;
    PatEntry: PAT_ENTRY;
    Interpol: INTERPOLATION;
}

/// Views that are one of several others.
macro_rules! choices {
    ($($name:ident: $($choice:ident)|+;)*) => {$(
        #[derive(Debug, Clone, PartialEq, Eq, Hash)]
        pub enum $name {
            $($choice($choice),)+
        }

        impl AstNode for $name {
            type Language = NixLanguage;

            fn can_cast(kind: u8) -> bool {
                $($choice::can_cast(kind))||+
            }

            fn cast(node: SyntaxNode) -> Option<Self> {
                $(if $choice::can_cast(node.kind()) {
                    return $choice::cast(node).map($name::$choice);
                })+
                None
            }

            fn syntax(&self) -> &SyntaxNode {
                match self {
                    $($name::$choice(view) => view.syntax(),)+
                }
            }
        }
    )*};
}

choices! {
    Expr: Apply | IfElse | Select | With | HasAttr | Str | Path | Literal | Lambda | LetIn | List | BinOp | Paren | AttrSet | UnaryOp
        | Ident | Assert | Error | Root | LegacyLet;
    Attr: Ident | Dynamic | Str;
    Entry: AttrpathValue | Inherit;
    Param: IdentParam | Pattern;
}

/// Accessors of counted places: the kid at the place, if it is there.
macro_rules! places {
    ($($view:ident { $($accessor:ident: $kid:ident = $place:literal),+ })*) => {$(
        impl $view {
            $(pub fn $accessor(&self) -> Option<$kid> {
                self.0.kid($place).and_then($kid::cast)
            })+
        }
    )*};
}

places! {
    Apply { lambda: Expr = 0, argument: Expr = 1 }
    IfElse { condition: Expr = 0, body: Expr = 1, else_body: Expr = 2 }
    Select { expr: Expr = 0, attrpath: Attrpath = 1, default_expr: Expr = 2 }
    With { namespace: Expr = 0, body: Expr = 1 }
    HasAttr { expr: Expr = 0, attrpath: Attrpath = 1 }
    Lambda { param: Param = 0, body: Expr = 1 }
    LetIn { body: Expr = 0 }
    BinOp { lhs: Expr = 0, rhs: Expr = 1 }
    Paren { expr: Expr = 0 }
    UnaryOp { expr: Expr = 0 }
    Assert { condition: Expr = 0, body: Expr = 1 }
    Root { expr: Expr = 0 }
    Dynamic { expr: Expr = 0 }
    AttrpathValue { attrpath: Attrpath = 0, value: Expr = 1 }
    Inherit { from: InheritFrom = 0 }
    InheritFrom { expr: Expr = 0 }
    IdentParam { ident: Ident = 0 }
    Pattern { pat_bind: PatBind = 0 }
    PatBind { ident: Ident = 0 }
    PatEntry { ident: Ident = 0, default: Expr = 1 }
    Interpol { expr: Expr = 0 }
}

/// Accessors of lists: the kids from a place on.
macro_rules! lists {
    ($($view:ident { $accessor:ident: $item:ident = $place:literal })*) => {$(
        impl $view {
            pub fn $accessor(&self) -> AstChildren<$item> {
                AstChildren::from_place(&self.0, $place)
            }
        }
    )*};
}

lists! {
    List { items: Expr = 0 }
    Attrpath { attrs: Attr = 0 }
    Inherit { attrs: Attr = 1 }
    Pattern { pat_entries: PatEntry = 1 }
}

/// What has entries: a set, and a let after its body.
pub trait HasEntry: AstNode<Language = NixLanguage> {
    fn entries(&self) -> AstChildren<Entry>;
}

impl HasEntry for AttrSet {
    fn entries(&self) -> AstChildren<Entry> {
        AstChildren::from_place(&self.0, 0)
    }
}

impl HasEntry for LetIn {
    fn entries(&self) -> AstChildren<Entry> {
        AstChildren::from_place(&self.0, 1)
    }
}

/// Tokens that are there exactly with flag 1.
macro_rules! flagged_tokens {
    ($($view:ident { $accessor:ident })*) => {$(
        impl $view {
            pub fn $accessor(&self) -> Option<SyntaxToken> {
                (self.0.flag() == 1).then(|| self.0.token())
            }
        }
    )*};
}

flagged_tokens! {
    Ident { ident_token }
    AttrSet { rec_token }
    Pattern { ellipsis_token }
}

/// The binary operators, in the order of their flags from 1.
#[derive(Debug, Clone, Copy, PartialEq, Eq, Hash)]
pub enum BinOpKind {
    Concat,
    Update,
    Add,
    Sub,
    Mul,
    Div,
    And,
    Or,
    Implication,
    Equal,
    Less,
    LessOrEq,
    More,
    MoreOrEq,
    NotEqual,
}

/// The unary operators, in the order of their flags from 1.
#[derive(Debug, Clone, Copy, PartialEq, Eq, Hash)]
pub enum UnaryOpKind {
    Invert,
    Negate,
}

impl BinOpKind {
    /// The operators by flag: that of flag 1 comes first.
    pub const BY_FLAG: [BinOpKind; 15] = {
        use BinOpKind::*;
        [Concat, Update, Add, Sub, Mul, Div, And, Or, Implication, Equal, Less, LessOrEq, More, MoreOrEq, NotEqual]
    };
}

impl UnaryOpKind {
    /// The operators by flag: that of flag 1 comes first.
    pub const BY_FLAG: [UnaryOpKind; 2] = [UnaryOpKind::Invert, UnaryOpKind::Negate];
}

/// The operator of a flag; flag 0 is none.
fn by_flag<T: Copy>(operators: &[T], flag: u8) -> Option<T> {
    operators.get(usize::from(flag).checked_sub(1)?).copied()
}

impl BinOp {
    pub fn operator(&self) -> Option<BinOpKind> {
        by_flag(&BinOpKind::BY_FLAG, self.0.flag())
    }
}

impl UnaryOp {
    pub fn operator(&self) -> Option<UnaryOpKind> {
        by_flag(&UnaryOpKind::BY_FLAG, self.0.flag())
    }
}

impl Root {
    /// The tree of a sheet's nodes, which must be those of an accepted sheet. Where there is no Root at 0 it is an
    /// empty tree.
    pub fn of_nodes(nodes: &[Node]) -> Root {
        SyntaxNode::new_root(nodes.into()).and_then(Root::cast).unwrap_or_else(Root::empty)
    }

    /// An empty tree, whatever the text: parsing is outside.
    pub fn parse(_text: &str) -> Parse {
        Parse { root: Root::empty() }
    }

    fn empty() -> Root {
        let nodes: Rc<[Node]> = Rc::new([Node { kind: kind::ROOT, from: 0, to: 0, flag: 0, kids: vec![None], text: Vec::new() }]);
        SyntaxNode::new_root(nodes).and_then(Root::cast).expect("the list has a Root")
    }
}
