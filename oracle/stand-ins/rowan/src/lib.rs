//! Stands in for rowan: a syntax tree, of which the nodes are those of a sheet.
//!
//! Different on purpose: a node's kind is the sheet's number, its children are reached by the place that they have in
//! the sheet's list of kids and not by their kind, and the only tokens are those that a typed accessor asks for. The
//! sheet has no comments, so a walk with tokens meets nodes alone. A byte of a text is the character of that number.

pub mod ast;
mod walk;

pub use walk::{NodeOrToken, PreorderWithTokens, WalkEvent};

use std::{
    fmt,
    hash::{Hash, Hasher},
    marker::PhantomData,
    rc::Rc,
};

use sheet::Node;

/// A language; it only keeps trees of different languages apart.
pub trait Language: Sized + Copy + fmt::Debug + Eq + Ord + Hash {}

/// A place in the source text.
#[derive(Debug, Clone, Copy, PartialEq, Eq, PartialOrd, Ord, Hash)]
pub struct TextSize(u32);

impl From<TextSize> for u32 {
    fn from(size: TextSize) -> u32 {
        size.0
    }
}

impl From<TextSize> for usize {
    fn from(size: TextSize) -> usize {
        size.0 as usize
    }
}

/// A node's `from` and `to`.
#[derive(Debug, Clone, Copy, PartialEq, Eq, PartialOrd, Ord, Hash)]
pub struct TextRange {
    start: TextSize,
    end: TextSize,
}

impl TextRange {
    pub fn start(self) -> TextSize {
        self.start
    }

    pub fn end(self) -> TextSize {
        self.end
    }
}

/// The shared nodes of a sheet. Two are equal when they are the very same list, as two trees of the real one.
#[derive(Clone)]
struct Tree(Rc<[Node]>);

impl PartialEq for Tree {
    fn eq(&self, other: &Self) -> bool {
        Rc::ptr_eq(&self.0, &other.0)
    }
}

impl Eq for Tree {}

impl Hash for Tree {
    fn hash<H: Hasher>(&self, state: &mut H) {
        self.0.as_ptr().hash(state);
    }
}

/// A node: a sheet's nodes and a number among them.
#[derive(Clone, PartialEq, Eq, Hash)]
pub struct SyntaxNode<L: Language> {
    tree: Tree,
    number: usize,
    language: PhantomData<L>,
}

impl<L: Language> SyntaxNode<L> {
    /// Node 0 of a sheet, if it has one.
    pub fn new_root(nodes: Rc<[Node]>) -> Option<Self> {
        (!nodes.is_empty()).then_some(SyntaxNode { tree: Tree(nodes), number: 0, language: PhantomData })
    }

    fn node(&self) -> &Node {
        &self.tree.0[self.number]
    }

    pub fn kind(&self) -> u8 {
        self.node().kind
    }

    pub fn flag(&self) -> u8 {
        self.node().flag
    }

    /// The node's text as the sheet has it.
    pub fn bytes(&self) -> &[u8] {
        &self.node().text
    }

    /// The node's own text. In the real one the texts of all tokens below it; of the kinds whose text lang_ast reads,
    /// the sheet has that.
    pub fn text(&self) -> String {
        self.bytes().iter().copied().map(char::from).collect()
    }

    pub fn text_range(&self) -> TextRange {
        TextRange { start: TextSize(self.node().from), end: TextSize(self.node().to) }
    }

    /// The kid at a place, if it is there.
    pub fn kid(&self, place: usize) -> Option<Self> {
        let number = (*self.node().kids.get(place)?)? as usize;
        (number < self.tree.0.len()).then(|| SyntaxNode { tree: self.tree.clone(), number, language: PhantomData })
    }

    /// The kids from a place on.
    pub fn kids_from(&self, place: usize) -> impl DoubleEndedIterator<Item = Self> + '_ {
        (place..self.node().kids.len()).filter_map(|place| self.kid(place))
    }

    /// The token that bears the node's own text.
    pub fn token(&self) -> SyntaxToken<L> {
        SyntaxToken { text: self.text().into(), parent: self.clone() }
    }

    pub fn preorder_with_tokens(&self) -> PreorderWithTokens<L> {
        PreorderWithTokens::of(self.clone())
    }
}

impl<L: Language> fmt::Debug for SyntaxNode<L> {
    fn fmt(&self, f: &mut fmt::Formatter<'_>) -> fmt::Result {
        let Node { kind, from, to, .. } = self.node();
        write!(f, "{kind}@{from}..{to}")
    }
}

/// The node's own text, as `text` gives it.
impl<L: Language> fmt::Display for SyntaxNode<L> {
    fn fmt(&self, f: &mut fmt::Formatter<'_>) -> fmt::Result {
        f.write_str(&self.text())
    }
}

/// A token: the text of the node that it was asked of.
#[derive(Debug, Clone, PartialEq, Eq, Hash)]
pub struct SyntaxToken<L: Language> {
    text: Rc<str>,
    parent: SyntaxNode<L>,
}

impl<L: Language> SyntaxToken<L> {
    pub fn text(&self) -> &str {
        &self.text
    }

    /// The range of the token's node, the sheet having none for tokens. Only asked of comments, which a sheet doesn't
    /// have.
    pub fn text_range(&self) -> TextRange {
        self.parent.text_range()
    }
}
