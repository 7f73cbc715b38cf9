//! Typed views of nodes, and pointers to nodes.

use std::{marker::PhantomData, vec};

use crate::{Language, SyntaxNode, TextRange};

/// A node known to be of certain kinds.
pub trait AstNode {
    type Language: Language;

    fn can_cast(kind: u8) -> bool
    where
        Self: Sized;

    fn cast(node: SyntaxNode<Self::Language>) -> Option<Self>
    where
        Self: Sized;

    fn syntax(&self) -> &SyntaxNode<Self::Language>;
}

/// The kids of a node from a place on, each as an `N`.
#[derive(Debug, Clone)]
pub struct AstChildren<N: AstNode> {
    kids: vec::IntoIter<SyntaxNode<N::Language>>,
}

impl<N: AstNode> AstChildren<N> {
    pub fn from_place(parent: &SyntaxNode<N::Language>, place: usize) -> Self {
        AstChildren { kids: parent.kids_from(place).collect::<Vec<_>>().into_iter() }
    }
}

impl<N: AstNode> Iterator for AstChildren<N> {
    type Item = N;

    fn next(&mut self) -> Option<N> {
        self.kids.by_ref().find_map(N::cast)
    }
}

/// A node's pointer: its kind, from and to. Equal triples are equal pointers.
#[derive(Debug, Clone, Copy, PartialEq, Eq, PartialOrd, Ord, Hash)]
pub struct SyntaxNodePtr<L: Language> {
    kind: u8,
    range: TextRange,
    language: PhantomData<L>,
}

impl<L: Language> SyntaxNodePtr<L> {
    pub fn new(node: &SyntaxNode<L>) -> Self {
        SyntaxNodePtr { kind: node.kind(), range: node.text_range(), language: PhantomData }
    }

    pub fn kind(&self) -> u8 {
        self.kind
    }

    pub fn text_range(&self) -> TextRange {
        self.range
    }
}
