//! Walking a tree in preorder.

use crate::{Language, SyntaxNode, SyntaxToken};

#[derive(Debug, Clone, PartialEq, Eq)]
pub enum NodeOrToken<N, T> {
    Node(N),
    Token(T),
}

#[derive(Debug, Clone, PartialEq, Eq)]
pub enum WalkEvent<T> {
    Enter(T),
    Leave(T),
}

/// Enters a node, walks its kids in order and leaves it. No token comes up, as the sheet has none.
pub struct PreorderWithTokens<L: Language> {
    /// What is still to come, the next at the end.
    rest: Vec<WalkEvent<SyntaxNode<L>>>,
}

impl<L: Language> PreorderWithTokens<L> {
    pub(crate) fn of(root: SyntaxNode<L>) -> Self {
        PreorderWithTokens { rest: vec![WalkEvent::Enter(root)] }
    }
}

impl<L: Language> Iterator for PreorderWithTokens<L> {
    type Item = WalkEvent<NodeOrToken<SyntaxNode<L>, SyntaxToken<L>>>;

    fn next(&mut self) -> Option<Self::Item> {
        Some(match self.rest.pop()? {
            WalkEvent::Enter(node) => {
                self.rest.push(WalkEvent::Leave(node.clone()));
                self.rest.extend(node.kids_from(0).rev().map(WalkEvent::Enter));
                WalkEvent::Enter(NodeOrToken::Node(node))
            }
            WalkEvent::Leave(node) => WalkEvent::Leave(NodeOrToken::Node(node)),
        })
    }
}
