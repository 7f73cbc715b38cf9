//! Trees that hold their kids, and how they become the nodes of a sheet: numbers in the order of the walk, and
//! pointers.

use crate::rng::Rng;
use sheet::{kind::*, Node};

/// How the nodes' `from` and `to` are chosen.
#[derive(Debug, Clone, Copy, PartialEq, Eq)]
pub enum Pointers {
    /// As a text would give them: a node spans its kids.
    Nested,
    /// Small numbers by chance, so that many nodes of a kind have equal pointers.
    Small,
    /// Mostly nested; some small, some equal to an earlier node of the kind, some at the end of the range.
    Mixed,
}

/// A node with its kids in it.
#[derive(Debug, Clone, PartialEq, Eq)]
pub struct Tree {
    pub kind: u8,
    pub flag: u8,
    pub text: Vec<u8>,
    pub kids: Vec<Option<Tree>>,
}

impl Tree {
    pub fn new(kind: u8, kids: Vec<Option<Tree>>) -> Self {
        Tree { kind, flag: 0, text: Vec::new(), kids }
    }

    pub fn leaf(kind: u8) -> Self {
        Tree::new(kind, Vec::new())
    }

    /// A list, or any other kind of which no kid is absent.
    pub fn full(kind: u8, kids: Vec<Tree>) -> Self {
        Tree::new(kind, kids.into_iter().map(Some).collect())
    }

    pub fn flagged(self, flag: u8) -> Self {
        Tree { flag, ..self }
    }

    pub fn with_text(self, text: &[u8]) -> Self {
        Tree { text: text.to_vec(), ..self }
    }

    /// An Ident with this text.
    pub fn ident(text: &[u8]) -> Self {
        Tree::leaf(IDENT).flagged(1).with_text(text)
    }

    /// An Attrpath of Idents.
    pub fn path(texts: &[&[u8]]) -> Self {
        Tree::full(ATTRPATH, texts.iter().map(|text| Tree::ident(text)).collect())
    }

    /// The kids that are there.
    pub fn present(&self) -> impl Iterator<Item = &Tree> {
        self.kids.iter().flatten()
    }

    pub fn size(&self) -> usize {
        1 + self.present().map(Tree::size).sum::<usize>()
    }

    pub fn height(&self) -> usize {
        1 + self.present().map(Tree::height).max().unwrap_or(0)
    }

    /// The nodes of the tree, in the order of the walk.
    pub fn nodes(&self, rng: &mut Rng, pointers: Pointers) -> Vec<Node> {
        let mut writer = Writer { rng, pointers, nodes: Vec::new(), at: 0 };
        writer.add(self);
        writer.nodes
    }
}

struct Writer<'a> {
    rng: &'a mut Rng,
    pointers: Pointers,
    nodes: Vec<Node>,
    /// How far the text that the nested pointers stand for has come.
    at: u32,
}

impl Writer<'_> {
    fn add(&mut self, tree: &Tree) -> u32 {
        let own = self.nodes.len();
        let from = self.at;
        self.nodes.push(Node { kind: tree.kind, from, to: from, flag: tree.flag, kids: Vec::new(), text: tree.text.clone() });
        self.at += tree.text.len() as u32;
        for kid in &tree.kids {
            let kid = kid.as_ref().map(|kid| self.add(kid));
            self.nodes[own].kids.push(kid);
            self.at += self.rng.below(3) as u32;
        }
        let (from, to) = self.pointer(own, from);
        self.nodes[own].from = from;
        self.nodes[own].to = to;
        own as u32
    }

    fn pointer(&mut self, own: usize, from: u32) -> (u32, u32) {
        let nested = (from, self.at);
        let drawn = match self.pointers {
            Pointers::Nested => 0,
            Pointers::Small => 70,
            Pointers::Mixed => self.rng.below(100),
        };
        match drawn {
            0..70 => nested,
            70..85 => {
                let from = self.rng.below(3) as u32;
                (from, from + self.rng.below(3) as u32)
            }
            85..95 => {
                let kind = self.nodes[own].kind;
                let twin = self.nodes[..own].iter().rev().find(|node| node.kind == kind);
                twin.map_or(nested, |twin| (twin.from, twin.to))
            }
            _ => self.rng.pick(&[(0, u32::MAX), (u32::MAX, u32::MAX), (u32::MAX - 1, u32::MAX), (0, 0)]),
        }
    }
}
