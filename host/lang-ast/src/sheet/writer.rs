//! From a tree to its sheet.

use super::error::{About, Fault, SheetError};
use super::kind::Kind;

/// The longest sheet, in bytes.
const MOST_BYTES: usize = 1_048_576;
/// The most nodes of a sheet.
const MOST_NODES: usize = 4_096;
/// The deepest node; the root is at depth 1.
const MOST_DEPTH: usize = 256;

const HEX: &[u8; 16] = b"0123456789abcdef";

/// A node that was added to a [`SheetWriter`]. It means nothing to another writer.
#[derive(Debug, Clone, Copy, PartialEq, Eq, PartialOrd, Ord, Hash)]
pub struct NodeId(usize);

impl NodeId {
    /// How many nodes were added before it. It is no number of the sheet's: those are given out by the finished tree.
    pub const fn index(self) -> usize {
        self.0
    }
}

/// Writes the sheet of a tree, as docs/SHEET.md has it.
///
/// Nodes are added and linked in any order: [`finish`](SheetWriter::finish) numbers them as the sheet wants them. The
/// kids of one node stand in the order that [`Kind`] says, which is not always the text's: a LetIn has its body first.
/// It writes no sheet that a load refuses: what is against the rules is an error that says what and where.
///
/// ```
/// use lang_ast::{Kind, SheetWriter, Store};
///
/// // `x: x`
/// let mut writer = SheetWriter::new();
/// let body = writer.add(Kind::ident("x"), 3, 4);
/// let root = writer.add(Kind::Root, 0, 4);
/// let lambda = writer.add(Kind::Lambda, 0, 4);
/// let param = writer.add(Kind::IdentParam, 0, 1);
/// let ident = writer.add(Kind::ident("x"), 0, 1);
/// writer.link(root, [lambda]);
/// writer.link(lambda, [param, body]);
/// writer.link(param, [ident]);
///
/// let sheet = writer.finish(root)?;
/// assert_eq!(sheet, std::fs::read("../../examples/lambda.sheet")?);
/// assert!(Store::load(&sheet).is_ok());
/// # Ok::<(), Box<dyn std::error::Error>>(())
/// ```
#[derive(Debug, Clone, Default)]
pub struct SheetWriter {
    nodes: Vec<Node>,
    /// The first handle that a link was asked for and that is of no node here.
    stray: Option<NodeId>,
}

#[derive(Debug, Clone)]
struct Node {
    kind: Kind,
    from: u32,
    to: u32,
    kids: Vec<Option<NodeId>>,
}

impl SheetWriter {
    /// A writer without nodes.
    pub fn new() -> Self {
        SheetWriter::default()
    }

    /// Adds a node from one place of the source text to another, without kids.
    ///
    /// The places are in a unit of your own, see [`Pointer`](crate::Pointer); `from` must not be above `to`.
    pub fn add(&mut self, kind: Kind, from: u32, to: u32) -> NodeId {
        self.nodes.push(Node { kind, from, to, kids: Vec::new() });
        NodeId(self.nodes.len() - 1)
    }

    /// Adds kids behind those that the parent has, in the order that [`Kind`] says for the parent. A place that is
    /// absent is `None`, also the last.
    ///
    /// ```
    /// use lang_ast::{Kind, SheetWriter};
    /// // `if a then b`, without its else.
    /// let mut writer = SheetWriter::new();
    /// let root = writer.add(Kind::Root, 0, 11);
    /// let choice = writer.add(Kind::IfElse, 0, 11);
    /// let (a, b) = (writer.add(Kind::ident("a"), 3, 4), writer.add(Kind::ident("b"), 10, 11));
    /// writer.link(root, [choice]);
    /// writer.link(choice, [Some(a), Some(b), None]);
    /// assert!(writer.finish(root).is_ok());
    /// ```
    pub fn link<Kid: Into<Option<NodeId>>>(&mut self, parent: NodeId, kids: impl IntoIterator<Item = Kid>) {
        match self.nodes.get_mut(parent.0) {
            Some(node) => node.kids.extend(kids.into_iter().map(Into::into)),
            None => self.stray = self.stray.or(Some(parent)),
        }
    }

    /// The sheet of the root's tree, in which every node that was added must have its place.
    ///
    /// ```
    /// use lang_ast::{Fault, Kind, SheetWriter};
    /// let mut writer = SheetWriter::new();
    /// let root = writer.add(Kind::Root, 0, 1);
    /// let path = writer.add(Kind::Attrpath, 0, 1);
    /// writer.link(root, [path]);
    /// let error = writer.finish(root).unwrap_err();
    /// assert_eq!(error.node, root);
    /// assert!(matches!(error.fault, Fault::WrongKid { index: 0, kind: "Attrpath", .. }), "{error}");
    /// ```
    pub fn finish(&self, root: NodeId) -> Result<Vec<u8>, SheetError> {
        if let Some(stray) = self.stray {
            return self.wrong(Fault::Unknown, stray);
        }
        if !matches!(self.node(root)?.kind, Kind::Root) {
            return self.wrong(Fault::RootKind, root);
        }
        let walk = self.walk(root)?;
        if let Some(unmet) = walk.numbers.iter().position(Option::is_none) {
            return self.wrong(Fault::NotLinked, NodeId(unmet));
        }
        let sheet = self.written(&walk);
        if sheet.len() > MOST_BYTES {
            return self.wrong(Fault::TooLong { bytes: sheet.len() }, root);
        }
        Ok(sheet)
    }

    fn wrong<T>(&self, fault: Fault, node: NodeId) -> Result<T, SheetError> {
        let about = |node: &Node| About {
            what: format!(" ({}, {} to {})", node.kind.name(), node.from, node.to),
            kids: node.kind.kids_in_words(),
            counted: node.kind.places().least(),
        };
        Err(SheetError { fault, node, about: self.nodes.get(node.0).map(about).unwrap_or_default() })
    }

    fn node(&self, id: NodeId) -> Result<&Node, SheetError> {
        self.nodes.get(id.0).map_or_else(|| self.wrong(Fault::Unknown, id), Ok)
    }

    /// Numbers the nodes from the root on: a node, then its first kid and all inside it, then the next kid.
    fn walk(&self, root: NodeId) -> Result<Walk, SheetError> {
        let mut walk = Walk { order: Vec::new(), numbers: vec![None; self.nodes.len()] };
        let mut waiting = vec![(root, 1)];
        while let Some((id, depth)) = waiting.pop() {
            let node = self.node(id)?;
            self.check(id, node)?;
            if depth > MOST_DEPTH {
                return self.wrong(Fault::TooDeep, id);
            }
            if walk.order.len() == MOST_NODES {
                return self.wrong(Fault::TooManyNodes, id);
            }
            match walk.numbers.get_mut(id.0) {
                Some(number @ None) => *number = Some(walk.order.len()),
                _ => return self.wrong(Fault::LinkedTwice, id),
            }
            walk.order.push(id);
            // What was put last is taken first, so the kids are put there from the last to the first.
            waiting.extend(node.kids.iter().rev().flatten().map(|&kid| (kid, depth + 1)));
        }
        Ok(walk)
    }

    /// What docs/SHEET.md says of a node and of the kids in its places.
    fn check(&self, id: NodeId, node: &Node) -> Result<(), SheetError> {
        if node.from > node.to {
            return self.wrong(Fault::FromAboveTo, id);
        }
        if !node.kind.value_fits() {
            return self.wrong(Fault::Value, id);
        }
        let places = node.kind.places();
        let (kids, least, most) = (node.kids.len(), places.least(), places.most());
        if kids < least || kids > most {
            return self.wrong(Fault::KidCount { kids, least, most }, id);
        }
        for (index, kid) in node.kids.iter().enumerate() {
            match (kid, places.of(index)) {
                (None, _) if index >= least => return self.wrong(Fault::AbsentInList { index }, id),
                (Some(kid), Some(place)) if !place.takes(&self.node(*kid)?.kind) => {
                    let kind = self.node(*kid)?.kind.name();
                    return self.wrong(Fault::WrongKid { index, kind, wanted: place.wants() }, id);
                }
                _ => {}
            }
        }
        Ok(())
    }

    /// The lines of the nodes that were walked.
    fn written(&self, walk: &Walk) -> Vec<u8> {
        let mut out = format!("nodes={}\n", walk.order.len()).into_bytes();
        for node in walk.order.iter().filter_map(|id| self.nodes.get(id.0)) {
            let (kind, flag) = (node.kind.number(), node.kind.flag());
            let kids: Vec<String> = node.kids.iter().map(|kid| walk.number(*kid)).collect();
            let lines = format!("kind={kind}\nfrom={}\nto={}\nflag={flag}\nkids={}\ntext=", node.from, node.to, kids.join(","));
            out.extend(lines.into_bytes());
            let digit = |half: u8| HEX.get(usize::from(half)).copied();
            out.extend(node.kind.text().into_iter().flat_map(|byte| [digit(byte >> 4), digit(byte & 15)]).flatten());
            out.push(b'\n');
        }
        out
    }
}

/// The nodes in the sheet's order, and the number of each.
struct Walk {
    order: Vec<NodeId>,
    numbers: Vec<Option<usize>>,
}

impl Walk {
    /// A kid as the sheet writes it.
    fn number(&self, kid: Option<NodeId>) -> String {
        let number = kid.and_then(|kid| self.numbers.get(kid.0).copied().flatten());
        number.map_or_else(|| "-".to_string(), |number| number.to_string())
    }
}
