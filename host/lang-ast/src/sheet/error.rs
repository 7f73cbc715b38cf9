//! Why a tree is no sheet.

use super::writer::NodeId;
use std::error::Error;
use std::fmt;

/// What is wrong with a tree, and where: why [`SheetWriter::finish`](crate::SheetWriter::finish) wrote no sheet.
///
/// Its text says it in a sentence, and so does its [`Debug`](fmt::Debug), which a `main` that returns it shows.
///
/// ```
/// use lang_ast::{Fault, Kind, SheetWriter};
/// let mut writer = SheetWriter::new();
/// let (root, entry) = (writer.add(Kind::Root, 0, 9), writer.add(Kind::PatEntry, 2, 3));
/// writer.link(root, [entry]);
/// let error = writer.finish(root).unwrap_err();
/// assert_eq!(error.fault, Fault::WrongKid { index: 0, kind: "PatEntry", wanted: "an expression" });
/// let says = "node 0 (Root, 0 to 9) has PatEntry as kid 0, where an expression is wanted, or None: \
///     the kid of a Root is its expression";
/// assert_eq!(error.to_string(), says);
/// assert!(format!("{error:?}").contains(says));
/// ```
#[derive(Clone, PartialEq, Eq)]
pub struct SheetError {
    /// What is wrong.
    pub fault: Fault,
    /// The node at which it is.
    pub node: NodeId,
    /// The node itself, for the sentence; nothing for a node that there is none of.
    pub(super) about: About,
}

/// What the sentence of an error says of its node.
#[derive(Clone, Default, PartialEq, Eq)]
pub(super) struct About {
    /// Its kind and place.
    pub what: String,
    /// The kids of its kind, in words.
    pub kids: String,
    /// How many of its first kids may be absent.
    pub counted: usize,
}

/// The ways in which a tree is no sheet.
#[derive(Debug, Clone, Copy, PartialEq, Eq)]
#[non_exhaustive]
pub enum Fault {
    /// The writer did not give out this node.
    Unknown,
    /// The root is no Root.
    RootKind,
    /// It has too few or too many kids.
    KidCount {
        /// How many it has.
        kids: usize,
        /// The fewest that it may have.
        least: usize,
        /// The most that it may have.
        most: usize,
    },
    /// A kid in a list is absent.
    AbsentInList {
        /// Which of the kids, from 0.
        index: usize,
    },
    /// A kid is of a kind that its place doesn't take.
    WrongKid {
        /// Which of the kids, from 0.
        index: usize,
        /// The kid's kind.
        kind: &'static str,
        /// What the place takes.
        wanted: &'static str,
    },
    /// It is linked as a kid more than once, or it is the root and linked too.
    LinkedTwice,
    /// It is deeper than 256 levels, the root being the first.
    TooDeep,
    /// It is no part of the root's tree.
    NotLinked,
    /// It begins behind its end.
    FromAboveTo,
    /// A Float is negative or no number, or an Integer has no digits or something else than digits.
    Value,
    /// The tree has more than 4,096 nodes; the node is the first too many.
    TooManyNodes,
    /// The sheet would have more than 1,048,576 bytes; the node is the root.
    TooLong {
        /// How many it would have.
        bytes: usize,
    },
}

impl fmt::Display for SheetError {
    fn fmt(&self, f: &mut fmt::Formatter<'_>) -> fmt::Result {
        let SheetError { fault, node, about } = self;
        let About { what, kids: its_kids, counted } = about;
        write!(f, "node {}{what} ", node.index())?;
        match fault {
            Fault::Unknown => write!(f, "is of no node that this writer gave out"),
            Fault::RootKind => write!(f, "can't be the root: that is a Root"),
            Fault::KidCount { kids, least, most } => {
                write!(f, "has {kids} {}", if *kids == 1 { "kid" } else { "kids" })?;
                match (least == most, kids < least) {
                    (true, _) => write!(f, " in place of {least}: {its_kids}")?,
                    (_, true) => write!(f, ", and at least {least} {} wanted: {its_kids}", if *least == 1 { "is" } else { "are" })?,
                    _ => write!(f, ", and at most {most} are allowed: {its_kids}")?,
                }
                f.write_str(if kids < least { ", and an absent one is linked as None" } else { "" })
            }
            Fault::AbsentInList { index } => {
                write!(f, "has no kid {index}, which is an item of a list and can't be absent: {its_kids}")
            }
            Fault::WrongKid { index, kind, wanted } => {
                let absent = if index < counted { ", or None" } else { "" };
                write!(f, "has {kind} as kid {index}, where {wanted} is wanted{absent}: {its_kids}")
            }
            Fault::LinkedTwice => write!(f, "is linked twice: a node has one place in the tree"),
            Fault::TooDeep => write!(f, "lies deeper than 256 levels"),
            Fault::NotLinked => write!(f, "was added and is no part of the tree"),
            Fault::FromAboveTo => write!(f, "begins behind its end"),
            Fault::Value => write!(f, "has a value that it can't have: digits alone, or a number that is not negative"),
            Fault::TooManyNodes => write!(f, "is one too many: a sheet has at most 4,096 nodes"),
            Fault::TooLong { bytes } => write!(f, "gives a sheet of {bytes} bytes, and at most 1,048,576 are allowed"),
        }
    }
}

/// With the sentence, since `fn main() -> Result<..>` and `expect` show an error by this.
impl fmt::Debug for SheetError {
    fn fmt(&self, f: &mut fmt::Formatter<'_>) -> fmt::Result {
        let SheetError { fault, node, .. } = self;
        f.debug_struct("SheetError").field("fault", fault).field("node", node).field("says", &self.to_string()).finish()
    }
}

impl Error for SheetError {}
