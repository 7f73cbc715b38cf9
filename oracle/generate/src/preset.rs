//! Shapes worth testing, each with its random sheets.

use crate::extreme;
use crate::rng::Rng;
use crate::tree::{Pointers, Tree};
use crate::{grow, Shape};
use sheet::{kind::ROOT, Node, MAX_BYTES, MAX_DEPTH, MAX_NODES};

/// A family of valid sheets.
#[derive(Debug, Clone, Copy, PartialEq, Eq, Hash, PartialOrd, Ord)]
pub enum Preset {
    /// 1 to 12 nodes.
    Tiny,
    /// 10 to 60 nodes.
    Small,
    /// 60 to 400 nodes.
    Medium,
    /// 1,000 to 4,096 nodes, exactly 4,096 in every third.
    Large,
    /// 20 to 200 nodes, all about keys that meet: few names, sets in sets.
    Keys,
    /// A chain to depth 256, of one way of nesting or of all mixed.
    Deep,
    /// A list as long as a sheet can hold.
    Wide,
    /// Sets nested in one merging state, up to some 1,700 of them.
    Merging,
    /// Up to 253 Withs around many references.
    Withs,
    /// A text of over 500,000 bytes, or a sheet of exactly 1,048,576.
    LongText,
}

impl Preset {
    pub const ALL: [Preset; 10] = [
        Preset::Tiny,
        Preset::Small,
        Preset::Medium,
        Preset::Large,
        Preset::Keys,
        Preset::Deep,
        Preset::Wide,
        Preset::Merging,
        Preset::Withs,
        Preset::LongText,
    ];

    /// The name by which a tool is asked for it.
    pub fn name(self) -> &'static str {
        match self {
            Preset::Tiny => "tiny",
            Preset::Small => "small",
            Preset::Medium => "medium",
            Preset::Large => "large",
            Preset::Keys => "keys",
            Preset::Deep => "deep",
            Preset::Wide => "wide",
            Preset::Merging => "merging",
            Preset::Withs => "withs",
            Preset::LongText => "long_text",
        }
    }

    /// A valid sheet of the family. Seeds that follow one another go through the family's sorts.
    pub fn sheet(self, seed: u64) -> Vec<Node> {
        let mut rng = Rng::new(seed);
        let sort = usize::try_from(seed % 1_000).unwrap_or(0);
        let tree = match self {
            Preset::Tiny | Preset::Small | Preset::Medium | Preset::Large | Preset::Keys => {
                let shape = self.shape(&mut rng, sort);
                return grow::sheet(&mut rng, &shape);
            }
            Preset::Deep => {
                let nests = extreme::nests().len();
                let nest = Some(sort % (nests + 4)).filter(|&nest| nest < nests);
                return extreme::chain(&mut rng, nest, MAX_DEPTH);
            }
            Preset::LongText if sort % 7 == 6 => return extreme::exactly(MAX_BYTES),
            Preset::LongText => extreme::long_text(&mut rng, sort % 7),
            Preset::Wide => extreme::wide(&mut rng, sort, MAX_NODES),
            Preset::Merging => extreme::merging(&mut rng, if sort % 3 == 0 { 16 } else { 2 + sort % 15 }, MAX_NODES),
            Preset::Withs => {
                let withs = if sort % 2 == 0 { 253 } else { rng.between(0, 253) };
                let references = if sort % 3 == 0 { MAX_NODES - 2 - 2 * withs } else { rng.between(0, 300) };
                extreme::withs(&mut rng, withs, references)
            }
        };
        let pointers = if rng.chance(80) { Pointers::Nested } else { Pointers::Mixed };
        Tree::full(ROOT, vec![tree]).nodes(&mut rng, pointers)
    }

    /// The shape of a grown sheet.
    fn shape(self, rng: &mut Rng, sort: usize) -> Shape {
        let (low, high, depth) = match self {
            Preset::Tiny => (1, 12, 12),
            Preset::Small => (10, 60, 20),
            Preset::Medium => (60, 400, 40),
            Preset::Keys => (20, 200, 40),
            _ => (1_000, MAX_NODES, 200),
        };
        let sets = self == Preset::Keys;
        let exact = !sets && sort.is_multiple_of(3) && self != Preset::Tiny;
        let nodes = if exact && self == Preset::Large { MAX_NODES } else { rng.between(low, high) };
        Shape {
            nodes,
            depth,
            names: if sets { rng.between(1, 3) } else { rng.pick(&[1, 2, 3, 4, 6, 10, 30]) },
            absent: rng.pick(&[3, 10, 25]),
            pointers: rng.pick(&[Pointers::Nested, Pointers::Nested, Pointers::Small, Pointers::Mixed]),
            exact,
            sets,
        }
    }
}
