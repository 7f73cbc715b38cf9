//! Random sheets, the same from the same seed on every machine: valid ones of many shapes, and damaged ones that break
//! the rules of docs/RULES.md in every way.
//!
//! - `rng`: the source of randomness.
//! - `tree`: trees that know their kids, and how they become nodes with numbers and pointers.
//! - `names`: the texts that bindings and references draw from.
//! - `grow`, `bind`: random trees, expressions in the one and what brings names in the other.
//! - `preset`: shapes worth testing, the extreme ones built by `extreme`.
//! - `within`: sheets as large as so many bytes allow, for a program that reads shorter ones.
//! - `base`, `text_damage`, `node_damage`: what damage starts from, and the damage to a sheet's bytes and to its nodes.
//! - `wrong`: the values that either writes where they must not be.

mod base;
mod bind;
mod extreme;
mod grow;
pub mod names;
mod node_damage;
mod preset;
mod rng;
mod text_damage;
pub mod tree;
mod within;
mod wrong;

pub use base::ZOO;
pub use extreme::{chain, exactly, exactly_written, nests, over_long};
pub use node_damage::structural;
pub use preset::Preset;
pub use rng::Rng;
pub use text_damage::damaged;
pub use within::{deepest, within};

use sheet::Node;
use tree::Pointers;

/// What a random valid sheet should look like.
#[derive(Debug, Clone, PartialEq, Eq)]
pub struct Shape {
    /// How many nodes it may have, 1 to 4,096.
    pub nodes: usize,
    /// How deep it may go, 1 to 256.
    pub depth: usize,
    /// How many different texts bindings are made of; the fewer, the more of them are equal.
    pub names: usize,
    /// How many of a hundred counted places are absent where little room is left.
    pub absent: u64,
    pub pointers: Pointers,
    /// Whether it has exactly `nodes` nodes. From depth 3 on that is always possible; a flatter tree may have fewer.
    pub exact: bool,
    /// Whether it is all about keys: a set or a let at the top, and sets for most values, so that paths and sets meet.
    pub sets: bool,
}

/// A random valid sheet of this shape.
pub fn valid(seed: u64, shape: &Shape) -> Vec<Node> {
    grow::sheet(&mut Rng::new(seed), shape)
}
