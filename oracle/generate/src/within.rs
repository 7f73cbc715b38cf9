//! Sheets as large as so many bytes allow.

use crate::rng::Rng;
use crate::tree::{Pointers, Tree};
use crate::{extreme, grow, Shape};
use sheet::{kind::ROOT, Node, MAX_DEPTH, MAX_NODES};

/// The fewest bytes that a node takes, and the fewest nodes that the sorts below are made of.
const NODE_BYTES: usize = 36;
const LEAST_NODES: usize = 40;

/// A random valid sheet of at most so many bytes, at least 10,000, and not far below them: grown, wide, of many Withs
/// or of merged sets.
pub fn within(seed: u64, bytes: usize) -> Vec<Node> {
    let mut nodes = (bytes / NODE_BYTES).min(MAX_NODES);
    loop {
        // Drawn anew from the same seed, so that only the size is another.
        let sheet = sized(&mut Rng::new(seed), nodes);
        if sheet::write(&sheet).len() <= bytes || nodes <= LEAST_NODES {
            return sheet;
        }
        nodes -= nodes / 20;
    }
}

/// A sheet of about so many nodes.
fn sized(rng: &mut Rng, nodes: usize) -> Vec<Node> {
    let tree = match rng.below(6) {
        sort @ 0..3 => {
            let names = rng.pick(&[1, 3, 10, 30]);
            let shape = Shape { nodes, depth: 200, names, absent: 3, pointers: Pointers::Mixed, exact: sort > 0, sets: sort == 0 };
            return grow::sheet(rng, &shape);
        }
        3 => {
            let sort = rng.below(18);
            extreme::wide(rng, sort, nodes)
        }
        4 => {
            // Two nodes for a With, one for a reference; Root and the list are two more.
            let withs = rng.between(0, 253).min(nodes / 2 - 2);
            extreme::withs(rng, withs, nodes - 2 - 2 * withs)
        }
        _ => {
            let attributes = rng.between(2, 16);
            extreme::merging(rng, attributes, nodes)
        }
    };
    Tree::full(ROOT, vec![tree]).nodes(rng, Pointers::Nested)
}

/// The deepest valid sheets of at most so many bytes, with what is deep in each: every way of nesting down to depth
/// 256, all ways mixed, sets that merge into one another, and sets below paths of 16 attributes.
pub fn deepest(bytes: usize) -> Vec<(String, Vec<Node>)> {
    let mut sheets = Vec::new();
    for (number, name) in extreme::nests().iter().enumerate() {
        sheets.push((format!("256 levels: {name}"), extreme::chain(&mut Rng::new(0), Some(number), MAX_DEPTH)));
    }
    for seed in 0..4 {
        sheets.push((format!("256 levels: all ways mixed, {seed}"), extreme::chain(&mut Rng::new(seed), None, MAX_DEPTH)));
    }
    // Small places take the fewest bytes, and leave the most for levels.
    let written = |tree: Tree| Tree::full(ROOT, vec![tree]).nodes(&mut Rng::new(1), Pointers::Small);
    for attributes in [2, 3, 4, 8, 16] {
        let merging = |levels: usize| written(extreme::merging(&mut Rng::new(1), attributes, levels * (2 * attributes + 4) + 3));
        sheets.push((format!("merging by paths of {attributes}"), most(bytes, merging)));
    }
    sheets.push(("sets below paths of 16 attributes".to_string(), most(bytes, |levels| written(extreme::paths(levels)))));
    sheets.retain(|(_, nodes)| sheet::write(nodes).len() <= bytes);
    sheets
}

/// The sheet of the most levels, at most 126 of two nodes' depth each, that fits into so many bytes.
fn most(bytes: usize, sheet_of: impl Fn(usize) -> Vec<Node>) -> Vec<Node> {
    let fitting = (1..=126).rev().map(sheet_of).find(|nodes| sheet::write(nodes).len() <= bytes);
    fitting.unwrap_or_default()
}
