//! What is lowered: random sheets, and sheets at the limits of depth, of keys and of merging.

use super::Named;
use generate::tree::{Pointers, Tree};
use generate::{Preset, Rng, Shape};
use sheet::kind::*;
use sheet::{Node, MAX_ATTRS, MAX_DEPTH, MAX_NODES};

/// A random valid sheet of up to so many nodes; most are small, since small ones meet the odd cases as well and are
/// gone through faster.
pub fn random(seed: u64, most: usize) -> Vec<Node> {
    let mut rng = Rng::new(seed);
    let most = most.clamp(1, MAX_NODES);
    let high = rng.pick(&[12, 60, 60, 200, 400, MAX_NODES]).min(most);
    let sets = rng.chance(40);
    let shape = Shape {
        nodes: rng.between(1, high),
        depth: rng.pick(&[12, 40, 200, MAX_DEPTH]),
        names: if sets { rng.between(1, 4) } else { rng.pick(&[1, 2, 3, 6, 30]) },
        absent: rng.pick(&[3, 10, 25, 60]),
        pointers: rng.pick(&[Pointers::Nested, Pointers::Small, Pointers::Mixed]),
        exact: rng.chance(30),
        sets,
    };
    generate::valid(rng.draw(), &shape)
}

/// A random valid sheet of exactly so many nodes, as a text would give it.
pub fn exactly(seed: u64, nodes: usize, sets: bool) -> Vec<Node> {
    generate::valid(seed, &Shape { nodes, depth: 60, names: 30, absent: 10, pointers: Pointers::Nested, exact: true, sets })
}

/// All sheets at the limits.
pub fn limits() -> Vec<Named> {
    let mut all = deep();
    all.extend(merged());
    all.extend(large_sets());
    for (preset, sorts) in [(Preset::Wide, 18), (Preset::Merging, 16), (Preset::Withs, 6), (Preset::LongText, 7)] {
        all.extend((0..sorts).map(|seed| named(format!("preset {}, seed {seed}", preset.name()), preset.sheet(seed))));
    }
    all
}

/// Sheets of depth 256: each way of nesting in itself, and four times all of them mixed.
pub fn deep() -> Vec<Named> {
    let nests = generate::nests();
    let alone = nests.iter().enumerate().map(|(nest, name)| (format!("256 levels of {name}"), nest as u64));
    let mixed = (0..4).map(|i| (format!("256 levels, mixed, {i}"), nests.len() as u64 + i));
    // The preset's first seeds go through the ways of nesting, and then mix them.
    alone.chain(mixed).map(|(name, seed)| named(name, Preset::Deep.sheet(seed))).collect()
}

/// The deepest sets, by paths of the most attributes. A set and its entry are two levels of nodes.
pub fn merged() -> Vec<Named> {
    let levels = (MAX_DEPTH - 3) / 2;
    let alike = || Tree::ident(b"a");
    let keyless = || Tree::new(DYNAMIC, vec![None]);
    let keyed = || Tree::full(DYNAMIC, vec![Tree::ident(b"k")]);
    let turns = |i: usize| if i.is_multiple_of(2) { alike() } else { keyless() };
    vec![
        tree("paths of 16 static attributes", nested(levels, |_| alike())),
        tree("paths of 16 dynamic attributes without keys", nested(levels, |_| keyless())),
        tree("paths of 16 dynamic attributes", nested(116, |_| keyed())),
        tree("paths of 16 attributes, dynamic and static in turn", nested(levels, turns)),
        tree("1,696 sets in one merging state", one_state(113)),
    ]
}

/// Large sets, by the order in which their keys come.
pub fn large_sets() -> Vec<Named> {
    let mut all = Vec::new();
    for order in Order::ALL {
        all.push(tree(&format!("1,300 keys, {}", order.name()), entries(order.keys(1_300))));
        all.push(tree(&format!("4,093 inherited keys, {}", order.name()), inherits(order.keys(MAX_NODES - 3))));
    }
    all
}

fn named(name: String, nodes: Vec<Node>) -> Named {
    Named { name, nodes }
}

/// A sheet whose root has this tree in it.
pub fn tree(name: &str, inner: Tree) -> Named {
    named(name.to_string(), Tree::full(ROOT, vec![inner]).nodes(&mut Rng::new(1), Pointers::Nested))
}

/// An entry of a set or a let.
pub fn entry(path: Vec<Tree>, value: Option<Tree>) -> Tree {
    Tree::new(ATTRPATH_VALUE, vec![Some(Tree::full(ATTRPATH, path)), value])
}

/// A set whose only value, at the end of a path of 16 attributes, is such a set again.
fn nested(levels: usize, attribute: impl Fn(usize) -> Tree) -> Tree {
    let path = || (0..MAX_ATTRS).map(&attribute).collect();
    (0..levels).fold(Tree::leaf(ATTR_SET), |inner, _| Tree::full(ATTR_SET, vec![entry(path(), Some(inner))]))
}

/// A path of 16 attributes makes 15 nested sets; a set at the fifteenth merges into that one, and so on inside it.
fn one_state(levels: usize) -> Tree {
    let path = |attributes| vec![Tree::ident(b"a"); attributes];
    let level = |inner| Tree::full(ATTR_SET, vec![entry(path(MAX_ATTRS), None), entry(path(MAX_ATTRS - 1), Some(inner))]);
    (0..levels).fold(Tree::leaf(ATTR_SET), |inner, _| level(inner))
}

fn entries(keys: Vec<Tree>) -> Tree {
    Tree::full(ATTR_SET, keys.into_iter().map(|key| entry(vec![key], None)).collect())
}

fn inherits(keys: Vec<Tree>) -> Tree {
    let kids = std::iter::once(None).chain(keys.into_iter().map(Some)).collect();
    Tree::full(ATTR_SET, vec![Tree::new(INHERIT, kids)])
}

/// The order in which the keys of a large set come.
#[derive(Clone, Copy)]
enum Order {
    Sorted,
    Reversed,
    Random,
    Equal,
}

impl Order {
    const ALL: [Order; 4] = [Order::Sorted, Order::Reversed, Order::Random, Order::Equal];

    fn name(self) -> &'static str {
        match self {
            Order::Sorted => "sorted",
            Order::Reversed => "reversed",
            Order::Random => "random",
            Order::Equal => "all equal",
        }
    }

    fn keys(self, count: usize) -> Vec<Tree> {
        let mut numbers: Vec<usize> = (0..count).collect();
        match self {
            Order::Sorted => {}
            Order::Reversed => numbers.reverse(),
            Order::Random => shuffle(&mut numbers),
            Order::Equal => numbers.fill(0),
        }
        // Of one length, so that the order of texts is that of the numbers.
        numbers.into_iter().map(|number| Tree::ident(format!("key{number:04}").as_bytes())).collect()
    }
}

fn shuffle(numbers: &mut [usize]) {
    let mut rng = Rng::new(1);
    for last in (1..numbers.len()).rev() {
        numbers.swap(last, rng.below(last + 1));
    }
}

#[cfg(test)]
mod tests {
    use super::*;
    use crate::lower::assert_accepted;
    use sheet::check::check;

    #[test]
    fn all_are_accepted() {
        assert_accepted(limits());
        for seed in 0..200 {
            let nodes = random(seed, 300);
            assert!(nodes.len() <= 300 && check(&sheet::write(&nodes)).is_ok(), "seed {seed}");
        }
    }
}
