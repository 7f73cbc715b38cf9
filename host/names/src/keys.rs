//! Keys that are written more than once: in `{ a.b = 1; a.c = 2; }` the two `a` are one name, whose place in the store
//! is the first `a`. A rename that wrote the first alone would tear the set apart, so the others are found here, by the
//! rules by which sets merge.

use crate::tree::{kind, Node, Tree};
use lang_ast::Pointer;
use std::collections::{BTreeMap, BTreeSet};

/// A place where a key is written again, and the place of its name.
#[derive(Debug, Clone, Copy, PartialEq, Eq)]
pub struct Again {
    pub place: Pointer,
    pub first: Pointer,
}

/// A set, or several that merge: its keys.
type Set = BTreeMap<Vec<u8>, Key>;

#[derive(Default)]
struct Key {
    places: Vec<Pointer>,
    /// The set that paths through this key make.
    nested: Option<Set>,
}

struct Merging<'a> {
    tree: &'a Tree,
    /// The sets that were merged into others, which are no sets of their own.
    merged: BTreeSet<usize>,
    /// For each key the places where it is written.
    found: Vec<Vec<Pointer>>,
}

/// All keys that are written again, by their places.
pub fn again(tree: &Tree) -> Vec<Again> {
    let mut all = Vec::new();
    for places in written(tree) {
        if let Some((&first, again)) = places.split_first() {
            all.extend(again.iter().map(|&place| Again { place, first }));
        }
    }
    all.sort_by_key(|again| (again.place.from, again.place.to));
    all
}

/// For each key of each set and let the places where it is written, of which the first is its name's.
fn written(tree: &Tree) -> Vec<Vec<Pointer>> {
    let mut merging = Merging { tree, merged: BTreeSet::new(), found: Vec::new() };
    // Parents have lower numbers than their kids, so what merges into a set is known before it is met.
    for (number, node) in tree.nodes() {
        if matches!(node.pointer.kind, kind::LET_IN | kind::ATTR_SET) && !merging.merged.contains(&number) {
            let mut set = Set::new();
            merging.entries(&mut set, node);
            merging.finish(set);
        }
    }
    merging.found
}

impl Merging<'_> {
    fn entries(&mut self, set: &mut Set, node: &Node) {
        let tree = self.tree;
        let first = usize::from(node.pointer.kind == kind::LET_IN);
        for (_, entry) in tree.kids(node, first) {
            match entry.pointer.kind {
                kind::ATTRPATH_VALUE => self.value(set, entry),
                _ => tree.kids(entry, 1).for_each(|(_, attribute)| {
                    self.key(set, attribute);
                }),
            }
        }
    }

    /// Enters a key, if the attribute is one.
    fn key<'s>(&self, set: &'s mut Set, attribute: &Node) -> Option<&'s mut Key> {
        let key = set.entry(self.tree.key(attribute)?).or_default();
        key.places.push(attribute.pointer);
        Some(key)
    }

    /// `a.b.c = value;`
    fn value(&mut self, set: &mut Set, entry: &Node) {
        let path = self.tree.kid(entry, 0).filter(|path| path.pointer.kind == kind::ATTRPATH);
        let attributes: Vec<&Node> = path.into_iter().flat_map(|path| self.tree.kids(path, 0)).map(|(_, node)| node).collect();
        self.path(set, &attributes, entry.kids.get(1).copied().flatten());
    }

    fn path(&mut self, set: &mut Set, attributes: &[&Node], value: Option<usize>) {
        let Some((first, rest)) = attributes.split_first() else { return };
        match (self.key(set, first), rest.is_empty()) {
            (Some(key), true) => self.last(key, value),
            (Some(key), false) => self.path(key.nested.get_or_insert_default(), rest, value),
            (None, true) => {}
            (None, false) => {
                // A key that only an evaluation knows has a set of its own each time that it is written.
                let mut own = Set::new();
                self.path(&mut own, rest, value);
                self.finish(own);
            }
        }
    }

    /// A set as the value of a key merges into what paths through the key have made.
    fn last(&mut self, key: &mut Key, value: Option<usize>) {
        let Some((number, node)) = value.and_then(|number| Some((number, self.tree.node(number)?))) else { return };
        if let (kind::ATTR_SET, Some(nested)) = (node.pointer.kind, &mut key.nested) {
            self.merged.insert(number);
            self.entries(nested, node);
        }
    }

    fn finish(&mut self, set: Set) {
        for key in set.into_values() {
            self.found.push(key.places);
            self.finish(key.nested.unwrap_or_default());
        }
    }
}

#[cfg(test)]
mod tests {
    use super::*;
    use lang_ast::NameKind;

    fn places(sheet: &[u8]) -> Vec<(u32, u32)> {
        again(&Tree::read(sheet)).iter().map(|again| (again.first.from, again.place.from)).collect()
    }

    /// The rules of merging are those of the load, so the keys that are found here must be the names that the store
    /// has. Sheets with an operator that is missing are left out: a load passes over what such an operator has.
    #[test]
    fn every_key_is_a_name_of_the_store() {
        let mut compared = 0;
        for seed in 0..600 {
            let preset = [generate::Preset::Keys, generate::Preset::Small, generate::Preset::Medium][seed as usize % 3];
            let nodes = preset.sheet(seed);
            if nodes.iter().any(|node| matches!(node.kind, 14 | 17) && node.flag == 0) {
                continue;
            }
            let sheet = sheet::write(&nodes);
            let store = lang_ast::Store::load(&sheet).unwrap();
            let of_functions = [NameKind::Param, NameKind::PatField];
            let names = store.names().filter_map(|name| store.name(name)).filter(|name| !of_functions.contains(&name.kind));
            let mut expected: Vec<Pointer> = names.map(|name| name.pointer).collect();
            let mut found: Vec<Pointer> = written(&Tree::read(&sheet)).iter().map(|places| places[0]).collect();
            expected.sort();
            found.sort();
            assert_eq!(found, expected, "seed {seed}");
            compared += 1;
        }
        assert!(compared > 100, "{compared}");
    }

    #[test]
    fn keys_that_are_written_again_are_found() {
        assert_eq!(places(include_bytes!("../../../examples/path-then-value.sheet")), [(2, 11)]);
        assert_eq!(places(include_bytes!("../../../examples/value-then-path.sheet")), [(2, 9)]);
        assert_eq!(places(include_bytes!("../../../examples/replaced-value.sheet")), [(5, 12)]);
        assert_eq!(places(include_bytes!("../../../examples/plain-inherit.sheet")), []);
    }
}
