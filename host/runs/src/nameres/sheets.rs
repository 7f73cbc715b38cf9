//! Large sheets for which finding a name takes long: many scopes around a use, or many names in one scope.

use crate::lower::sheets::{entry, tree};
use crate::lower::Named;
use generate::tree::Tree;
use sheet::kind::*;
use sheet::MAX_NODES;

/// All of them.
pub fn large() -> Vec<Named> {
    vec![
        tree("250 nested lets, uses of all of them in the innermost body", nested_lets(250, |use_| use_ % 250)),
        tree("250 nested lets, uses of none of them in the innermost body", nested_lets(250, |_| 250)),
        tree("a pattern of 1,300 fields, each with another as its default", pattern(1_300)),
        tree("a rec set of 1,020 keys, each with another as its value", rec_set(1_020)),
        tree("a rec set of 4,093 inherited names, their uses outside", inheriting_set(MAX_NODES - 3)),
        tree("a let of 3,992 inherited names, 100 uses of them", inheriting_let(3_992, |use_| other(use_, 3_992))),
        tree("a let of 2,046 inherited names, 2,046 uses of them", inheriting_let(2_046, |use_| other(use_, 2_046))),
        tree("a let of 2,046 inherited names, 2,046 uses of none of them", inheriting_let(2_046, |_| 2_046)),
        tree("a parameter with 4,091 uses", parameter()),
        tree("253 nested Withs, 3,588 uses in the innermost body", nested_withs(253)),
    ]
}

/// The text of a number, of one length for all, so that the order of texts is that of the numbers.
fn text(number: usize) -> Vec<u8> {
    format!("key{number:04}").into_bytes()
}

fn ident(number: usize) -> Tree {
    Tree::ident(&text(number))
}

/// Another number below `count`, not in the order of the numbers. `count` has no factor in common with 37.
fn other(number: usize, count: usize) -> usize {
    (37 * number + 11) % count
}

/// A list of uses that fills a sheet in which the rest, with the root and the list, takes so many nodes.
fn uses(rest: usize, used: impl Fn(usize) -> usize) -> Tree {
    uses_of(rest, &text, used)
}

fn uses_of(rest: usize, text: &dyn Fn(usize) -> Vec<u8>, used: impl Fn(usize) -> usize) -> Tree {
    Tree::full(LIST, (0..MAX_NODES - rest).map(|use_| Tree::ident(&text(used(use_)))).collect())
}

fn nested_lets(levels: usize, used: impl Fn(usize) -> usize) -> Tree {
    // A let, its entry, the path and the key are four nodes.
    let innermost = uses(4 * levels + 2, used);
    (0..levels).rev().fold(innermost, |inner, level| Tree::full(LET_IN, vec![inner, entry(vec![ident(level)], None)]))
}

fn parameter() -> Tree {
    Tree::full(LAMBDA, vec![Tree::full(IDENT_PARAM, vec![ident(0)]), uses(5, |_| 0)])
}

fn pattern(fields: usize) -> Tree {
    let field = |number| Some(Tree::full(PAT_ENTRY, vec![ident(number), ident(other(number, fields))]));
    let entries = std::iter::once(None).chain((0..fields).map(field)).collect();
    Tree::full(LAMBDA, vec![Tree::new(PATTERN, entries), ident(0)])
}

fn rec_set(keys: usize) -> Tree {
    let keyed = |number| entry(vec![ident(number)], Some(ident(other(number, keys))));
    Tree::full(ATTR_SET, (0..keys).map(keyed).collect()).flagged(1)
}

fn inherit(names: usize, text: &dyn Fn(usize) -> Vec<u8>) -> Tree {
    let names = (0..names).map(|number| Some(Tree::ident(&text(number))));
    Tree::new(INHERIT, std::iter::once(None).chain(names).collect())
}

fn inheriting_set(names: usize) -> Tree {
    Tree::full(ATTR_SET, vec![inherit(names, &text)]).flagged(1)
}

fn inheriting_let(names: usize, used: impl Fn(usize) -> usize) -> Tree {
    inheriting_let_of(names, &text, used)
}

/// A let of so many inherited names, and uses of them that fill the sheet; `text` gives the text of a number.
pub fn inheriting_let_of(names: usize, text: &dyn Fn(usize) -> Vec<u8>, used: impl Fn(usize) -> usize) -> Tree {
    Tree::full(LET_IN, vec![uses_of(names + 4, text, used), inherit(names, text)])
}

fn nested_withs(levels: usize) -> Tree {
    let innermost = uses(2 * levels + 2, |_| 1);
    (0..levels).fold(innermost, |inner, _| Tree::full(WITH, vec![ident(0), inner]))
}

#[cfg(test)]
mod tests {
    use super::*;
    use crate::lower::assert_accepted;

    #[test]
    fn all_are_accepted_and_large() {
        assert_accepted(large());
        for Named { name, nodes } in large() {
            assert!(nodes.len() > 3_900, "{name} has {} nodes", nodes.len());
        }
    }
}
