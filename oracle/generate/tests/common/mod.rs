//! The places of docs/RULES.md once more, written for the tests by themselves, so that neither the generator nor the
//! judge is asked about its own mistakes.
#![allow(dead_code)]

use generate::tree::Tree;

/// The kids of each kind: a letter for a counted place, and after a star the letter of a list's items. E expression, A
/// attribute, N entry, L part, R parameter, T pattern entry, P path, F from, B bind, I ident.
pub const KIDS: [(u8, &str); 33] = [
    (1, "EE"),
    (2, "EEE"),
    (3, "EPE"),
    (4, "EE"),
    (5, "EP"),
    (6, "*L"),
    (7, "*L"),
    (8, ""),
    (9, ""),
    (10, ""),
    (11, "RE"),
    (12, "E*N"),
    (13, "*E"),
    (14, "EE"),
    (15, "E"),
    (16, "*N"),
    (17, "E"),
    (18, ""),
    (19, "EE"),
    (20, ""),
    (21, "E"),
    (22, ""),
    (23, "*A"),
    (24, "E"),
    (25, "PE"),
    (26, "F*A"),
    (27, "E"),
    (28, "I"),
    (29, "B*T"),
    (30, "I"),
    (31, "IE"),
    (32, ""),
    (33, "E"),
];

/// A place by the kind of its node and its index; the items of a list share the index after the last counted one.
#[derive(Debug, Clone, Copy, PartialEq, Eq, Hash, PartialOrd, Ord)]
pub struct Slot {
    pub kind: u8,
    pub index: usize,
    pub letter: char,
    pub item: bool,
}

/// Every place that there is.
pub fn slots() -> Vec<Slot> {
    KIDS.iter().flat_map(|&(kind, _)| slots_of(kind)).collect()
}

pub fn slots_of(kind: u8) -> Vec<Slot> {
    let (counted, items) = split(kind);
    let all = counted.chars().map(|letter| (letter, false)).chain(items.chars().map(|letter| (letter, true)));
    all.enumerate().map(|(index, (letter, item))| Slot { kind, index, letter, item }).collect()
}

fn split(kind: u8) -> (&'static str, &'static str) {
    let kids = KIDS.iter().find(|row| row.0 == kind).map_or("", |row| row.1);
    kids.split_once('*').unwrap_or((kids, ""))
}

/// The place of a kid.
pub fn slot(kind: u8, index: usize) -> Option<Slot> {
    let slots = slots_of(kind);
    slots.get(index).or_else(|| slots.last().filter(|last| last.item)).copied()
}

pub fn takes(letter: char) -> Vec<u8> {
    match letter {
        'E' => (1..=22).collect(),
        'A' => vec![6, 18, 24],
        'N' => vec![25, 26],
        'L' => vec![32, 33],
        'R' => vec![28, 29],
        'T' => vec![31],
        'P' => vec![23],
        'F' => vec![27],
        'B' => vec![30],
        'I' => vec![18],
        _ => Vec::new(),
    }
}

/// A node of this kind with all counted places absent and no items.
pub fn smallest(kind: u8) -> Tree {
    let kids = vec![None; split(kind).0.len()];
    Tree::new(kind, kids).with_text(if kind == 9 { b"0" } else { b"" })
}

/// A valid sheet's tree with this one in it, and the number that it has there.
pub fn in_context(tree: Tree) -> (Tree, usize) {
    let around: &[(u8, usize)] = match tree.kind {
        21 => return (tree, 0),
        1..=22 => &[(21, 0)],
        23 => &[(5, 1), (21, 0)],
        24 => &[(23, 0), (5, 1), (21, 0)],
        25 | 26 => &[(16, 0), (21, 0)],
        27 => &[(26, 0), (16, 0), (21, 0)],
        28 | 29 => &[(11, 0), (21, 0)],
        30 => &[(29, 0), (11, 0), (21, 0)],
        31 => &[(29, 1), (11, 0), (21, 0)],
        _ => &[(6, 0), (21, 0)],
    };
    let mut tree = tree;
    for &(kind, index) in around {
        let mut parent = smallest(kind);
        parent.kids.resize(parent.kids.len().max(index + 1), None);
        parent.kids[index] = Some(tree);
        tree = parent;
    }
    (tree, around.len())
}
