//! Sheets at the limits: chains to a depth, long lists, deep merging, many Withs, long texts.

use crate::names::{Names, BUILTINS};
use crate::rng::Rng;
use crate::tree::{Pointers, Tree};
use sheet::{kind::*, Node, MAX_ATTRS, MAX_BYTES, MAX_NODES};

/// A way to put an expression into another: its name, and the expression around the inner one.
type Nest = (&'static str, fn(Tree) -> Tree);

fn around(kind: u8, inner: Tree) -> Tree {
    Tree::full(kind, vec![inner])
}

fn before(kind: u8, inner: Tree, text: &[u8]) -> Tree {
    Tree::full(kind, vec![inner, Tree::ident(text)])
}

fn after(kind: u8, text: &[u8], inner: Tree) -> Tree {
    Tree::full(kind, vec![Tree::ident(text), inner])
}

fn set(path: Tree, value: Option<Tree>, rec: u8) -> Tree {
    around(ATTR_SET, Tree::new(ATTRPATH_VALUE, vec![Some(path), value])).flagged(rec)
}

fn pattern(default: Tree) -> Tree {
    let entry = Tree::full(PAT_ENTRY, vec![Tree::ident(b"x"), default]);
    Tree::full(PATTERN, vec![Tree::full(PAT_BIND, vec![Tree::ident(b"y")]), entry])
}

const NESTS: [Nest; 31] = [
    ("Paren", |inner| around(PAREN, inner)),
    ("Root", |inner| around(ROOT, inner)),
    ("UnaryOp", |inner| around(UNARY_OP, inner).flagged(1)),
    ("List", |inner| around(LIST, inner)),
    ("Lambda", |inner| Tree::full(LAMBDA, vec![Tree::full(IDENT_PARAM, vec![Tree::ident(b"x")]), inner])),
    ("pattern default", |inner| Tree::full(LAMBDA, vec![pattern(inner), Tree::ident(b"x")])),
    ("With body", |inner| after(WITH, b"x", inner)),
    ("With namespace", |inner| before(WITH, inner, b"x")),
    ("let body", |inner| {
        let entry = Tree::full(ATTRPATH_VALUE, vec![Tree::path(&[b"x"]), Tree::ident(b"x")]);
        Tree::full(LET_IN, vec![inner, entry])
    }),
    ("let value", |inner| {
        let entry = Tree::full(ATTRPATH_VALUE, vec![Tree::path(&[b"x"]), inner]);
        Tree::full(LET_IN, vec![Tree::ident(b"x"), entry])
    }),
    ("let source", |inner| {
        let from = Tree::full(INHERIT, vec![around(INHERIT_FROM, inner), Tree::ident(b"x")]);
        Tree::full(LET_IN, vec![Tree::ident(b"x"), from])
    }),
    ("set value", |inner| set(Tree::path(&[b"a"]), Some(inner), 0)),
    ("rec value", |inner| set(Tree::path(&[b"x"]), Some(inner), 1)),
    ("path value", |inner| set(Tree::path(&[b"a", b"b", b"a"]), Some(inner), 0)),
    ("dynamic key", |inner| set(around(ATTRPATH, around(DYNAMIC, inner)), None, 0)),
    ("interpolated key", |inner| set(around(ATTRPATH, around(STR, around(INTERPOLATION, inner))), None, 0)),
    ("Apply function", |inner| before(APPLY, inner, b"x")),
    ("Apply argument", |inner| after(APPLY, b"map", inner)),
    ("if", |inner| Tree::new(IF_ELSE, vec![Some(inner), None, None])),
    ("then", |inner| Tree::new(IF_ELSE, vec![None, Some(inner), None])),
    ("else", |inner| Tree::new(IF_ELSE, vec![None, None, Some(inner)])),
    ("Select set", |inner| Tree::new(SELECT, vec![Some(inner), Some(Tree::path(&[b"a"])), None])),
    ("Select default", |inner| Tree::full(SELECT, vec![Tree::ident(b"x"), Tree::path(&[b"a"]), inner])),
    ("HasAttr", |inner| Tree::full(HAS_ATTR, vec![inner, Tree::path(&[b"a", b"b"])])),
    ("left", |inner| before(BIN_OP, inner, b"x").flagged(7)),
    ("right", |inner| after(BIN_OP, b"x", inner).flagged(15)),
    ("left of none", |inner| before(BIN_OP, inner, b"x")),
    ("condition", |inner| before(ASSERT, inner, b"x")),
    ("Assert body", |inner| after(ASSERT, b"true", inner)),
    ("Str", |inner| around(STR, around(INTERPOLATION, inner))),
    ("Path", |inner| around(PATH, around(INTERPOLATION, inner)).with_text(b"./x")),
];

/// The names of the ways to nest that `chain` knows.
pub fn nests() -> Vec<&'static str> {
    NESTS.iter().map(|nest| nest.0).collect()
}

/// A sheet of exactly this depth: one way of nesting in itself, by its number, or all of them mixed.
pub fn chain(rng: &mut Rng, nest: Option<usize>, depth: usize) -> Vec<Node> {
    let mut tree = Tree::ident(b"x");
    while tree.height() + 6 < depth {
        let nest = nest.unwrap_or_else(|| rng.below(NESTS.len()));
        tree = NESTS[nest % NESTS.len()].1(tree);
    }
    while tree.height() + 1 < depth {
        tree = around(PAREN, tree);
    }
    around(ROOT, tree).nodes(rng, Pointers::Nested)
}

/// A list as long as a sheet of so many nodes can hold, of one of nine sorts: the first nine with all keys different,
/// the next nine with many equal.
pub fn wide(rng: &mut Rng, sort: usize, nodes: usize) -> Tree {
    let names = Names::new(rng, 900);
    let differ = sort % 18 < 9;
    let mut key = |number: usize| match differ {
        // An odd factor goes through all numbers below 4,096, and not in their order.
        true => Tree::ident(format!("k{}", number * 2_731 % MAX_NODES).as_bytes()),
        false => Tree::ident(&names.key(rng)),
    };
    let mut many = |count: usize| (0..count).map(&mut key).collect::<Vec<_>>();
    let keyed = |keys: Vec<Tree>| {
        let entry = |key| Tree::new(ATTRPATH_VALUE, vec![Some(around(ATTRPATH, key)), None]);
        keys.into_iter().map(|key| Some(entry(key))).collect::<Vec<_>>()
    };
    let inherit =
        |from: Option<Tree>, keys: Vec<Tree>| Tree::new(INHERIT, std::iter::once(from).chain(keys.into_iter().map(Some)).collect());
    let body = || Some(Tree::ident(b"x"));
    match sort % 9 {
        0 => around(ATTR_SET, inherit(None, many(nodes - 3))),
        1 => Tree::full(LIST, many(nodes - 2)),
        2 => Tree::new(ATTR_SET, keyed(many(1_300 * nodes / MAX_NODES))).flagged(1),
        3 => Tree::new(LET_IN, std::iter::once(body()).chain(keyed(many(1_364 * nodes / MAX_NODES))).collect()),
        4 => around(ATTR_SET, inherit(Some(Tree::full(INHERIT_FROM, vec![Tree::ident(b"x")])), many(nodes - 5))).flagged(1),
        5 => {
            let entries = many(2_045 * nodes / MAX_NODES).into_iter().map(|ident| Some(Tree::new(PAT_ENTRY, vec![Some(ident), None])));
            Tree::new(LAMBDA, vec![Some(Tree::new(PATTERN, std::iter::once(None).chain(entries).collect())), body()])
        }
        6 => Tree::full(STR, (0..nodes - 2).map(|_| Tree::leaf(LITERAL_PART).with_text(b"s")).collect()),
        7 => Tree::new(LET_IN, vec![body(), Some(inherit(None, many(nodes - 4)))]),
        _ => Tree::full(ATTR_SET, (0..nodes - 2).map(|_| Tree::new(INHERIT, vec![None])).collect()),
    }
}

/// Sets nested in one merging state: a path of so many attributes, then a set merged at the last but one of them, and
/// so on inside it. With 16 attributes each level takes 36 nodes and nests 15 sets, some 1,700 in a whole sheet.
pub fn merging(rng: &mut Rng, attributes: usize, nodes: usize) -> Tree {
    let attributes = attributes.clamp(2, MAX_ATTRS);
    let names = Names::new(rng, 5);
    let levels = (nodes - 3) / (2 * attributes + 4);
    let mut inner = around(ATTR_SET, Tree::new(ATTRPATH_VALUE, vec![Some(Tree::path(&[b"x"])), Some(Tree::ident(b"x"))]));
    // An entry and its set are two levels, and the sheet has 256.
    for _ in 1..levels.min(125) {
        let path: Vec<Tree> = (0..attributes).map(|_| Tree::ident(&names.key(rng))).collect();
        let first = Tree::new(ATTRPATH_VALUE, vec![Some(Tree::full(ATTRPATH, path.clone())), None]);
        let merged = path[..attributes - 1].to_vec();
        let second = Tree::full(ATTRPATH_VALUE, vec![Tree::full(ATTRPATH, merged), inner]);
        inner = Tree::full(ATTR_SET, vec![first, second]).flagged(u8::from(rng.chance(30)));
    }
    inner
}

/// Sets in sets, each below a path of 16 attributes: so many levels of 19 nodes and 16 sets.
pub fn paths(levels: usize) -> Tree {
    (0..levels).fold(Tree::ident(b"x"), |inner, _| set(Tree::path(&[b"a" as &[u8]; MAX_ATTRS]), Some(inner), 0))
}

/// So many Withs around a list of references. 253 are the most: Root, the list and its items take the other levels.
pub fn withs(rng: &mut Rng, withs: usize, references: usize) -> Tree {
    let texts: [&[u8]; 6] = [b"free", b"nowhere", b"fre", BUILTINS[14], b"x", b""];
    let mut inner = Tree::full(LIST, (0..references).map(|_| Tree::ident(rng.pick(&texts))).collect());
    for _ in 0..withs {
        inner = after(WITH, rng.pick(&texts), inner);
    }
    inner
}

/// One text of over 500,000 bytes, in each kind that can have one.
pub fn long_text(rng: &mut Rng, sort: usize) -> Tree {
    let length = rng.between(500_001, 520_000);
    let text: Vec<u8> = (0..length).map(|_| rng.draw() as u8).collect();
    let digits: Vec<u8> = text.iter().map(|byte| b'0' + byte % 10).collect();
    match sort % 6 {
        0 => Tree::ident(&text),
        1 => Tree::full(LAMBDA, vec![Tree::full(IDENT_PARAM, vec![Tree::ident(&text)]), Tree::ident(b"x")]),
        2 => set(around(ATTRPATH, around(STR, Tree::leaf(LITERAL_PART).with_text(&text))), Some(Tree::ident(b"x")), 1),
        3 => Tree::leaf(PATH).with_text(&text),
        4 => Tree::leaf(INTEGER).with_text(&digits),
        _ => {
            // Two keys that differ in their last byte alone.
            let (one, mut other) = (text[..250_000].to_vec(), text[..250_000].to_vec());
            other[249_999] ^= 1;
            around(ATTR_SET, Tree::new(INHERIT, vec![None, Some(Tree::ident(&one)), Some(Tree::ident(&other))]))
        }
    }
}

/// The nodes of a sheet of exactly so many bytes, at least 200: an Ident with a long text.
pub fn exactly(bytes: usize) -> Vec<Node> {
    let node = |kind, to, kids| Node { kind, from: 0, to, flag: u8::from(kind == IDENT), kids, text: Vec::new() };
    let mut nodes = vec![node(ROOT, 9, vec![Some(1)]), node(IDENT, 9, Vec::new())];
    let missing = bytes.saturating_sub(sheet::write(&nodes).len());
    // A text takes two digits a byte; an odd one is made up for by one more digit elsewhere.
    nodes[0].to = if missing.is_multiple_of(2) { 9 } else { 10 };
    nodes[1].text = vec![b'x'; missing / 2];
    nodes
}

/// The same as bytes.
pub fn exactly_written(bytes: usize) -> Vec<u8> {
    let mut nodes = exactly(bytes);
    let text = std::mem::take(&mut nodes[1].text);
    // The text's line is the last one. Its digits are put in here at once, since one by one they take long.
    let mut written = sheet::write(&nodes);
    written.pop();
    written.extend(b"78".repeat(text.len()));
    written.push(b'\n');
    written
}

/// A sheet that is in order but for its length, one byte over the limit.
pub fn over_long() -> Vec<u8> {
    exactly_written(MAX_BYTES + 1)
}
