//! Damage to a sheet's nodes: the lines keep their form, so what is refused is a value, a number of kids, a place, a
//! depth or a node that is not met.

use crate::base::{any_flag, any_kind, any_text, node_of_kind, spot, valid};
use crate::rng::Rng;
use crate::tree::{Pointers, Tree};
use crate::{extreme, wrong};
use sheet::{kind::*, Node, MAX_ATTRS, MAX_DEPTH, MAX_NODES};

/// One way to damage nodes, and what it does.
type Damage = (&'static str, fn(&mut Rng, &mut Vec<Node>));

const DAMAGES: [Damage; 25] = [
    ("a kid is missing", |rng, nodes| on_kind(rng, nodes, |rng, kids, _| drop_one(rng, kids))),
    ("all kids are missing", |rng, nodes| on_kind(rng, nodes, |_, kids, _| kids.clear())),
    ("a kid more", |rng, nodes| on_kind(rng, nodes, add_kid)),
    ("an absent kid more", |rng, nodes| on_kind(rng, nodes, |_, kids, _| kids.push(None))),
    ("a kid is absent", |rng, nodes| on_kind(rng, nodes, |rng, kids, _| replace_one(rng, kids, None))),
    ("kids are exchanged", |rng, nodes| on_kind(rng, nodes, |rng, kids, _| swap_two(rng, kids))),
    ("a kid is doubled", |rng, nodes| on_kind(rng, nodes, |rng, kids, _| double_one(rng, kids))),
    ("another kid", |rng, nodes| on_kind(rng, nodes, |rng, kids, count| other_kid(rng, kids, count))),
    ("the kids are shifted", |rng, nodes| on_kind(rng, nodes, |rng, kids, count| shift(rng, kids, count))),
    ("another kind", other_kind),
    ("another kind, and its kids as it wants them", other_kind_with_kids),
    ("two nodes are exchanged", |rng, nodes| swap_nodes(rng, nodes)),
    ("a node that nobody has", add_unmet),
    ("a node is cut off", |rng, nodes| cut_off(rng, nodes)),
    ("too deep by one", |rng, nodes| {
        let nest = rng.below(extreme::nests().len() * 2);
        *nodes = extreme::chain(rng, Some(nest).filter(|_| nest % 4 > 0), MAX_DEPTH + 1);
    }),
    ("too many attributes", |rng, nodes| {
        let node = node_of_kind(rng, nodes, ATTRPATH);
        nodes[node].kids.resize(MAX_ATTRS + 1, None);
    }),
    ("no nodes, or one too many", |rng, nodes| match rng.chance(30) {
        true => nodes.clear(),
        false => *nodes = one_too_many(rng),
    }),
    ("a kid of another kind", other_kind_of_kid),
    ("another flag", |rng, nodes| at_kind(rng, nodes, |rng, node| node.flag = any_flag(rng))),
    ("another text", |rng, nodes| at_kind(rng, nodes, |rng, node| node.text = any_text(rng))),
    ("from and to are exchanged", |rng, nodes| at_kind(rng, nodes, |_, node| std::mem::swap(&mut node.from, &mut node.to))),
    ("a flag against its kind's rule", |rng, nodes| at_kind(rng, nodes, |rng, node| node.flag = wrong::flag(rng, node.kind))),
    ("a text against its kind's rule", |rng, nodes| at_kind(rng, nodes, wrong_text)),
    ("wrong values beside wrong kids", |rng, nodes| {
        at_kind(rng, nodes, wrong_value);
        on_any(rng, nodes, |rng, kids, count| if rng.chance(50) { kids.push(None) } else { other_kid(rng, kids, count) });
    }),
    ("wrong values in nodes that nobody has", |rng, nodes| {
        let met = nodes.len();
        add_unmet(rng, nodes);
        nodes[met..].iter_mut().for_each(|node| wrong_value(rng, node));
    }),
];

/// A sheet written from damaged nodes, and what the damage is. Now and then there are two damages, and some sheets are
/// still valid.
pub fn structural(seed: u64) -> (Vec<u8>, &'static str) {
    let mut rng = Rng::new(seed ^ 0x57b0_c7b0_0000_0000);
    let mut nodes = valid(&mut rng);
    let (what, damage) = rng.pick(&DAMAGES);
    damage(&mut rng, &mut nodes);
    if rng.chance(20) && !nodes.is_empty() {
        rng.pick(&DAMAGES).1(&mut rng, &mut nodes);
    }
    (sheet::write(&nodes), what)
}

/// Damages the kids of a node of a kind by chance. The damage is told how many nodes there are.
fn on_kind(rng: &mut Rng, nodes: &mut Vec<Node>, damage: fn(&mut Rng, &mut Vec<Option<u32>>, usize)) {
    let kind = any_kind(rng);
    let node = match rng.chance(60) {
        true => node_of_kind(rng, nodes, kind),
        false => spot(rng, nodes.len()),
    };
    let count = nodes.len();
    damage(rng, &mut nodes[node].kids, count);
}

/// Damages the kids of any node.
fn on_any(rng: &mut Rng, nodes: &mut [Node], damage: fn(&mut Rng, &mut Vec<Option<u32>>, usize)) {
    let (node, count) = (spot(rng, nodes.len()), nodes.len());
    damage(rng, &mut nodes[node].kids, count);
}

fn at_kind(rng: &mut Rng, nodes: &mut Vec<Node>, damage: fn(&mut Rng, &mut Node)) {
    let kind = if rng.chance(50) { any_kind(rng) } else { rng.pick(&[FLOAT, INTEGER, BIN_OP, ATTR_SET, UNARY_OP, IDENT, PATTERN]) };
    let node = node_of_kind(rng, nodes, kind);
    damage(rng, &mut nodes[node]);
}

fn wrong_text(rng: &mut Rng, node: &mut Node) {
    if let Some(text) = wrong::text(rng, node.kind, node.flag) {
        node.text = text;
    }
}

/// Gives a node a flag, a text or a place that it must not have. A text that may be any stays.
fn wrong_value(rng: &mut Rng, node: &mut Node) {
    match rng.below(3) {
        0 => node.flag = wrong::flag(rng, node.kind),
        1 => wrong_text(rng, node),
        _ => (node.from, node.to) = (node.to.max(1), node.from.min(node.to.saturating_sub(1))),
    }
}

fn drop_one(rng: &mut Rng, kids: &mut Vec<Option<u32>>) {
    if !kids.is_empty() {
        kids.remove(spot(rng, kids.len()));
    }
}

fn add_kid(rng: &mut Rng, kids: &mut Vec<Option<u32>>, count: usize) {
    let kid = rng.below(count) as u32;
    let last = kids.iter().flatten().last().map_or(kid, |last| last + 1);
    let at = spot(rng, kids.len() + 1);
    kids.insert(at, Some(rng.pick(&[kid, last, 0])));
}

fn replace_one(rng: &mut Rng, kids: &mut [Option<u32>], kid: Option<u32>) {
    let at = spot(rng, kids.len());
    if let Some(place) = kids.get_mut(at) {
        *place = kid;
    }
}

fn swap_two(rng: &mut Rng, kids: &mut [Option<u32>]) {
    if !kids.is_empty() {
        kids.swap(rng.below(kids.len()), spot(rng, kids.len()));
    }
}

fn double_one(rng: &mut Rng, kids: &mut Vec<Option<u32>>) {
    let at = spot(rng, kids.len());
    if let Some(&kid) = kids.get(at) {
        kids.insert(at, kid);
    }
}

/// A kid that is far off, out of range or met before.
fn other_kid(rng: &mut Rng, kids: &mut [Option<u32>], count: usize) {
    let count = count as u32;
    let drawn = rng.below(count as usize) as u32;
    let kid = rng.pick(&[0, 1, drawn, count.saturating_sub(1), count, count + 1, u32::MAX]);
    replace_one(rng, kids, Some(kid));
}

/// Kids one higher or one lower from some place on.
fn shift(rng: &mut Rng, kids: &mut [Option<u32>], count: usize) {
    let start = spot(rng, kids.len());
    let up = rng.chance(50);
    for kid in kids.iter_mut().skip(start).flatten() {
        *kid = if up { (*kid + 1).min(count as u32) } else { kid.saturating_sub(1) };
    }
}

/// Makes a node another kind, with a flag and a text that the kind allows, so that only its kids or its place are at
/// fault.
fn other_kind(rng: &mut Rng, nodes: &mut Vec<Node>) {
    let from = any_kind(rng);
    let node = if rng.chance(60) { node_of_kind(rng, nodes, from) } else { spot(rng, nodes.len()) };
    make_kind(&mut nodes[node], any_kind(rng));
}

fn make_kind(node: &mut Node, kind: u8) {
    node.kind = kind;
    node.flag = 0;
    node.text = if kind == INTEGER { b"0".to_vec() } else { Vec::new() };
}

/// Makes a kid another kind, so that every place meets what it does not take.
fn other_kind_of_kid(rng: &mut Rng, nodes: &mut Vec<Node>) {
    let parent = any_kind(rng);
    let parent = node_of_kind(rng, nodes, parent);
    let kids: Vec<u32> = nodes[parent].kids.iter().copied().flatten().collect();
    let kid = kids.get(spot(rng, kids.len())).map(|&kid| kid as usize);
    if let Some(kid) = kid.and_then(|kid| nodes.get_mut(kid)) {
        make_kind(kid, any_kind(rng));
    }
}

fn one_too_many(rng: &mut Rng) -> Vec<Node> {
    let items = vec![Tree::leaf(ERROR); MAX_NODES - 1];
    Tree::full(ROOT, vec![Tree::full(LIST, items)]).nodes(rng, Pointers::Small)
}

/// The same, with as many kids as the kind counts, all absent: then what is refused is a place or the nodes that are
/// lost.
fn other_kind_with_kids(rng: &mut Rng, nodes: &mut Vec<Node>) {
    let before = nodes.clone();
    other_kind(rng, nodes);
    let changed = (0..nodes.len()).find(|&node| before.get(node) != nodes.get(node)).unwrap_or(0);
    let kids = match nodes[changed].kind {
        IF_ELSE | SELECT => 3,
        APPLY | WITH | HAS_ATTR | LAMBDA | BIN_OP | ASSERT | ATTRPATH_VALUE | PAT_ENTRY => 2,
        LET_IN | PAREN | UNARY_OP | ROOT | DYNAMIC | INHERIT | INHERIT_FROM | IDENT_PARAM | PATTERN | PAT_BIND | INTERPOLATION => 1,
        _ => 0,
    };
    nodes[changed].kids.resize(kids, None);
}

fn swap_nodes(rng: &mut Rng, nodes: &mut [Node]) {
    let (one, other) = (spot(rng, nodes.len()), spot(rng, nodes.len()));
    nodes.swap(one, other);
}

/// One to three nodes after the last, alone or each the kid of the one before.
fn add_unmet(rng: &mut Rng, nodes: &mut Vec<Node>) {
    for _ in 0..rng.between(1, 3) {
        let kid = nodes.len() as u32 + 1;
        let kids = vec![Some(kid).filter(|_| rng.chance(50))];
        nodes.push(Node { kind: PAREN, from: 0, to: 0, flag: 0, kids, text: Vec::new() });
    }
    // The last one's kid would be out of range.
    if let Some(last) = nodes.last_mut().filter(|_| rng.chance(80)) {
        last.kids = vec![None];
    }
}

/// A node loses one of its kids' numbers to an absent place, so that the kid and all inside it are missed.
fn cut_off(rng: &mut Rng, nodes: &mut [Node]) {
    let lost = match rng.chance(50) {
        true => nodes.len() - 1,
        false => spot(rng, nodes.len()),
    } as u32;
    for kid in nodes.iter_mut().flat_map(|node| node.kids.iter_mut()) {
        if *kid == Some(lost) {
            *kid = None;
        }
    }
    // In half of them the items of lists are taken out, since an absent item is refused for itself.
    if rng.chance(50) {
        for node in nodes.iter_mut().filter(|node| matches!(node.kind, STR | PATH | LIST | ATTR_SET | ATTRPATH)) {
            node.kids.retain(Option::is_some);
        }
    }
}
