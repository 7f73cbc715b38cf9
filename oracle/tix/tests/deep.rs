//! Random and deepest accepted sheets: nothing panics, and numbers keep to their limits.

mod common;

use canon::{Expr, Facts, Reading};
use generate::Preset;
use sheet::{kind::*, Node};
use tix::{with_big_stack, Tix};

fn node(kind: u8, text: &[u8]) -> Node {
    Node { kind, from: 0, to: 0, flag: u8::from(kind == IDENT), kids: Vec::new(), text: text.to_vec() }
}

/// Nodes in preorder, each added below one that is there already.
struct Builder(Vec<Node>);

impl Builder {
    fn new() -> Self {
        Builder(vec![node(ROOT, b"")])
    }

    fn add(&mut self, parent: u32, kind: u8, text: &[u8]) -> u32 {
        let number = self.0.len() as u32;
        self.0.push(node(kind, text));
        self.0[parent as usize].kids.push(Some(number));
        number
    }

    fn absent(&mut self, parent: u32) {
        self.0[parent as usize].kids.push(None);
    }

    /// An entry with a path of so many times `a`; its value is still to be added.
    fn entry(&mut self, set: u32, attributes: usize) -> u32 {
        let entry = self.add(set, ATTRPATH_VALUE, b"");
        let path = self.add(entry, ATTRPATH, b"");
        for _ in 0..attributes {
            self.add(path, IDENT, b"a");
        }
        entry
    }
}

/// The number of nodes from the root to the deepest.
fn depth(nodes: &[Node]) -> usize {
    let mut depths = vec![1; nodes.len()];
    for (number, node) in nodes.iter().enumerate() {
        for kid in node.kids.iter().flatten() {
            depths[*kid as usize] = depths[number] + 1;
        }
    }
    depths.into_iter().max().unwrap_or(0)
}

/// How deep sets lie in sets along first statics.
fn set_depth(facts: &Facts) -> usize {
    let mut levels = 0;
    let mut expr = facts.module.entry;
    while let Expr::AttrSet { bindings, .. } = &facts.module.exprs[expr as usize] {
        levels += 1;
        match bindings.statics.first() {
            Some((_, canon::BindingValue::Expr(e))) => expr = *e,
            _ => break,
        }
    }
    levels
}

#[test]
fn two_thousand_levels_of_expressions() {
    let mut sheet = Builder::new();
    let mut set = sheet.add(0, ATTR_SET, b"");
    for _ in 0..126 {
        let entry = sheet.entry(set, 16);
        set = sheet.add(entry, ATTR_SET, b"");
    }
    assert!(depth(&sheet.0) <= 256 && sheet.0.len() <= 4_096);
    let facts = with_big_stack(|| Tix::new(&sheet.0).facts());
    assert_eq!(set_depth(&facts), 126 * 16 + 1);
}

#[test]
fn seventeen_hundred_levels_in_one_merging_state() {
    let mut sheet = Builder::new();
    let mut set = sheet.add(0, ATTR_SET, b"");
    for _ in 0..113 {
        // A path of sixteen makes fifteen nested sets; a set at the fifteenth merges into that one.
        let first = sheet.entry(set, 16);
        sheet.absent(first);
        let second = sheet.entry(set, 15);
        set = sheet.add(second, ATTR_SET, b"");
    }
    assert!(depth(&sheet.0) <= 256 && sheet.0.len() <= 4_096);
    let facts = with_big_stack(|| Tix::new(&sheet.0).facts());
    assert_eq!((set_depth(&facts), facts.module.diagnostics.len()), (113 * 15 + 1, 0));
}

#[test]
fn four_thousand_keys_of_one_inherit() {
    let mut sheet = Builder::new();
    let set = sheet.add(0, ATTR_SET, b"");
    let inherit = sheet.add(set, INHERIT, b"");
    sheet.absent(inherit);
    for key in 0..4_093 {
        sheet.add(inherit, IDENT, key.to_string().as_bytes());
    }
    let facts = with_big_stack(|| Tix::new(&sheet.0).facts());
    assert_eq!((sheet.0.len(), facts.module.names.len(), facts.resolution.answers.len()), (4_096, 4_093, 4_093));
}

#[test]
fn a_chain_of_256_of_each_kind() {
    for kind in [APPLY, LIST, PAREN, UNARY_OP, WITH, ASSERT, SELECT, BIN_OP, ROOT] {
        let mut sheet = Builder::new();
        let mut parent = 0;
        for _ in 1..256 {
            parent = sheet.add(parent, kind, b"");
            sheet.0[parent as usize].flag = u8::from(matches!(kind, UNARY_OP | BIN_OP));
        }
        let places = match kind {
            SELECT => 3,
            APPLY | WITH | ASSERT | BIN_OP => 2,
            LIST => 0,
            _ => 1,
        };
        for node in &mut sheet.0[1..] {
            node.kids.resize(places.max(node.kids.len()), None);
        }
        let edges = with_big_stack(|| {
            let tix = Tix::new(&sheet.0);
            tix.facts();
            tix.edges()
        });
        assert_eq!((depth(&sheet.0), edges), (256, Ok(vec![])), "kind {kind}");
    }
}

/// What holds of every accepted sheet.
fn check(nodes: &[Node], facts: &Facts) {
    let module = &facts.module;
    assert!(module.exprs.len() <= 4 * nodes.len() && module.names.len() <= nodes.len() && facts.scopes.scopes.len() <= nodes.len());
    assert!(facts.scopes.scopes.iter().enumerate().all(|(i, scope)| scope.parent.is_none_or(|parent| parent < i as u32)));
    assert_eq!(module.lost, module.diagnostics.iter().map(|d| d.first).collect::<Vec<_>>());
    for (name, list) in facts.resolution.references.iter().enumerate() {
        let kept = facts.resolution.answers.iter().filter(|(_, answer)| **answer == canon::Answer::Definition(name as u32));
        assert!(kept.map(|(expr, _)| expr).eq(list));
    }
    assert!(!facts.to_string().is_empty());
}

#[test]
fn random_sheets_are_read() {
    with_big_stack(|| {
        for seed in 0..1_500 {
            let nodes = if seed % 100 == 0 { Preset::Large } else { Preset::Small }.sheet(seed);
            check(&nodes, &Tix::new(&nodes).facts());
        }
    });
}
