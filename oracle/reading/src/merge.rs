//! Document 01, "Lowering", the rules on sets and lets: keys in byte order, paths that make nested sets, sets that
//! merge, inherits, dynamics and duplicates.
//!
//! The state of merging one explicit set or let is a list of numbered sets (number 0 is the explicit one, each further
//! one was made by a path) and of entries, each known by its set's number and its key. No set holds another, so that a
//! nested set can be found and added to by its number; only at the end are they built, from the inside out and in key
//! order. An inner explicit set has a state of its own.

use std::collections::BTreeMap;

use canon::{BindingValue, Bindings, Expr, ExprId, NameId, NameKind, Pointer};
use sheet::{kind, Node};

use crate::lower::{pointer, Key, Lowering, Place};

type SetNumber = usize;

/// The explicit set or let itself.
const WHOLE: SetNumber = 0;

struct Set {
    /// The kind of the names made in it.
    kind: NameKind,
    pointer: Pointer,
    sources: Vec<ExprId>,
    dynamics: Vec<(ExprId, ExprId)>,
}

struct Entry {
    name: NameId,
    nested: Option<SetNumber>,
    value: Option<BindingValue>,
}

pub(crate) struct Merging {
    sets: Vec<Set>,
    /// "A set keeps statics in byte order of key": the map's order of byte lists.
    entries: BTreeMap<(SetNumber, Vec<u8>), Entry>,
}

impl Merging {
    /// The bindings of an explicit set or let.
    pub(crate) fn of(low: &mut Lowering, kind: NameKind, pointer: Pointer, entries: &[Place]) -> Bindings {
        let mut state = Merging::new(kind, pointer);
        state.merge(low, WHOLE, entries);
        state.bindings(low, WHOLE)
    }

    fn new(kind: NameKind, pointer: Pointer) -> Merging {
        let mut state = Merging { sets: Vec::new(), entries: BTreeMap::new() };
        state.add_set(kind, pointer);
        state
    }

    fn add_set(&mut self, kind: NameKind, pointer: Pointer) -> SetNumber {
        self.sets.push(Set { kind, pointer, sources: Vec::new(), dynamics: Vec::new() });
        self.sets.len() - 1
    }

    fn merge(&mut self, low: &mut Lowering, set: SetNumber, entries: &[Place]) {
        for &place in entries {
            let entry = low.item(place);
            if entry.kind == kind::INHERIT {
                self.inherit(low, set, entry);
            } else {
                let attrs = entry.kids[0].map_or(&[][..], |path| &low.node(path).kids);
                self.path_value(low, set, attrs, entry.kids[1]);
            }
        }
    }
}

/// Paths and their values.
impl Merging {
    /// Names of static attributes but the last come before the value, where the key is new (D11).
    fn path_value(&mut self, low: &mut Lowering, set: SetNumber, attrs: &[Place], value: Place) {
        let Some((&last, before)) = attrs.split_last() else {
            // No path, or one of no attributes, is a dynamic: Missing key, then the value (D5).
            return self.dynamic(low, set, None, value);
        };
        let mut at = set;
        for (i, &attr) in before.iter().enumerate() {
            let made_by = pointer(low.item(attr));
            match low.key(attr) {
                Key::Static(key) => at = self.nested(low, at, key, made_by),
                Key::Dynamic(key) => return self.below_dynamic(low, at, key, made_by, (&attrs[i + 1..], value)),
            }
        }
        self.last_attribute(low, at, last, value);
    }

    fn last_attribute(&mut self, low: &mut Lowering, set: SetNumber, attr: Place, value: Place) {
        let key = match low.key(attr) {
            Key::Static(key) => key,
            Key::Dynamic(key) => return self.dynamic(low, set, key, value),
        };
        // "a value AttrSet, not in Parens, merges into a nested set already there and its rec is dropped": it gets no
        // expression of its own, and its names are of the nested set's kind.
        if let (Some(entries), Some(nested)) = (low.set_value(value), self.nested_at(set, &key)) {
            return self.merge(low, nested, entries);
        }
        let value = low.expr(value);
        self.put(low, set, key, pointer(low.item(attr)), BindingValue::Expr(value));
    }

    /// "A Dynamic key ... At the end: key, then value."
    fn dynamic(&mut self, low: &mut Lowering, set: SetNumber, key: Place, value: Place) {
        let key = low.expr(key);
        let value = low.expr(value);
        self.sets[set].dynamics.push((key, value));
    }

    /// "A Dynamic key before the end of a path: nested set first, key second." What follows the key is built at once
    /// (D11) and can be merged with nothing, so it has a state of its own.
    fn below_dynamic(&mut self, low: &mut Lowering, set: SetNumber, key: Place, made_by: Pointer, rest: (&[Place], Place)) {
        let mut below = Merging::new(NameKind::PlainAttrset, made_by);
        below.path_value(low, WHOLE, rest.0, rest.1);
        let nested = below.build(low, WHOLE);
        let key = low.expr(key);
        self.sets[set].dynamics.push((key, nested));
    }
}

/// Inherits.
impl Merging {
    /// The source comes first and is listed even where no attribute follows (D12).
    fn inherit(&mut self, low: &mut Lowering, set: SetNumber, node: &Node) {
        let (from, attrs) = node.kids.split_first().expect("an Inherit has its from's place");
        let source = from.map(|from| low.expr(low.node(from).kids[0]));
        self.sets[set].sources.extend(source);
        for &attr in attrs {
            match low.key(attr) {
                Key::Static(key) => self.inherited(low, set, source, key, pointer(low.item(attr))),
                // "A dynamic inherited one: a Missing key and its value", the value being what would make the key.
                Key::Dynamic(value) => self.dynamic(low, set, None, value),
            }
        }
    }

    /// "Inherit-from attributes give a text literal, then a Select"; a plain one a Reference (D7). All have the
    /// attribute's pointer (D10), and come before the name (D11).
    fn inherited(&mut self, low: &mut Lowering, set: SetNumber, source: Option<ExprId>, key: Vec<u8>, at: Pointer) {
        let value = match source {
            None => BindingValue::Inherit(low.alloc(Expr::Reference(key.clone()), Some(at))),
            Some(source) => {
                let text = low.alloc(Expr::Literal(canon::Literal::Text(key.clone())), Some(at));
                let select = Expr::Select { set: source, attrpath: vec![text], default_expr: None };
                BindingValue::InheritFrom(low.alloc(select, Some(at)))
            }
        };
        self.put(low, set, key, at, value);
    }
}

/// Entries.
impl Merging {
    fn nested_at(&self, set: SetNumber, key: &[u8]) -> Option<SetNumber> {
        self.entries.get(&(set, key.to_vec()))?.nested
    }

    /// "Any other second value at a key adds a DuplicateKey (first: the name's pointer) and replaces the value; a
    /// nested set still wins."
    ///
    /// Second is each value at a key that is there already, be it by a value, a path or an inherit, and also where a
    /// path dropped the first value.
    fn put(&mut self, low: &mut Lowering, set: SetNumber, key: Vec<u8>, at: Pointer, value: BindingValue) {
        if let Some(entry) = self.entries.get_mut(&(set, key.clone())) {
            entry.value = Some(value);
            return low.duplicate(key, entry.name, at);
        }
        let name = low.alloc_name(key.clone(), self.sets[set].kind, at);
        self.entries.insert((set, key), Entry { name, nested: None, value: Some(value) });
    }

    /// The nested set of a key, made where there is none: "A path makes nested sets of kind PlainAttrset". It has the
    /// pointer of the attribute that made it (D10). "A path after a value makes the nested set, drops the value and
    /// adds no diagnostic."
    fn nested(&mut self, low: &mut Lowering, set: SetNumber, key: Vec<u8>, made_by: Pointer) -> SetNumber {
        if let Some(nested) = self.nested_at(set, &key) {
            return nested;
        }
        let made = self.add_set(NameKind::PlainAttrset, made_by);
        let kind = self.sets[set].kind;
        let new = |low: &mut Lowering, text| Entry { name: low.alloc_name(text, kind, made_by), nested: None, value: None };
        let entry = self.entries.entry((set, key.clone())).or_insert_with(|| new(low, key));
        entry.nested = Some(made);
        entry.value = None;
        made
    }
}

/// Building.
impl Merging {
    /// "Nested sets are built when the whole set ends, in key order", and a set after those inside it.
    fn bindings(&self, low: &mut Lowering, set: SetNumber) -> Bindings {
        let mut statics = Vec::new();
        let own = self.entries.range((set, Vec::new())..).take_while(|((owner, _), _)| *owner == set);
        for (_, entry) in own {
            let value = match (entry.nested, entry.value) {
                (Some(nested), _) => BindingValue::Expr(self.build(low, nested)),
                (None, Some(value)) => value,
                (None, None) => unreachable!("an entry is made with a nested set or a value"),
            };
            statics.push((entry.name, value));
        }
        Bindings { statics, inherit_froms: self.sets[set].sources.clone(), dynamics: self.sets[set].dynamics.clone() }
    }

    /// The expression of a set that a path made: never rec.
    fn build(&self, low: &mut Lowering, set: SetNumber) -> ExprId {
        let bindings = self.bindings(low, set);
        low.alloc(Expr::AttrSet { is_rec: false, bindings }, Some(self.sets[set].pointer))
    }
}
