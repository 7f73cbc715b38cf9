//! That the random sheets hold what makes names hard: answers of all four sorts, keys that meet, dynamic keys,
//! inherits, patterns.

use generate::names::BUILTINS;
use generate::Preset;
use sheet::{kind::*, Node};
use std::collections::{BTreeMap, BTreeSet};

/// How often each feature is seen.
type Seen = BTreeMap<&'static str, usize>;

fn add(seen: &mut Seen, what: &'static str, times: usize) {
    *seen.entry(what).or_default() += times;
}

fn at_least(seen: &Seen, times: usize, wanted: &[&'static str]) {
    for what in wanted {
        let found = seen.get(what).copied().unwrap_or(0);
        assert!(found >= times, "{what}: {found} of {times}; {seen:?}");
    }
}

fn sheets() -> impl Iterator<Item = Vec<Node>> {
    (0..600).map(|seed| Preset::Small.sheet(seed)).chain((0..800).map(|seed| Preset::Medium.sheet(seed)))
}

/// A sheet's nodes, to be asked about.
struct Sheet<'a>(&'a [Node]);

impl<'a> Sheet<'a> {
    fn node(&self, number: u32) -> &'a Node {
        &self.0[number as usize]
    }

    fn kid(&self, node: &Node, index: usize) -> Option<&'a Node> {
        node.kids.get(index).copied().flatten().map(|kid| self.node(kid))
    }

    fn kids(&self, node: &'a Node) -> impl Iterator<Item = &'a Node> + '_ {
        node.kids.iter().flatten().map(|&kid| self.node(kid))
    }

    /// The text of a static key.
    fn key(&self, attribute: &Node) -> Option<Vec<u8>> {
        match (attribute.kind, attribute.kids.len()) {
            (IDENT, _) => Some(attribute.text.clone()),
            (STR, 0) => Some(Vec::new()),
            (STR, 1) => self.kid(attribute, 0).filter(|part| part.kind == LITERAL_PART).map(|part| part.text.clone()),
            _ => None,
        }
    }

    /// The names that a Lambda, let or rec set brings, roughly: the first attribute of each path.
    fn brings(&self, node: &Node) -> Vec<Vec<u8>> {
        let mut names = Vec::new();
        let opens = node.kind == LET_IN || node.kind == LAMBDA || (node.kind == ATTR_SET && node.flag == 1);
        let mut ahead: Vec<&Node> = if opens { node.kids.iter().flatten().map(|&kid| self.node(kid)).collect() } else { Vec::new() };
        while let Some(next) = ahead.pop() {
            match next.kind {
                ATTRPATH_VALUE => ahead.extend(self.kid(next, 0)),
                ATTRPATH => names.extend(self.kid(next, 0).and_then(|first| self.key(first))),
                INHERIT => names.extend(self.kids(next).filter_map(|attribute| self.key(attribute))),
                IDENT_PARAM | PAT_BIND | PAT_ENTRY => names.extend(self.kid(next, 0).map(|ident| ident.text.clone())),
                PATTERN => ahead.extend(self.kids(next)),
                _ => {}
            }
        }
        names
    }

    fn answers(&self, number: u32, around: &mut Vec<Vec<u8>>, withs: usize, seen: &mut Seen) {
        let node = self.node(number);
        let mark = around.len();
        let brought = self.brings(node);
        add(seen, "shadowing", brought.iter().filter(|name| around.contains(name)).count());
        add(seen, "a builtin is bound", brought.iter().filter(|name| BUILTINS.contains(&name.as_slice())).count());
        around.extend(brought);
        for (index, &kid) in node.kids.iter().enumerate().filter_map(|(index, kid)| Some((index, kid.as_ref()?))) {
            let is_key = matches!(node.kind, ATTRPATH | INHERIT | IDENT_PARAM | PAT_BIND) || (node.kind == PAT_ENTRY && index == 0);
            let kid_node = self.node(kid);
            if kid_node.kind != IDENT {
                self.answers(kid, around, withs + usize::from(node.kind == WITH && index == 1), seen);
            } else if !is_key && kid_node.flag == 1 {
                let withs = withs + usize::from(node.kind == WITH && index == 1);
                add(seen, answer(&kid_node.text, around, withs), 1);
                add(seen, "several Withs", usize::from(withs > 1));
            }
        }
        around.truncate(mark);
    }
}

fn answer(text: &[u8], around: &[Vec<u8>], withs: usize) -> &'static str {
    if around.iter().any(|name| name == text) {
        "definition"
    } else if BUILTINS.contains(&text) {
        "builtin"
    } else if withs > 0 {
        "With"
    } else {
        "none"
    }
}

#[test]
fn references_have_answers_of_all_sorts() {
    let mut seen = Seen::new();
    for nodes in sheets() {
        Sheet(&nodes).answers(0, &mut Vec::new(), 0, &mut seen);
    }
    at_least(&seen, 1_000, &["definition", "builtin", "With", "none", "several Withs", "shadowing", "a builtin is bound"]);
}

/// The static paths of a set's entries in their order, each with its value.
fn static_paths<'a>(sheet: &Sheet<'a>, set: &'a Node) -> Vec<(Vec<Vec<u8>>, Option<&'a Node>)> {
    let entries = sheet.kids(set).filter(|entry| entry.kind == ATTRPATH_VALUE);
    let path = |entry: &'a Node| {
        let path = sheet.kid(entry, 0)?;
        let keys: Vec<_> = sheet.kids(path).map(|attribute| sheet.key(attribute)).collect::<Option<_>>()?;
        (!keys.is_empty()).then_some((keys, sheet.kid(entry, 1)))
    };
    entries.filter_map(path).collect()
}

fn is_set_in(sheet: &Sheet, value: &Node, wrapper: u8) -> bool {
    value.kind == wrapper && sheet.kid(value, 0).is_some_and(|inner| inner.kind == ATTR_SET)
}

/// What a path is to an earlier one of the same set.
fn meeting(sheet: &Sheet, earlier: &[Vec<u8>], path: &[Vec<u8>], value: Option<&Node>, seen: &mut Seen) {
    if earlier == path {
        add(seen, "the same path again", 1);
    } else if path.starts_with(earlier) {
        add(seen, "a path after a value", 1);
    } else if earlier.starts_with(path) {
        add(seen, "a value after a path", 1);
        let Some(value) = value else {
            return add(seen, "no value after a path", 1);
        };
        add(seen, "a set after a path", usize::from(value.kind == ATTR_SET && !value.kids.is_empty()));
        add(seen, "a rec set after a path", usize::from(value.kind == ATTR_SET && value.flag == 1));
        add(seen, "a set in a Paren after a path", usize::from(is_set_in(sheet, value, PAREN)));
        add(seen, "a set in a Root after a path", usize::from(is_set_in(sheet, value, ROOT)));
    } else if earlier.first() == path.first() {
        add(seen, "the same beginning again", 1);
    }
}

#[test]
fn keys_meet() {
    let mut seen = Seen::new();
    for nodes in (0..1_000).map(|seed| Preset::Keys.sheet(seed)) {
        let sheet = Sheet(&nodes);
        for set in nodes.iter().filter(|node| matches!(node.kind, ATTR_SET | LET_IN)) {
            let paths = static_paths(&sheet, set);
            for (number, (path, value)) in paths.iter().enumerate() {
                paths[..number].iter().for_each(|(earlier, _)| meeting(&sheet, earlier, path, *value, &mut seen));
            }
        }
    }
    let often = ["the same path again", "a path after a value", "a value after a path", "the same beginning again", "a set after a path"];
    at_least(&seen, 200, &often);
    at_least(
        &seen,
        20,
        &["a rec set after a path", "a set in a Paren after a path", "a set in a Root after a path", "no value after a path"],
    );
}

/// What a Dynamic holds, through Parens and Roots.
fn dynamic(sheet: &Sheet, node: &Node, seen: &mut Seen) {
    let Some(mut inner) = sheet.kid(node, 0) else {
        return add(seen, "nothing", 1);
    };
    let (mut parens, mut roots) = (0, 0);
    while matches!(inner.kind, PAREN | ROOT) {
        parens += usize::from(inner.kind == PAREN);
        roots += usize::from(inner.kind == ROOT);
        let Some(next) = sheet.kid(inner, 0) else { return };
        inner = next;
    }
    let what = match (inner.kind, parens, roots) {
        (STR, 0, 0) => "a Str",
        (STR, 1, 0) => "a Str in a Paren",
        (STR, _, 0) => "a Str in Parens",
        (STR, _, _) => "a Str in a Root",
        (IDENT, _, _) => "an Ident",
        _ => "something else",
    };
    add(seen, what, 1);
}

/// What an attribute of a path is as a key.
fn attribute(sheet: &Sheet, attribute: &Node, is_last: bool, seen: &mut Seen) {
    let is_dynamic = sheet.key(attribute).is_none();
    let interpolated = sheet.kids(attribute).any(|part| part.kind == INTERPOLATION);
    add(seen, "a dynamic key at the end", usize::from(is_dynamic && is_last));
    add(seen, "a dynamic key before the end", usize::from(is_dynamic && !is_last));
    add(seen, "a Str of several parts", usize::from(attribute.kind == STR && attribute.kids.len() > 1));
    add(seen, "an interpolated Str", usize::from(attribute.kind == STR && interpolated));
    add(seen, "an Ident without flag", usize::from(attribute.kind == IDENT && attribute.flag == 0));
}

#[test]
fn dynamic_keys() {
    let mut seen = Seen::new();
    for nodes in sheets() {
        let sheet = Sheet(&nodes);
        for path in nodes.iter().filter(|node| node.kind == ATTRPATH) {
            let kids = sheet.kids(path).enumerate();
            kids.for_each(|(index, kid)| attribute(&sheet, kid, index + 1 == path.kids.len(), &mut seen));
        }
        nodes.iter().filter(|node| node.kind == DYNAMIC).for_each(|node| dynamic(&sheet, node, &mut seen));
    }
    at_least(&seen, 200, &["a dynamic key at the end", "a dynamic key before the end", "a Str of several parts", "an interpolated Str"]);
    at_least(&seen, 30, &["an Ident without flag", "nothing", "a Str", "a Str in a Paren", "a Str in Parens", "a Str in a Root"]);
    at_least(&seen, 30, &["an Ident", "something else"]);
}

#[test]
fn inherits() {
    let mut seen = Seen::new();
    for nodes in sheets() {
        let sheet = Sheet(&nodes);
        for node in nodes.iter().filter(|node| node.kind == INHERIT) {
            add(&mut seen, if node.kids[0].is_some() { "with a source" } else { "without a source" }, 1);
            add(&mut seen, "no attributes", usize::from(node.kids.len() == 1));
            for attribute in sheet.kids(node).filter(|kid| kid.kind != INHERIT_FROM) {
                add(&mut seen, "a Str", usize::from(attribute.kind == STR));
                add(&mut seen, "a dynamic", usize::from(sheet.key(attribute).is_none()));
                add(&mut seen, "an Ident without flag", usize::from(attribute.kind == IDENT && attribute.flag == 0));
            }
        }
    }
    at_least(&seen, 100, &["with a source", "without a source", "no attributes", "a Str", "a dynamic", "an Ident without flag"]);
}

#[test]
fn patterns() {
    let mut seen = Seen::new();
    for nodes in sheets() {
        let sheet = Sheet(&nodes);
        for node in nodes.iter().filter(|node| node.kind == PATTERN) {
            let entries = sheet.kids(node).filter(|kid| kid.kind == PAT_ENTRY);
            let fields: Vec<_> = entries.map(|entry| sheet.kid(entry, 0)).collect();
            let texts: BTreeSet<_> = fields.iter().flatten().map(|ident| &ident.text).collect();
            add(&mut seen, "a doubled field", fields.iter().flatten().count() - texts.len());
            add(&mut seen, "a field without ident", fields.iter().filter(|ident| ident.is_none()).count());
            let bind = sheet.kid(node, 0).map(|bind| sheet.kid(bind, 0));
            add(&mut seen, "a bind", usize::from(bind.is_some()));
            add(&mut seen, "a bind without ident", usize::from(bind == Some(None)));
            add(&mut seen, "a bind with a field's text", usize::from(bind.flatten().is_some_and(|ident| texts.contains(&ident.text))));
        }
    }
    at_least(&seen, 100, &["a bind", "a doubled field", "a field without ident"]);
    at_least(&seen, 30, &["a bind without ident", "a bind with a field's text"]);
}
