//! The words of a sound store by what they may be: where damage can be done, and where it must not matter.

use super::layout::{self, get, header, Table};
use super::sound::{Field, SORTS, TAGS};
use std::collections::BTreeMap;

/// A word that may be any number from `low` to `high`, whatever the other words are.
#[derive(Debug, Clone, Copy)]
pub struct Site {
    pub at: usize,
    pub low: u32,
    pub high: u32,
}

/// A table whose rows are in use up to `used`.
#[derive(Debug, Clone, Copy)]
pub struct Rows {
    pub table: Table,
    pub used: usize,
    /// Whether it has a row more than its limit, whose first word says how many elements are in use.
    pub lists: bool,
}

/// Rows and the table that their lists are in.
#[derive(Debug, Clone, Copy)]
pub struct Lists {
    pub name: &'static str,
    pub rows: Table,
    pub count: usize,
    pub elements: Table,
}

#[derive(Default)]
pub struct Sites {
    /// By kind, and by sort or tag and place in the row, so that each of these can be drawn as often as the others.
    pub ranged: BTreeMap<&'static str, BTreeMap<usize, Vec<Site>>>,
    /// Words that hold a text's number.
    pub texts: BTreeMap<&'static str, Vec<usize>>,
    /// Words of rows in use that hold anything.
    pub anything: BTreeMap<&'static str, Vec<usize>>,
    /// Higher halves of literals, with the largest number.
    pub literals: Vec<(usize, u64)>,
    pub sorts: Vec<usize>,
    pub tags: Vec<usize>,
    /// Expressions whose lists are not empty.
    pub listed: Vec<usize>,
    pub rows: Vec<Rows>,
    pub lists: Vec<Lists>,
}

/// The sites of a sound store.
pub fn sites(store: &[u8]) -> Sites {
    let count = |at| get(store, at) as usize;
    let (exprs, names, scopes) = (count(header::EXPRS), count(header::NAMES), count(header::SCOPES));
    let lists = vec![
        Lists { name: "first item", rows: layout::EXPRS, count: exprs, elements: layout::ITEMS },
        Lists { name: "first entered name", rows: layout::SCOPES, count: scopes, elements: layout::ENTERED },
        Lists { name: "first reference", rows: layout::REFERENCES, count: names, elements: layout::KEPT },
    ];
    let mut sites = Sites { lists, rows: rows(store, exprs, names, scopes), ..Sites::default() };
    for e in 0..exprs {
        sites.expr(store, e, names);
        sites.range("scope of an expression", layout::USES.word(e, 0), 0, scopes as u32);
        let reference = get(store, layout::EXPRS.word(e, 1)) == 21;
        let kind = if reference { "answer of a Reference" } else { "answer of no Reference" };
        sites.range(kind, layout::USES.word(e, 1), 0, 23 + names as u32);
        sites.pointer(layout::EXPR_POINTERS.word(e, 0));
    }
    for n in 0..names {
        sites.text("text of a name", layout::NAMES.word(n, 0));
        sites.range("kind of a name", layout::NAMES.word(n, 1), 0, 4);
        sites.pointer(layout::NAME_POINTERS.word(n, 0));
    }
    for d in 0..count(header::DIAGNOSTICS) {
        sites.text("key of a diagnostic", layout::DIAGNOSTICS.word(d, 0));
        sites.pointer(layout::DIAGNOSTICS.word(d, 1));
        sites.pointer(layout::DIAGNOSTICS.word(d, 4));
    }
    for l in 0..count(header::LOST) {
        sites.pointer(layout::LOST.word(l, 0));
    }
    for s in 0..scopes {
        sites.range("parent of a scope", layout::SCOPES.word(s, 1), 0, s as u32);
        sites.range("With of a scope", layout::SCOPES.word(s, 2), 0, exprs as u32);
    }
    for i in 0..elements(store, layout::SCOPES, scopes) {
        sites.range("entered name", layout::ENTERED.word(i, 0), 0, names as u32 - 1);
    }
    for i in 0..elements(store, layout::REFERENCES, names) {
        sites.range("kept reference", layout::KEPT.word(i, 0), 0, exprs as u32 - 1);
    }
    sites
}

/// How many elements of lists are in use.
pub fn elements(store: &[u8], rows: Table, count: usize) -> usize {
    get(store, rows.word(count, 0)) as usize
}

/// All tables but the work room, with their rows in use.
fn rows(store: &[u8], exprs: usize, names: usize, scopes: usize) -> Vec<Rows> {
    let plain = |table, used| Rows { table, used, lists: false };
    let lists = |table, used| Rows { table, used, lists: true };
    vec![
        lists(layout::EXPRS, exprs),
        plain(layout::EXPR_POINTERS, exprs),
        plain(layout::ITEMS, elements(store, layout::EXPRS, exprs)),
        plain(layout::NAMES, names),
        plain(layout::NAME_POINTERS, names),
        plain(layout::DIAGNOSTICS, get(store, header::DIAGNOSTICS) as usize),
        plain(layout::LOST, get(store, header::LOST) as usize),
        plain(layout::USES, exprs),
        lists(layout::SCOPES, scopes),
        plain(layout::ENTERED, elements(store, layout::SCOPES, scopes)),
        lists(layout::REFERENCES, names),
        plain(layout::KEPT, elements(store, layout::REFERENCES, names)),
    ]
}

impl Sites {
    fn range(&mut self, kind: &'static str, at: usize, low: u32, high: u32) {
        self.range_of(kind, 0, Site { at, low, high });
    }

    fn range_of(&mut self, kind: &'static str, group: usize, site: Site) {
        self.ranged.entry(kind).or_default().entry(group).or_default().push(site);
    }

    fn text(&mut self, kind: &'static str, at: usize) {
        self.texts.entry(kind).or_default().push(at);
    }

    fn pointer(&mut self, at: usize) {
        self.anything.entry("word of a pointer").or_default().extend([at, at + 4, at + 8]);
    }

    fn expr(&mut self, store: &[u8], e: usize, names: usize) {
        let at = layout::EXPRS.word(e, 1);
        self.sorts.push(at);
        let sort = get(store, at) as usize;
        let (fields, _) = SORTS[sort];
        let kinds = ["child of an expression", "name of an expression", "text of an expression", "operator"];
        self.fields(at + 4, &fields, (e, names), kinds, 3 * sort);
        let items = get(store, layout::EXPRS.word(e, 0))..get(store, layout::EXPRS.word(e + 1, 0));
        if !items.is_empty() {
            self.listed.push(e);
        }
        for item in items {
            let at = layout::ITEMS.word(item as usize, 0);
            self.tags.push(at);
            let tag = get(store, at) as usize;
            let kinds = ["child of an item", "name of an item", "text of an item", ""];
            self.fields(at + 4, &TAGS[tag], (e, names), kinds, 2 * tag);
        }
    }

    /// Fields that stand one after the other in the row, or in the list, of the expression e; the kinds are those of a
    /// child, a name, a text and an operator, and the groups begin with the one that is given.
    fn fields(&mut self, at: usize, fields: &[Field], (e, names): (usize, usize), kinds: [&'static str; 4], group: usize) {
        for (i, field) in fields.iter().enumerate() {
            let at = at + 4 * i;
            let mut range = |kind, low, high| self.range_of(kind, group + i, Site { at, low, high });
            let lower_half = i > 0 && matches!(fields[i - 1], Field::Literal(_));
            match *field {
                Field::Anything if lower_half => {}
                Field::Anything => self.anything.entry("field without a meaning").or_default().push(at),
                Field::Child => range(kinds[0], 0, e as u32 - 1),
                Field::Name => range(kinds[1], 0, names as u32 - 1),
                Field::Text => self.text(kinds[2], at),
                Field::Operator(last) => range(kinds[3], 1, last),
                Field::Literal(most) => self.literals.push((at, most)),
            }
        }
    }
}
