//! Which of 0, 21, 22 and 23 a store is, for any bytes at all, from the tables of docs/STORE.md. It shares nothing with
//! the reader but the offsets, and is as plain as the page: one line of a table here for one line there.

use super::layout::{self, header, Table};

/// What a field of an expression's row, or of an item's, may be.
#[derive(Debug, Clone, Copy, PartialEq, Eq)]
pub enum Field {
    Anything,
    /// An expression below the one whose row it is in.
    Child,
    Name,
    Text,
    /// 1 to this.
    Operator(u32),
    /// The higher half of a number whose lower half follows, with the largest number.
    Literal(u64),
}

use Field::{Anything as X, Child as E, Literal as L, Name as N, Operator as O, Text as T};

const FIELDS: &[u32] = &[2, 3, 4, 5];
const BINDINGS: &[u32] = &[0, 6, 7, 8, 9];
const EXPRS: &[u32] = &[0];
const PARTS: &[u32] = &[0, 1];
const NO_ITEMS: &[u32] = &[];

/// For each sort a, b and c, and the tags that its items may have.
pub const SORTS: [([Field; 3], &[u32]); 29] = [
    ([X, X, X], NO_ITEMS),
    ([X, X, X], NO_ITEMS),
    ([E, E, X], NO_ITEMS),
    ([E, E, E], NO_ITEMS),
    ([L(0x7ff0_0000_0000_0000), X, X], NO_ITEMS),
    ([L(9_223_372_036_854_775_807), X, X], NO_ITEMS),
    ([T, X, X], NO_ITEMS),
    ([T, X, X], NO_ITEMS),
    ([X, X, X], NO_ITEMS),
    ([E, X, X], NO_ITEMS),
    ([E, N, X], NO_ITEMS),
    ([E, X, X], FIELDS),
    ([E, N, X], FIELDS),
    ([E, X, X], FIELDS),
    ([E, N, X], FIELDS),
    ([E, X, X], BINDINGS),
    ([X, X, X], EXPRS),
    ([E, E, O(15)], NO_ITEMS),
    ([X, X, X], BINDINGS),
    ([X, X, X], BINDINGS),
    ([O(2), E, X], NO_ITEMS),
    ([T, X, X], NO_ITEMS),
    ([E, X, X], EXPRS),
    ([E, E, X], EXPRS),
    ([E, X, X], EXPRS),
    ([E, E, X], NO_ITEMS),
    ([E, E, X], NO_ITEMS),
    ([X, X, X], PARTS),
    ([X, X, X], PARTS),
];

/// For each tag a and b.
pub const TAGS: [[Field; 2]; 10] = [[E, X], [T, X], [X, X], [N, X], [X, E], [N, E], [N, E], [N, E], [N, E], [E, E]];

/// The number of the refusal that the store is a reason for; 0 for none.
pub fn condition(bytes: &[u8]) -> u32 {
    let store = Store { bytes };
    if bytes.len() < layout::BYTES {
        21
    } else if !store.sound() {
        22
    } else if store.word(header::EXPRS) == 0 {
        23
    } else {
        0
    }
}

struct Store<'a> {
    bytes: &'a [u8],
}

impl Store<'_> {
    fn sound(&self) -> bool {
        // The header first: the rest takes its counts for what they say.
        self.header()
            && self.lists(layout::EXPRS, self.exprs(), layout::ITEMS)
            && self.lists(layout::SCOPES, self.scopes(), layout::ENTERED)
            && self.lists(layout::REFERENCES, self.names(), layout::KEPT)
            && (0..self.exprs()).all(|e| self.expr(e))
            && (0..self.names()).all(|n| self.name(n))
            && (0..self.word(header::DIAGNOSTICS)).all(|d| self.text(self.field(layout::DIAGNOSTICS, d, 0)))
            && (0..self.scopes()).all(|s| self.scope(s))
            && (0..self.exprs()).all(|e| self.used(e))
            && (0..self.used_elements(layout::SCOPES, self.scopes())).all(|i| self.field(layout::ENTERED, i, 0) < self.names())
            && (0..self.used_elements(layout::REFERENCES, self.names())).all(|i| self.field(layout::KEPT, i, 0) < self.exprs())
    }

    fn header(&self) -> bool {
        self.exprs() <= 16_384
            && self.names() <= 4_096
            && self.word(header::DIAGNOSTICS) <= 32_768
            && self.word(header::LOST) <= 32_768
            && (self.word(header::ENTRY) < self.exprs() || self.exprs() == 0)
            && self.scopes() <= 4_096
            && self.word(header::SPENT) <= 8_192
            && self.word(header::TEXTS) <= 745_472 + 5 * self.word(header::SPENT)
    }

    /// Lists begin at 0, none before the one ahead of it, and not too many elements are in use.
    fn lists(&self, rows: Table, count: u64, elements: Table) -> bool {
        self.field(rows, 0, 0) == 0
            && (0..count).all(|row| self.field(rows, row, 0) <= self.field(rows, row + 1, 0))
            && self.used_elements(rows, count) <= elements.limit as u64
    }

    /// How many elements are in use: what the row after the last says.
    fn used_elements(&self, rows: Table, count: u64) -> u64 {
        self.field(rows, count, 0)
    }

    fn expr(&self, e: u64) -> bool {
        let row = layout::EXPRS.word(e as usize, 0);
        let Some((fields, tags)) = SORTS.get(self.word(row + 4) as usize) else { return false };
        let items = self.field(layout::EXPRS, e, 0)..self.field(layout::EXPRS, e + 1, 0);
        self.fields(row + 8, fields, e) && items.into_iter().all(|item| self.item(item, tags, e))
    }

    fn item(&self, item: u64, tags: &[u32], e: u64) -> bool {
        let row = layout::ITEMS.word(item as usize, 0);
        let tag = self.word(row);
        tags.iter().any(|&allowed| u64::from(allowed) == tag)
            && TAGS.get(tag as usize).is_some_and(|fields| self.fields(row + 4, fields, e))
    }

    /// Words that stand one after the other, and what they may be in the row, or in the list, of the expression e.
    fn fields(&self, at: usize, fields: &[Field], e: u64) -> bool {
        fields.iter().enumerate().all(|(i, field)| {
            let (word, next) = (self.word(at + 4 * i), self.word(at + 4 * i + 4));
            match *field {
                Field::Anything => true,
                Field::Child => word < e,
                Field::Name => word < self.names(),
                Field::Text => self.text(word),
                Field::Operator(last) => 1 <= word && word <= u64::from(last),
                Field::Literal(most) => (word << 32 | next) <= most,
            }
        })
    }

    fn text(&self, number: u64) -> bool {
        let used = self.word(header::TEXTS);
        let length = || self.word(layout::TEXTS + number as usize);
        number == 4_294_967_295 || (number + 4 <= used && number + 4 + length() <= used)
    }

    fn name(&self, n: u64) -> bool {
        self.text(self.field(layout::NAMES, n, 0)) && self.field(layout::NAMES, n, 1) <= 4
    }

    /// The parent and the With of a scope, each 0 or one more than a number.
    fn scope(&self, s: u64) -> bool {
        self.field(layout::SCOPES, s, 1) <= s && self.field(layout::SCOPES, s, 2) <= self.exprs()
    }

    /// The scope and the answer of an expression.
    fn used(&self, e: u64) -> bool {
        self.field(layout::USES, e, 0) <= self.scopes() && self.field(layout::USES, e, 1) < 24 + self.names()
    }

    fn exprs(&self) -> u64 {
        self.word(header::EXPRS)
    }

    fn names(&self) -> u64 {
        self.word(header::NAMES)
    }

    fn scopes(&self) -> u64 {
        self.word(header::SCOPES)
    }

    fn field(&self, table: Table, row: u64, place: usize) -> u64 {
        self.word(table.word(row as usize, place))
    }

    /// The word at an offset, in 64 bits so that sums do not wrap. Outside the bytes there is a number above every
    /// bound.
    fn word(&self, at: usize) -> u64 {
        match self.bytes.get(at..at + 4) {
            Some(&[a, b, c, d]) => u64::from(u32::from_le_bytes([a, b, c, d])),
            _ => 1 << 32,
        }
    }
}
