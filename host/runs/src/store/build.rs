//! A module written into a store, from docs/STORE.md alone and without any call.

use super::encode;
use super::layout::{self, header, put, Table, NONE};
use super::module::*;
use generate::Rng;
use std::collections::HashMap;

/// The texts of a store that is being built, and the numbers that they have there.
pub struct Texts {
    bytes: Vec<u8>,
    numbers: HashMap<Vec<u8>, u32>,
    /// Bytes that are left for texts that lie there a second time.
    spare: usize,
}

impl Texts {
    /// None yet. Texts of so many bytes in all, with their lengths, are still to come, so that some may lie there
    /// twice.
    pub fn new(to_come: usize) -> Self {
        Texts { bytes: Vec::new(), numbers: HashMap::new(), spare: layout::TEXTS_UNSPENT - to_come }
    }

    /// Those of a sheet's nodes, one after the other, as a load puts them.
    #[cfg(feature = "stand-in")]
    pub fn of_nodes(nodes: &[sheet::Node]) -> Self {
        let mut texts = Texts { bytes: Vec::new(), numbers: HashMap::new(), spare: 0 };
        nodes.iter().for_each(|node| texts.place(&node.text));
        texts
    }

    fn place(&mut self, text: &[u8]) {
        self.numbers.insert(text.to_vec(), self.bytes.len() as u32);
        self.bytes.extend((text.len() as u32).to_le_bytes());
        self.bytes.extend(text);
    }

    /// The number of a text: of the place where it lies already, or now and then of a new one.
    fn number(&mut self, text: &[u8], rng: &mut Rng) -> u32 {
        if text.is_empty() {
            return NONE;
        }
        let bytes = 4 + text.len();
        let again = self.spare >= bytes && rng.chance(5);
        match self.numbers.get(text) {
            Some(&number) if !again => return number,
            Some(_) => self.spare -= bytes,
            None => {}
        }
        self.place(text);
        self.numbers[text]
    }
}

/// Writes a module into a store that may hold anything; how many bytes of texts it takes. Words without a meaning are
/// drawn.
pub fn build(store: &mut [u8], module: &Module, texts: Texts, rng: &mut Rng) -> u32 {
    let mut build = Build { store, rng, texts };
    build.exprs(module);
    build.names(module);
    build.diagnostics(module);
    build.scopes(module);
    build.header(module)
}

struct Build<'s> {
    store: &'s mut [u8],
    rng: &'s mut Rng,
    texts: Texts,
}

impl Build<'_> {
    fn row(&mut self, table: Table, row: usize, place: usize, words: &[u32]) {
        for (i, &word) in words.iter().enumerate() {
            put(self.store, table.word(row, place) + 4 * i, word);
        }
    }

    fn pointer(&mut self, table: Table, row: usize, place: usize, pointer: Pointer) {
        self.row(table, row, place, &[pointer.kind, pointer.from, pointer.to]);
    }

    fn header(&mut self, module: &Module) -> u32 {
        let texts = &self.texts.bytes;
        self.store[layout::TEXTS..layout::TEXTS + texts.len()].copy_from_slice(texts);
        let used = texts.len() as u32;
        let words = [
            (header::EXPRS, module.exprs.len() as u32),
            (header::NAMES, module.names.len() as u32),
            (header::DIAGNOSTICS, module.diagnostics.len() as u32),
            (header::LOST, module.lost.len() as u32),
            (header::ENTRY, module.entry.unwrap_or(0)),
            (header::SCOPES, module.scopes.len() as u32),
            (header::SPENT, module.spent),
            (header::TEXTS, used),
        ];
        words.into_iter().for_each(|(at, word)| put(self.store, at, word));
        used
    }

    fn exprs(&mut self, module: &Module) {
        let mut items = 0;
        for (e, placed) in module.exprs.iter().enumerate() {
            self.row(layout::EXPRS, e, 0, &[items as u32]);
            items += self.expr(e, placed, items);
            let scope = placed.scope.map_or(0, |scope| scope + 1);
            self.row(layout::USES, e, 0, &[scope, encode::answer(placed.answer)]);
        }
        self.row(layout::EXPRS, module.exprs.len(), 0, &[items as u32]);
    }

    /// The expression e with its list, which begins with this item; how long the list is.
    fn expr(&mut self, e: usize, placed: &Placed, first: usize) -> usize {
        let (texts, mut more) = (&mut self.texts, Rng::new(self.rng.draw()));
        let words = encode::words(&placed.expr, self.rng, &mut |text| texts.number(text, &mut more));
        self.row(layout::EXPRS, e, 1, &[words.sort]);
        self.row(layout::EXPRS, e, 2, &words.fields);
        for (i, item) in words.items.iter().enumerate() {
            self.row(layout::ITEMS, first + i, 0, item);
        }
        if let Some(pointer) = placed.pointer {
            self.pointer(layout::EXPR_POINTERS, e, 0, pointer);
        }
        words.items.len()
    }

    fn names(&mut self, module: &Module) {
        let mut kept = 0;
        for (n, name) in module.names.iter().enumerate() {
            let text = self.texts.number(name.text, self.rng);
            self.row(layout::NAMES, n, 0, &[text, name.kind]);
            self.pointer(layout::NAME_POINTERS, n, 0, name.pointer);
            self.row(layout::REFERENCES, n, 0, &[kept as u32]);
            self.row(layout::KEPT, kept, 0, &name.references);
            kept += name.references.len();
        }
        self.row(layout::REFERENCES, module.names.len(), 0, &[kept as u32]);
    }

    fn diagnostics(&mut self, module: &Module) {
        for (d, one) in module.diagnostics.iter().enumerate() {
            let key = self.texts.number(one.key, self.rng);
            self.row(layout::DIAGNOSTICS, d, 0, &[key]);
            self.pointer(layout::DIAGNOSTICS, d, 1, one.first);
            self.pointer(layout::DIAGNOSTICS, d, 4, one.second);
        }
        for (l, &pointer) in module.lost.iter().enumerate() {
            self.pointer(layout::LOST, l, 0, pointer);
        }
    }

    fn scopes(&mut self, module: &Module) {
        let mut entered = 0;
        for (s, scope) in module.scopes.iter().enumerate() {
            let (with, names) = match &scope.what {
                Scoped::With(e) => (e + 1, &[][..]),
                Scoped::Definitions(names) => (0, names.as_slice()),
            };
            let parent = scope.parent.map_or(0, |parent| parent + 1);
            self.row(layout::SCOPES, s, 0, &[entered as u32, parent, with]);
            self.row(layout::ENTERED, entered, 0, names);
            entered += names.len();
        }
        self.row(layout::SCOPES, module.scopes.len(), 0, &[entered as u32]);
    }
}
