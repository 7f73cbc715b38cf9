//! How often each sort and tag was in the modules of a run, and how often each table was at its limit: so that a run
//! says what it saw.

use super::layout::{self, get, header};
use super::sites::elements;

#[derive(Default)]
pub struct Coverage {
    sorts: [u64; 29],
    tags: [u64; 10],
    limits: [u64; 8],
}

impl Coverage {
    /// Adds what a sound store has.
    pub fn add(&mut self, store: &[u8]) {
        let count = |at| get(store, at) as usize;
        let (exprs, names, scopes) = (count(header::EXPRS), count(header::NAMES), count(header::SCOPES));
        let items = elements(store, layout::EXPRS, exprs);
        for e in 0..exprs {
            self.sorts[get(store, layout::EXPRS.word(e, 1)) as usize] += 1;
        }
        for item in 0..items {
            self.tags[get(store, layout::ITEMS.word(item, 0)) as usize] += 1;
        }
        let used = [
            (exprs, layout::EXPRS),
            (items, layout::ITEMS),
            (names, layout::NAMES),
            (count(header::DIAGNOSTICS), layout::DIAGNOSTICS),
            (count(header::LOST), layout::LOST),
            (scopes, layout::SCOPES),
            (elements(store, layout::SCOPES, scopes), layout::ENTERED),
            (elements(store, layout::REFERENCES, names), layout::KEPT),
        ];
        for (limit, (used, table)) in self.limits.iter_mut().zip(used) {
            *limit += u64::from(used == table.limit);
        }
    }

    /// Adds what a later part of the run had.
    pub fn merge(&mut self, later: &Coverage) {
        let add = |sums: &mut [u64], counts: &[u64]| sums.iter_mut().zip(counts).for_each(|(sum, count)| *sum += count);
        add(&mut self.sorts, &later.sorts);
        add(&mut self.tags, &later.tags);
        add(&mut self.limits, &later.limits);
    }

    pub fn print_sorts(&self) {
        println!("expressions of sorts 0 to 28: {:?}", self.sorts);
        println!("items of tags 0 to 9: {:?}", self.tags);
    }

    pub fn print(&self) {
        self.print_sorts();
        println!("tables at their limits (expressions, items, names, diagnostics, lost, scopes, entered, kept): {:?}", self.limits);
    }
}
