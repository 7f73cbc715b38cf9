//! A store that is lent for one sheet after the other, and how many of them went wrong.

use crate::lower::{sheets, Named};
use crate::report::Differences;
use crate::store::Lent;
use generate::Rng;

/// After so many sheets the store is filled with other bytes.
const SOILED: u64 = 64;

pub struct Lending {
    lent: Lent,
    rng: Rng,
    sheets: u64,
    pub differences: Differences,
}

impl Lending {
    pub fn new(seed: u64) -> Self {
        Lending { lent: Lent::new(), rng: Rng::new(seed), sheets: 0, differences: Differences::default() }
    }

    /// The store, which may hold anything.
    pub fn store(&mut self) -> &mut [u8] {
        self.lent.store()
    }

    /// Has a sheet compared in the store; whether all was as it should be.
    pub fn sheet(&mut self, sheet: &Named, compare: impl FnOnce(&mut [u8]) -> Result<(), String>) -> bool {
        if self.sheets.is_multiple_of(SOILED) {
            self.lent.soil(&mut self.rng);
        }
        self.sheets += 1;
        let before = self.differences.count;
        if let Err(why) = compare(self.lent.store()) {
            self.differences.add(|| sheet.difference(&why));
        }
        if !self.lent.margins_stand() {
            self.differences.add(|| sheet.difference("bytes outside the store were written"));
            self.lent = Lent::new();
        }
        self.differences.count == before
    }
}

/// A random sheet of up to so many nodes, named by its seed.
pub fn random(most: usize, seed: u64) -> Named {
    Named { name: format!("random, of up to {most} nodes, seed {seed}"), nodes: sheets::random(seed, most) }
}
