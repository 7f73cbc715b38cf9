//! Where things lie in a store, copied from docs/STORE.md, and how a word is read and written.

/// The shortest store.
pub const BYTES: usize = 3_948_672;

/// What stands for the empty text.
pub const NONE: u32 = u32::MAX;

/// Offsets of the header's words.
pub mod header {
    pub const EXPRS: usize = 0;
    pub const NAMES: usize = 4;
    pub const DIAGNOSTICS: usize = 8;
    pub const LOST: usize = 12;
    pub const ENTRY: usize = 16;
    pub const SCOPES: usize = 20;
    pub const SPENT: usize = 24;
    pub const TEXTS: usize = 28;
    pub const WAITING: usize = 32;
    pub const END: usize = 64;
}

/// Rows of one size. `limit` is how many may be in use; tables with lists have one row more.
#[derive(Debug, Clone, Copy)]
pub struct Table {
    pub at: usize,
    pub row: usize,
    pub limit: usize,
}

pub const EXPRS: Table = table(64, 20, 16_384);
pub const EXPR_POINTERS: Table = table(327_764, 12, 16_384);
pub const ITEMS: Table = table(524_372, 12, 32_768);
pub const NAMES: Table = table(917_588, 8, 4_096);
pub const NAME_POINTERS: Table = table(950_356, 12, 4_096);
pub const DIAGNOSTICS: Table = table(999_508, 28, 32_768);
pub const LOST: Table = table(1_917_012, 12, 32_768);
pub const USES: Table = table(2_310_228, 8, 16_384);
pub const SCOPES: Table = table(2_441_300, 12, 4_096);
pub const ENTERED: Table = table(2_490_464, 4, 4_096);
pub const REFERENCES: Table = table(2_506_848, 4, 4_096);
pub const KEPT: Table = table(2_523_236, 4, 16_384);
pub const WAITING: Table = table(2_588_772, 12, 16_384);

/// Where the texts begin; they go to the end of the store.
pub const TEXTS: usize = 3_162_240;
/// The most bytes of texts in use where nothing is spent; each spent byte allows five more.
pub const TEXTS_UNSPENT: usize = 745_472;
pub const SPENT_LIMIT: usize = 8_192;

/// The work room lies between the kept references and the texts.
pub const WORK: std::ops::Range<usize> = WAITING.at..TEXTS;

const fn table(at: usize, row: usize, limit: usize) -> Table {
    Table { at, row, limit }
}

impl Table {
    /// Where a word of a row stands.
    pub const fn word(&self, row: usize, place: usize) -> usize {
        self.at + row * self.row + 4 * place
    }
}

/// The word at an offset, which is inside the bytes.
pub fn get(bytes: &[u8], at: usize) -> u32 {
    u32::from_le_bytes([bytes[at], bytes[at + 1], bytes[at + 2], bytes[at + 3]])
}

/// Writes the word at an offset, which is inside the bytes.
pub fn put(bytes: &mut [u8], at: usize, word: u32) {
    bytes[at..at + 4].copy_from_slice(&word.to_le_bytes());
}

#[cfg(test)]
mod tests {
    use super::*;

    /// Each table ends where the page lets the next one begin.
    #[test]
    fn tables_lie_side_by_side() {
        let end = |table: Table, rows: usize| table.at + rows * table.row;
        assert_eq!(end(EXPRS, 16_385), EXPR_POINTERS.at);
        assert_eq!(end(EXPR_POINTERS, 16_384), ITEMS.at);
        assert_eq!(end(ITEMS, 32_768), NAMES.at);
        assert_eq!(end(NAMES, 4_096), NAME_POINTERS.at);
        assert_eq!(end(NAME_POINTERS, 4_096), DIAGNOSTICS.at);
        assert_eq!(end(DIAGNOSTICS, 32_768), LOST.at);
        assert_eq!(end(LOST, 32_768), USES.at);
        assert_eq!(end(USES, 16_384), SCOPES.at);
        assert_eq!(end(SCOPES, 4_097), ENTERED.at);
        assert_eq!(end(ENTERED, 4_096), REFERENCES.at);
        assert_eq!(end(REFERENCES, 4_097), KEPT.at);
        assert_eq!(end(KEPT, 16_384), WAITING.at);
        assert_eq!(TEXTS + TEXTS_UNSPENT + 5 * SPENT_LIMIT, BYTES);
    }
}
