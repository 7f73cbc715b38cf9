//! Where things lie in a store: the numbers of docs/STORE.md, and how a word is read.

/// How many bytes a store has: the least that every call wants.
pub const STORE_BYTES: usize = 3_948_672;

/// How many bytes the reply of a call has.
pub(crate) const REPLY_BYTES: usize = 20;

/// What stands for the empty text.
pub(crate) const EMPTY_TEXT: u32 = u32::MAX;

/// Where the texts begin; they go to the end of the store.
pub(crate) const TEXTS: usize = 3_162_240;

/// How many bytes the texts of all changes since a load may have.
pub const CHANGE_ROOM: u32 = 8_192;

/// The most bytes of a new text. One in a sheet may be longer.
pub const TEXT_LIMIT: usize = 255;

/// Offsets of the header's words.
pub(crate) mod header {
    pub const EXPRS: usize = 0;
    pub const NAMES: usize = 4;
    pub const DIAGNOSTICS: usize = 8;
    pub const LOST: usize = 12;
    pub const ENTRY: usize = 16;
    pub const SCOPES: usize = 20;
    pub const SPENT: usize = 24;
    pub const TEXTS: usize = 28;
}

/// Rows of one size. `limit` is how many may be in use; tables with lists have one row more.
#[derive(Clone, Copy)]
pub(crate) struct Table {
    pub at: usize,
    pub row: usize,
    pub limit: u32,
}

pub(crate) const EXPRS: Table = table(64, 20, 16_384);
pub(crate) const EXPR_POINTERS: Table = table(327_764, 12, 16_384);
pub(crate) const ITEMS: Table = table(524_372, 12, 32_768);
pub(crate) const NAMES: Table = table(917_588, 8, 4_096);
pub(crate) const NAME_POINTERS: Table = table(950_356, 12, 4_096);
pub(crate) const DIAGNOSTICS: Table = table(999_508, 28, 32_768);
pub(crate) const LOST: Table = table(1_917_012, 12, 32_768);
pub(crate) const USES: Table = table(2_310_228, 8, 16_384);
pub(crate) const SCOPES: Table = table(2_441_300, 12, 4_096);
pub(crate) const ENTERED: Table = table(2_490_464, 4, 4_096);
pub(crate) const REFERENCES: Table = table(2_506_848, 4, 4_096);
pub(crate) const KEPT: Table = table(2_523_236, 4, 16_384);

const fn table(at: usize, row: usize, limit: u32) -> Table {
    Table { at, row, limit }
}

/// The number in the four bytes at an offset, lowest first; none where the bytes end before.
pub(crate) fn word(bytes: &[u8], at: usize) -> Option<u32> {
    let four = bytes.get(at..)?.first_chunk::<4>()?;
    Some(u32::from_le_bytes(*four))
}

/// Numbers of four bytes, lowest first.
pub(crate) fn words(bytes: &[u8]) -> impl Iterator<Item = u32> + '_ {
    bytes.chunks_exact(4).filter_map(|four| word(four, 0))
}

#[cfg(test)]
mod tests {
    use super::*;
    use crate::expr::{HOLE, REFERENCE};
    use crate::refusal::Refusal;
    use std::collections::BTreeMap;

    /// Each table ends where the page lets the next one begin.
    #[test]
    fn tables_lie_side_by_side() {
        let end = |table: Table, rows: usize| table.at + rows * table.row;
        assert_eq!(end(EXPRS, 16_385), EXPR_POINTERS.at);
        assert_eq!(end(EXPR_POINTERS, 16_384), ITEMS.at);
        assert_eq!(end(ITEMS, 32_768), NAMES.at);
        assert_eq!(end(NAMES, 4_096), NAME_POINTERS.at);
        assert_eq!(end(NAME_POINTERS, 4_096), DIAGNOSTICS.at);
        assert_eq!(end(DIAGNOSTICS, 32_768), LOST.at);
        assert_eq!(end(LOST, 32_768), USES.at);
        assert_eq!(end(USES, 16_384), SCOPES.at);
        assert_eq!(end(SCOPES, 4_097), ENTERED.at);
        assert_eq!(end(ENTERED, 4_096), REFERENCES.at);
        assert_eq!(end(REFERENCES, 4_097), KEPT.at);
        assert_eq!(end(KEPT, 16_384), 2_588_772);
        // The most bytes of texts in use, where the whole room is spent.
        assert_eq!(TEXTS + 745_472 + 5 * CHANGE_ROOM as usize, STORE_BYTES);
    }

    #[test]
    fn a_word_past_the_end_is_none() {
        assert_eq!(word(&[1, 2, 0, 0, 9], 0), Some(513));
        assert_eq!(word(&[1, 2, 0, 0, 9], 2), None);
        assert_eq!(word(&[], usize::MAX), None);
    }

    /// The macros that the header for C defines, by what follows `LANG_AST_`.
    fn header_for_c() -> BTreeMap<String, usize> {
        let mut defined = BTreeMap::new();
        for line in include_str!("../include/lang_ast.h").lines().filter_map(|line| line.strip_prefix("#define LANG_AST_")) {
            // The guard of the header has no value.
            if let [name, value, ..] = line.split(' ').collect::<Vec<_>>()[..] {
                let value = value.parse().unwrap_or_else(|_| panic!("{name} is {value}"));
                assert_eq!(defined.insert(name.to_string(), value), None, "{name} is defined twice");
            }
        }
        defined
    }

    /// `KidCount` as C writes it: `KID_COUNT`.
    fn in_c(name: &str) -> String {
        let words = name.char_indices().flat_map(|(i, c)| [(i > 0 && c.is_uppercase()).then_some('_'), Some(c.to_ascii_uppercase())]);
        words.flatten().collect()
    }

    /// Every number of the header for C is the library's.
    #[test]
    fn the_header_has_the_librarys_numbers() {
        let mut wanted: BTreeMap<String, usize> = [
            ("STORE_BYTES", STORE_BYTES),
            ("REPLY_BYTES", REPLY_BYTES),
            ("BUFFER_BYTES", KEPT.row * KEPT.limit as usize),
            ("TEXT_LIMIT", TEXT_LIMIT),
            ("CHANGE_ROOM", CHANGE_ROOM as usize),
            ("EXPR_COUNT", header::EXPRS),
            ("NAME_COUNT", header::NAMES),
            ("EXPRS", EXPRS.at),
            ("EXPR_BYTES", EXPRS.row),
            ("EXPR_SORT", 4),
            ("SORT_NO_NODE", HOLE as usize),
            ("SORT_REFERENCE", REFERENCE as usize),
            ("EXPR_POINTERS", EXPR_POINTERS.at),
            ("NAME_POINTERS", NAME_POINTERS.at),
            ("POINTER_BYTES", EXPR_POINTERS.row),
            ("POINTER_KIND", 0),
            ("POINTER_FROM", 4),
            ("POINTER_TO", 8),
            // The reply and its answers, as src/store.rs reads them.
            ("REPLY_REFUSAL", 0),
            ("REPLY_PLACE", 4),
            ("REPLY_ANSWER", 8),
            ("REPLY_TO", 12),
            ("REPLY_LENGTH", 16),
            ("ANSWER_NONE", 0),
            ("ANSWER_DEFINITION", 1),
            ("ANSWER_BUILTIN", 2),
            ("ANSWER_WITHS", 3),
        ]
        .map(|(name, number)| (name.to_string(), number))
        .into();
        for number in 0..100 {
            if let Some(reason) = (Refusal { number, place: 0 }).reason() {
                wanted.insert(in_c(&format!("{reason:?}")), number as usize);
            }
        }
        assert_eq!(NAME_POINTERS.row, EXPR_POINTERS.row);
        assert_eq!(header_for_c(), wanted);
    }
}
