//! The bytes of a store, read by the tables of docs/STORE.md. Any bytes can be read: what is not there, or is no number
//! that the page lets be there, is none.

use crate::layout::{self, header, Table, EMPTY_TEXT, STORE_BYTES, TEXTS};
use std::ops::Range;

/// The bytes that a store has in use at most; those past them mean nothing.
#[derive(Clone, Copy)]
pub(crate) struct Page<'a> {
    bytes: &'a [u8],
}

/// Where in a source text a node lies, and of which kind it is: what the sheet said of it. Nodes with the same three
/// have the same pointer.
///
/// The unit of places is your own; byte offsets are usual, the end not included. Places are compared and given back,
/// and nothing else is done with them. A change of text does not move them: they are those of the text that was loaded.
///
/// [`Kind::pointer`](crate::Kind::pointer) makes one.
#[derive(Debug, Clone, Copy, PartialEq, Eq, PartialOrd, Ord, Hash)]
pub struct Pointer {
    /// The number of the node's kind, see [`Kind::number`](crate::Kind::number).
    pub kind: u32,
    /// Where it begins.
    pub from: u32,
    /// Where it ends; the end is not included.
    pub to: u32,
}

impl Pointer {
    /// The pointer of a node of this kind from here to there.
    pub const fn new(kind: u32, from: u32, to: u32) -> Self {
        Pointer { kind, from, to }
    }

    /// Whether a place lies in it: at its beginning or behind, and before its end.
    ///
    /// ```
    /// use lang_ast::Kind;
    /// let x = Kind::ident("x").pointer(3, 5);
    /// assert_eq!([2, 3, 4, 5].map(|offset| x.holds(offset)), [false, true, true, false]);
    /// ```
    pub const fn holds(self, offset: u32) -> bool {
        self.from <= offset && offset < self.to
    }
}

impl<'a> Page<'a> {
    pub fn new(bytes: &'a [u8]) -> Self {
        Page { bytes: bytes.get(..STORE_BYTES).unwrap_or(bytes) }
    }

    pub fn word(self, at: usize) -> Option<u32> {
        layout::word(self.bytes, at)
    }

    /// A word of a row, by its place in the row.
    pub fn field(self, table: Table, row: u32, place: usize) -> Option<u32> {
        self.word(table.at + row as usize * table.row + 4 * place)
    }

    /// A count of the header; no more than the table has rows for, whatever stands there.
    pub fn count(self, at: usize, table: Table) -> u32 {
        self.word(at).unwrap_or_default().min(table.limit)
    }

    pub fn exprs(self) -> u32 {
        self.count(header::EXPRS, layout::EXPRS)
    }

    pub fn names(self) -> u32 {
        self.count(header::NAMES, layout::NAMES)
    }

    pub fn scopes(self) -> u32 {
        self.count(header::SCOPES, layout::SCOPES)
    }

    /// The list of a row: it goes to where the next row's begins.
    pub fn list(self, rows: Table, row: u32, elements: Table) -> Option<Range<u32>> {
        let (begin, end) = (self.field(rows, row, 0)?, self.field(rows, row + 1, 0)?);
        (begin <= end && end <= elements.limit).then_some(begin..end)
    }

    /// A text by its number. One that does not lie in the texts in use reads as the empty one.
    pub fn text(self, number: u32) -> &'a [u8] {
        self.text_in_use(number).unwrap_or_default()
    }

    fn text_in_use(self, number: u32) -> Option<&'a [u8]> {
        if number == EMPTY_TEXT {
            return None;
        }
        let used = self.word(header::TEXTS)?;
        let begin = number.checked_add(4)?;
        let length = self.word(TEXTS.checked_add(number as usize)?)?;
        if begin.checked_add(length)? > used {
            return None;
        }
        self.bytes.get(TEXTS + begin as usize..)?.get(..length as usize)
    }

    pub fn pointer(self, table: Table, row: u32, place: usize) -> Option<Pointer> {
        let word = |i| self.field(table, row, place + i);
        Some(Pointer { kind: word(0)?, from: word(1)?, to: word(2)? })
    }
}

/// A number that is below its end.
pub(crate) fn below(number: u32, end: u32) -> Option<u32> {
    (number < end).then_some(number)
}

/// What a word says that is 0 for none, else one more than a number below `end`.
pub(crate) fn one_less(word: u32, end: u32) -> Option<u32> {
    word.checked_sub(1).and_then(|number| below(number, end))
}
