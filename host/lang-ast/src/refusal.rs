//! Why a call was refused.

use std::error::Error;
use std::fmt;

/// A refusal: its number, and the place that goes with the number. What was refused has changed nothing.
///
/// Its text says it in a sentence, and so does its [`Debug`](fmt::Debug), which a `main` that returns it shows.
///
/// ```
/// use lang_ast::{Reason, Refusal, Store};
/// let refusal = Store::load(b"nodes=0\n").err();
/// assert_eq!(refusal, Some(Refusal { number: 3, place: 0 }));
/// assert_eq!(refusal.and_then(|refusal| refusal.reason()), Some(Reason::Value));
///
/// let refusal = Refusal { number: 25, place: 3 };
/// assert_eq!(refusal.to_string(), "refused (25): expression 3 is no Reference");
/// let shown = r#"Refusal { number: 25, place: 3, says: "refused (25): expression 3 is no Reference" }"#;
/// assert_eq!(format!("{refusal:?}"), shown);
/// ```
#[derive(Clone, Copy, PartialEq, Eq, Hash, PartialOrd, Ord)]
pub struct Refusal {
    /// Which refusal it is: 1 to 7 and 31 to 33 are of the sheet, 8, 21 to 27 and 34 of the other calls.
    pub number: u32,
    /// Where, or how much: what [`Reason`] says for the number; 0 where it says nothing.
    pub place: u32,
}

/// What the number of a refusal stands for.
#[derive(Debug, Clone, Copy, PartialEq, Eq, Hash, PartialOrd, Ord)]
#[non_exhaustive]
pub enum Reason {
    /// 1: the sheet has more than 1,048,576 bytes.
    SheetTooLong,
    /// 2: a line of the sheet is missing, or is without its key, its form or the newline at its end, or bytes follow
    /// the last line. The place is the first byte of the line or of those bytes; the sheet's length where a line is
    /// missing.
    Form,
    /// 3: the number of nodes, a kind or a kid's number is out of its range; node 0 has to be a Root. The place is the
    /// first byte of its line.
    Value,
    /// 4: a node has too few or too many kids. The place is the node.
    KidCount,
    /// 5: a kid is not the next node, or not of a kind that its place takes, or absent in a list. The place is the
    /// parent.
    WrongKid,
    /// 6: a node lies deeper than 256. The place is its parent.
    TooDeep,
    /// 7: nodes are no part of the tree. The place is the lowest of them.
    NotMet,
    /// 8: a new text has more than 255 bytes. The place is 255.
    TextTooLong,
    /// 21: the store is too short.
    StoreTooShort,
    /// 22: the store holds a number that it must not.
    StoreUnsound,
    /// 23: no sheet is loaded.
    NothingLoaded,
    /// 24: there is no such expression or name. The place is the number that was asked for.
    NoSuchNumber,
    /// 25: the expression is no Reference. The place is its number.
    NotAReference,
    /// 26: the list is longer than the buffer. The place is its length. This library then lends a longer one and asks
    /// again, so its callers never see it.
    BufferTooShort,
    /// 27: the texts of all changes since the load would come to more than 8,192 bytes.
    RoomSpent,
    /// 31: a node has a flag that its kind does not have. The place is the first byte of its line.
    WrongFlag,
    /// 32: a node has a text that its kind, with its flag, does not have. The place is the first byte of its line.
    WrongText,
    /// 33: a node's `from` is above its `to`, or one of them is above 4,294,967,295. The place is the first byte of its
    /// line; a `from` above its `to` is told at the line of the `to`.
    WrongRange,
    /// 34: a change moves more References than its buffer has room for. The place is how many. This library then lends
    /// a longer one and makes the change again, so its callers never see it.
    MovedBufferTooShort,
}

impl Refusal {
    /// What the number stands for; none where this library doesn't know it.
    pub fn reason(self) -> Option<Reason> {
        Some(match self.number {
            1 => Reason::SheetTooLong,
            2 => Reason::Form,
            3 => Reason::Value,
            4 => Reason::KidCount,
            5 => Reason::WrongKid,
            6 => Reason::TooDeep,
            7 => Reason::NotMet,
            8 => Reason::TextTooLong,
            21 => Reason::StoreTooShort,
            22 => Reason::StoreUnsound,
            23 => Reason::NothingLoaded,
            24 => Reason::NoSuchNumber,
            25 => Reason::NotAReference,
            26 => Reason::BufferTooShort,
            27 => Reason::RoomSpent,
            31 => Reason::WrongFlag,
            32 => Reason::WrongText,
            33 => Reason::WrongRange,
            34 => Reason::MovedBufferTooShort,
            _ => return None,
        })
    }

    /// Whether the sheet is the reason: 1 to 7 and 31 to 33.
    pub fn is_of_the_sheet(self) -> bool {
        matches!(self.number, 1..=7 | 31..=33)
    }

    /// Whether the store itself is the reason, whatever it is asked: 21 to 23.
    pub fn is_of_the_store(self) -> bool {
        (21..=23).contains(&self.number)
    }

    /// What the linked archive never says if it is the one that this library was written for. It stands for a reply
    /// that can't be read, so that such a reply is no panic.
    pub(crate) const UNKNOWN: Refusal = Refusal { number: u32::MAX, place: 0 };
}

impl fmt::Display for Refusal {
    fn fmt(&self, f: &mut fmt::Formatter<'_>) -> fmt::Result {
        let Refusal { number, place } = *self;
        write!(f, "refused ({number}): ")?;
        let Some(reason) = self.reason() else {
            return f.write_str("this library doesn't know the number: are it and the archive of one version?");
        };
        match reason {
            Reason::SheetTooLong => write!(f, "the sheet has more than 1,048,576 bytes"),
            Reason::Form => {
                let wrong = "is missing, or is without its key, its form or the newline at its end, or bytes follow the last line";
                write!(f, "at byte {place} of the sheet a line {wrong}")
            }
            Reason::Value => {
                let wrong = "the number of nodes, a kind (node 0 is a Root) or a kid's number is out of its range";
                write!(f, "at byte {place} of the sheet {wrong}")
            }
            Reason::KidCount => write!(f, "node {place} of the sheet has too few or too many kids"),
            Reason::WrongKid => {
                let wrong = "is not the next node, or is of a kind that its place does not take, or is absent in a list";
                write!(f, "node {place} of the sheet has a kid that {wrong}")
            }
            Reason::TooDeep => write!(f, "node {place} of the sheet has a kid deeper than 256 levels"),
            Reason::NotMet => write!(f, "node {place} of the sheet is no part of its tree"),
            Reason::TextTooLong => write!(f, "the new text has more than {place} bytes"),
            Reason::StoreTooShort => write!(f, "the store has fewer bytes than a store needs"),
            Reason::StoreUnsound => write!(f, "the store's bytes are damaged or of no store"),
            Reason::NothingLoaded => write!(f, "nothing is loaded"),
            Reason::NoSuchNumber => write!(f, "no expression or name has the number {place}"),
            Reason::NotAReference => write!(f, "expression {place} is no Reference"),
            Reason::BufferTooShort => write!(f, "the list has {place} numbers, for which the buffer is too short"),
            Reason::RoomSpent => {
                let then = "reload a sheet of the changed text";
                write!(f, "the texts of all changes since the load would have more than 8,192 bytes: {then}")
            }
            Reason::WrongFlag => write!(f, "at byte {place} of the sheet a node has a flag that its kind does not have"),
            Reason::WrongText => write!(f, "at byte {place} of the sheet a node has a text that its kind, with its flag, does not have"),
            Reason::WrongRange => {
                write!(f, "at byte {place} of the sheet a node's `from` is above its `to`, or one of them is above 4,294,967,295")
            }
            Reason::MovedBufferTooShort => write!(f, "the change moves {place} References, for which the buffer is too short"),
        }
    }
}

/// With the sentence, since `fn main() -> Result<..>` and `expect` show an error by this.
impl fmt::Debug for Refusal {
    fn fmt(&self, f: &mut fmt::Formatter<'_>) -> fmt::Result {
        let Refusal { number, place } = self;
        f.debug_struct("Refusal").field("number", number).field("place", place).field("says", &self.to_string()).finish()
    }
}

impl Error for Refusal {}

#[cfg(test)]
mod tests {
    use super::*;

    #[test]
    fn each_number_has_its_sentence() {
        let numbers: Vec<u32> = (0..100).filter(|&number| Refusal { number, place: 9 }.reason().is_some()).collect();
        assert_eq!(numbers, [1, 2, 3, 4, 5, 6, 7, 8, 21, 22, 23, 24, 25, 26, 27, 31, 32, 33, 34]);
        let mut sentences: Vec<String> = numbers.iter().map(|&number| Refusal { number, place: 9 }.to_string()).collect();
        sentences.sort();
        sentences.dedup();
        assert_eq!(sentences.len(), numbers.len());
        assert!(Refusal::UNKNOWN.to_string().contains("of one version"));
        for number in 0..100 {
            let refusal = Refusal { number, place: 9 };
            assert!(refusal.to_string().starts_with(&format!("refused ({number}): ")), "{refusal}");
            assert_eq!(format!("{refusal:?}"), format!("Refusal {{ number: {number}, place: 9, says: {:?} }}", refusal.to_string()));
        }
    }

    #[test]
    fn sentences_name_their_places() {
        let said = |number| Refusal { number, place: 305 }.to_string();
        let form = "refused (2): at byte 305 of the sheet a line is missing, or is without its key, its form or the newline at its end, \
            or bytes follow the last line";
        assert_eq!(said(2), form);
        let value =
            "refused (3): at byte 305 of the sheet the number of nodes, a kind (node 0 is a Root) or a kid's number is out of its range";
        assert_eq!(said(3), value);
        assert_eq!(said(31), "refused (31): at byte 305 of the sheet a node has a flag that its kind does not have");
        assert_eq!(said(32), "refused (32): at byte 305 of the sheet a node has a text that its kind, with its flag, does not have");
        let range = "refused (33): at byte 305 of the sheet a node's `from` is above its `to`, or one of them is above 4,294,967,295";
        assert_eq!(said(33), range);
        let kid = "refused (5): node 305 of the sheet has a kid that is not the next node, or is of a kind that its place does not take, \
            or is absent in a list";
        assert_eq!(said(5), kid);
        assert_eq!(said(24), "refused (24): no expression or name has the number 305");
        let spent = "refused (27): the texts of all changes since the load would have more than 8,192 bytes: \
            reload a sheet of the changed text";
        assert_eq!(said(27), spent);
        assert_eq!(said(34), "refused (34): the change moves 305 References, for which the buffer is too short");
    }

    #[test]
    fn numbers_are_of_the_sheet_or_of_the_store() {
        let of = |test: fn(Refusal) -> bool| (0..100).filter(move |&number| test(Refusal { number, place: 0 })).collect::<Vec<u32>>();
        assert_eq!(of(Refusal::is_of_the_sheet), [1, 2, 3, 4, 5, 6, 7, 31, 32, 33]);
        assert_eq!(of(Refusal::is_of_the_store), [21, 22, 23]);
    }
}
