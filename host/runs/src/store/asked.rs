//! What a call on any store comes to, from docs/STORE.md and the order of refusals: all that is told, and for a change
//! where it writes the text.

use super::layout::{self, get, header, Table, NONE};
use super::moves::{self, Place};
use super::{page, sound};
use crate::making::lengths;
use book::{Call, REPLY_BYTES, ROOM_BYTES, TEXT_BYTES};

/// A refusal's number and place.
pub type Refusal = (u32, u32);

/// The refusals of a buffer that is too short: for the list of an asking, and for what a change moves.
const LIST_TOO_LONG: u32 = 26;
const MOVED_TOO_LONG: u32 = 34;

/// What an accepted call comes to.
#[derive(Debug, Default, Clone, PartialEq, Eq)]
pub struct Accepted {
    /// The answer with its name or index, both 0 where none is asked for.
    pub answer: [u32; 2],
    pub list: Vec<u32>,
    /// Where a change writes the number of a text that differs from the old one.
    pub changes: Option<usize>,
}

/// The words of a reply.
pub fn words(told: &Result<Accepted, Refusal>) -> [u32; 5] {
    match told {
        Err((number, place)) => [*number, *place, 0, 0, 0],
        Ok(accepted) => [0, 0, accepted.answer[0], accepted.answer[1], accepted.list.len() as u32],
    }
}

/// What a call comes to on these bytes.
pub fn told(store: &[u8], call: &Call) -> Result<Accepted, Refusal> {
    if lengths(call).1 < REPLY_BYTES {
        return Err((21, 0));
    }
    match sound::condition(store) {
        0 => {}
        number => return Err((number, 0)),
    }
    match call {
        Call::AskReference { number, buffer, .. } => ask_reference(store, *number, *buffer),
        Call::AskName { number, buffer, .. } => ask_name(store, *number, *buffer),
        Call::ChangeReference { number, text, buffer, .. } => {
            reference(store, *number)?;
            change(store, Place::Reference(*number), text, *buffer)
        }
        Call::ChangeName { number, text, buffer, .. } => {
            name(store, *number)?;
            change(store, Place::Name(*number), text, *buffer)
        }
    }
}

/// What a change sets; none of an asking.
pub fn place(call: &Call) -> Option<Place> {
    match call {
        Call::AskReference { .. } | Call::AskName { .. } => None,
        Call::ChangeReference { number, .. } => Some(Place::Reference(*number)),
        Call::ChangeName { number, .. } => Some(Place::Name(*number)),
    }
}

/// Whether there is such a Reference.
fn reference(store: &[u8], number: u32) -> Result<(), Refusal> {
    if number >= get(store, header::EXPRS) {
        return Err((24, number));
    }
    match get(store, layout::EXPRS.word(number as usize, 1)) {
        21 => Ok(()),
        _ => Err((25, number)),
    }
}

/// Whether there is such a name.
fn name(store: &[u8], number: u32) -> Result<(), Refusal> {
    if number < get(store, header::NAMES) {
        Ok(())
    } else {
        Err((24, number))
    }
}

/// Where the number of a place's text stands.
fn text_word(place: Place) -> usize {
    match place {
        Place::Reference(number) => layout::EXPRS.word(number as usize, 2),
        Place::Name(number) => layout::NAMES.word(number as usize, 0),
    }
}

fn ask_reference(store: &[u8], number: u32, buffer: usize) -> Result<Accepted, Refusal> {
    reference(store, number)?;
    let at = |place| get(store, layout::USES.word(number as usize, place));
    let (answer, list) = match at(1) {
        0 => ([0, 0], Vec::new()),
        1 => ([3, 0], withs(store, at(0))),
        word @ 2..=23 => ([2, word - 2], Vec::new()),
        word => ([1, word - 24], Vec::new()),
    };
    fitting(Accepted { answer, list, changes: None }, buffer, LIST_TOO_LONG)
}

/// The Withs from a scope up, by one more than its number.
fn withs(store: &[u8], mut scope: u32) -> Vec<u32> {
    let mut list = Vec::new();
    while let Some(row) = scope.checked_sub(1) {
        list.extend(get(store, layout::SCOPES.word(row as usize, 2)).checked_sub(1));
        scope = get(store, layout::SCOPES.word(row as usize, 1));
    }
    list
}

fn ask_name(store: &[u8], number: u32, buffer: usize) -> Result<Accepted, Refusal> {
    name(store, number)?;
    let list = elements(store, layout::REFERENCES, layout::KEPT, number as usize);
    fitting(Accepted { list, ..Accepted::default() }, buffer, LIST_TOO_LONG)
}

/// The list of a row whose elements are single words.
fn elements(store: &[u8], rows: Table, elements: Table, row: usize) -> Vec<u32> {
    let (first, end) = (get(store, rows.word(row, 0)), get(store, rows.word(row + 1, 0)));
    (first..end).map(|element| get(store, elements.word(element as usize, 0))).collect()
}

fn fitting(accepted: Accepted, buffer: usize, refusal: u32) -> Result<Accepted, Refusal> {
    let length = accepted.list.len();
    if buffer < 4 * length {
        return Err((refusal, length as u32));
    }
    Ok(accepted)
}

/// A change of the text of a place that there is.
fn change(store: &[u8], place: Place, text: &[u8], buffer: usize) -> Result<Accepted, Refusal> {
    let at = text_word(place);
    if text.len() > TEXT_BYTES {
        return Err((8, TEXT_BYTES as u32));
    }
    if text_of(store, get(store, at)) == text {
        return Ok(Accepted::default());
    }
    if get(store, header::SPENT) as usize + text.len() > ROOM_BYTES {
        return Err((27, 0));
    }
    // What is sound can be read.
    let list = page::read(store).map_or(Vec::new(), |before| moves::by(&before, place, text).moved);
    fitting(Accepted { list, changes: Some(at), ..Accepted::default() }, buffer, MOVED_TOO_LONG)
}

/// The text of a number in a sound store.
pub fn text_of(store: &[u8], number: u32) -> &[u8] {
    if number == NONE {
        return &[];
    }
    let begin = layout::TEXTS + number as usize + 4;
    &store[begin..begin + get(store, begin - 4) as usize]
}
