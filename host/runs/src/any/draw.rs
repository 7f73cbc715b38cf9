//! The calls that are made on any store: numbers, texts and lengths that hit and miss.

use super::guard::Side;
use crate::store::asked::{text_of, told};
use crate::store::layout::{get, header, EXPRS, NAMES, NONE, TEXTS};
use book::{Call, REPLY_BYTES};
use generate::{Preset, Rng};
use sheet::MAX_BYTES;

/// The longest sheet that is lent.
pub const SHEET: usize = 2 * MAX_BYTES;
/// The longest buffer that is lent: for as many numbers as there can be expressions, and some bytes.
pub const BUFFER: usize = 4 * EXPRS.limit + 64;
/// The longest text that is lent.
pub const TEXT: usize = 70_000;
/// The longest reply.
pub const REPLY: usize = 64;

pub fn side(rng: &mut Rng) -> Side {
    rng.pick(&[Side::Begin, Side::End])
}

/// A call on a store whose counts need not be in order.
pub fn call(rng: &mut Rng, store: &[u8]) -> Call {
    let reply = if rng.chance(90) { REPLY_BYTES } else { rng.pick(&[0, 1, 4, 19, 21, 24, REPLY]) };
    let buffer = rng.pick(&[0, 3, 4, 40, 400, 4_000, BUFFER - 1, BUFFER, BUFFER]);
    match rng.below(4) {
        0 => Call::AskReference { number: reference(rng, store), buffer, reply },
        1 => Call::AskName { number: number(rng, store, header::NAMES), buffer, reply },
        2 => {
            let call = Call::ChangeReference { number: reference(rng, store), text: text(rng, store), buffer: BUFFER, reply };
            change(rng, store, call)
        }
        _ => {
            let call = Call::ChangeName { number: number(rng, store, header::NAMES), text: text(rng, store), buffer: BUFFER, reply };
            change(rng, store, call)
        }
    }
}

/// A change whose buffer is about as long as what it moves: exact, a byte or a number too short, empty, or longer.
fn change(rng: &mut Rng, store: &[u8], mut call: Call) -> Call {
    let exact = told(store, &call).map_or(0, |accepted| 4 * accepted.list.len());
    let drawn = rng.pick(&[exact, exact, exact, exact + 1, exact.saturating_sub(1), exact.saturating_sub(4), 0, BUFFER - 1, BUFFER]);
    if let Call::ChangeReference { buffer, .. } | Call::ChangeName { buffer, .. } = &mut call {
        *buffer = drawn;
    }
    call
}

/// A number below a count of the header, often the last or the one after it; now and then any number.
fn number(rng: &mut Rng, store: &[u8], count: usize) -> u32 {
    let count = get_or_zero(store, count).min(20_000);
    let below = rng.below(count as usize) as u32;
    let any = rng.draw() as u32;
    rng.pick(&[below, below, below, below, below, below, count.wrapping_sub(1), count, 0, any, u32::MAX])
}

/// The next Reference from a number on, if there is one near; else that number.
fn reference(rng: &mut Rng, store: &[u8]) -> u32 {
    let from = number(rng, store, header::EXPRS);
    let sort = |e: u32| if (e as usize) < EXPRS.limit { get_or_zero(store, EXPRS.word(e as usize, 1)) } else { 0 };
    (from..from.saturating_add(100)).find(|&e| sort(e) == 21).filter(|_| rng.chance(90)).unwrap_or(from)
}

/// A text of the store, or one of those that need care.
fn text(rng: &mut Rng, store: &[u8]) -> Vec<u8> {
    match rng.below(10) {
        0 => Vec::new(),
        1 => vec![b'l'; 255],
        2 => vec![b'l'; rng.pick(&[256, 300, 5_000, TEXT])],
        3 => b"map".to_vec(),
        4 => (0..rng.between(1, 12)).map(|_| rng.draw() as u8).collect(),
        _ => of_store(rng, store).unwrap_or_else(|| b"x".to_vec()),
    }
}

/// The text of some name or Reference, where it lies in the store and is short.
fn of_store(rng: &mut Rng, store: &[u8]) -> Option<Vec<u8>> {
    let at = match rng.chance(50) {
        true => NAMES.word(rng.below((get_or_zero(store, header::NAMES) as usize).min(NAMES.limit)), 0),
        false => EXPRS.word(reference(rng, store) as usize % EXPRS.limit, 2),
    };
    let (number, used) = (get_or_zero(store, at), get_or_zero(store, header::TEXTS) as usize);
    let begin = TEXTS + number as usize;
    if number == NONE || number as usize + 4 > used || get_or_zero(store, begin) > 300 {
        return None;
    }
    (begin + 304 <= store.len()).then(|| text_of(store, number).to_vec())
}

fn get_or_zero(store: &[u8], at: usize) -> u32 {
    if at + 4 <= store.len() {
        get(store, at)
    } else {
        0
    }
}

/// A sheet to load: most of them damaged or no sheet at all.
pub fn sheet(rng: &mut Rng) -> Vec<u8> {
    let mut bytes = match rng.below(20) {
        0..12 => generate::damaged(rng.draw()).0,
        12..15 => (0..rng.below(400)).map(|_| rng.draw() as u8).collect(),
        15 => Vec::new(),
        16 => sheet::write(&Preset::Medium.sheet(rng.draw())),
        17 => sheet::write(&Preset::Keys.sheet(rng.draw())),
        _ => sheet::write(&Preset::Tiny.sheet(rng.draw())),
    };
    bytes.truncate(SHEET);
    bytes
}
