//! Calls made over memory that lies between pages which can't be touched.

use super::clock;
use super::draw;
use super::guard::{Access, Guarded, Side};
use super::MORE;
use crate::exported;
use crate::making::lengths;
use crate::store::layout::{get, BYTES};
use crate::store::UNWRITTEN;
use book::{Call, REPLY_BYTES};

/// All that is lent.
pub struct Memory {
    sheet: Guarded,
    pub store: Guarded,
    text: Guarded,
    buffer: Guarded,
    reply: Guarded,
}

/// Which part of the store's memory is lent, and how; and at which end of their memory the others lie.
#[derive(Clone, Copy)]
pub struct Lent {
    pub length: usize,
    pub at: Side,
    pub access: Access,
    pub side: Side,
}

/// The number that a call returned, and how many microseconds it took.
pub type Returned = (u32, f64);

impl Memory {
    pub fn new() -> Result<Self, String> {
        Ok(Memory {
            sheet: Guarded::new(draw::SHEET)?,
            store: Guarded::new(BYTES + MORE)?,
            text: Guarded::new(draw::TEXT)?,
            buffer: Guarded::new(draw::BUFFER)?,
            reply: Guarded::new(draw::REPLY)?,
        })
    }

    /// Loads a sheet, with a reply of so many bytes.
    pub fn load(&mut self, bytes: &[u8], reply: usize, lent: Lent) -> Returned {
        let (sheet, store) = (lent_bytes(&mut self.sheet, bytes, lent.side), self.store.lent(lent.length, lent.at, lent.access));
        let reply = self.reply.lent(reply, lent.side, Access::Write);
        timed(|| exported::load(sheet, store, reply))
    }

    pub fn call(&mut self, call: &Call, lent: Lent) -> Returned {
        let store = self.store.lent(lent.length, lent.at, lent.access);
        let (buffer, reply) = lengths(call);
        let buffer = self.buffer.lent(buffer, lent.side, Access::Write);
        let reply = self.reply.lent(reply, lent.side, Access::Write);
        match call {
            Call::AskReference { number, .. } => timed(|| exported::ask_reference(store, *number, buffer, reply)),
            Call::AskName { number, .. } => timed(|| exported::ask_name(store, *number, buffer, reply)),
            Call::ChangeReference { number, text, .. } => {
                let text = lent_bytes(&mut self.text, text, lent.side);
                timed(|| exported::change_reference(store, *number, text, buffer, reply))
            }
            Call::ChangeName { number, text, .. } => {
                let text = lent_bytes(&mut self.text, text, lent.side);
                timed(|| exported::change_name(store, *number, text, buffer, reply))
            }
        }
    }

    /// Whether a reply of so many bytes has these words, or is unwritten where it is too short.
    pub fn replied(&mut self, reply: usize, side: Side, words: &[u32; 5]) -> Result<(), String> {
        let words = if reply < REPLY_BYTES { &[] } else { &words[..] };
        holds(&mut self.reply, reply, side, words).map_err(|why| format!("reply, {words:?}: {why}"))
    }

    /// Whether a buffer of so many bytes has this list.
    pub fn listed(&mut self, buffer: usize, side: Side, list: &[u32]) -> Result<(), String> {
        holds(&mut self.buffer, buffer, side, list).map_err(|why| format!("buffer, {list:?}: {why}"))
    }
}

fn timed(call: impl FnOnce() -> u32) -> Returned {
    let start = clock::now();
    let number = call();
    (number, clock::now() - start)
}

/// Bytes as they are lent, to be read only.
fn lent_bytes<'a>(memory: &mut Guarded, bytes: &[u8], side: Side) -> &'a [u8] {
    memory.own(bytes.len(), side).copy_from_slice(bytes);
    memory.lent(bytes.len(), side, Access::Read)
}

/// Whether a slice holds these words and nothing else was written in it and beside it; it is unwritten again
/// afterwards.
fn holds(memory: &mut Guarded, length: usize, side: Side, words: &[u32]) -> Result<(), String> {
    let edge = memory.edge_stands(length, side);
    let (told, rest) = memory.own(length, side).split_at_mut(4 * words.len());
    let right = words.iter().enumerate().all(|(i, &word)| get(told, 4 * i) == word);
    let unwritten = rest.iter().all(|&byte| byte == UNWRITTEN);
    told.fill(UNWRITTEN);
    if edge && unwritten && right {
        return Ok(());
    }
    memory.all().fill(UNWRITTEN);
    Err(format!("words as they should be: {right}, the rest unwritten: {unwritten}, bytes beside it unwritten: {edge}"))
}
