//! Calls as the oracle's book is told them, made through the exported ones.

use crate::edged::Edged;
use crate::exported::{ask_name, ask_reference, change_name, change_reference};
use book::Call;

/// The kinds of calls, in the order of `kind`.
pub const KINDS: [&str; 4] = ["ask reference", "ask name", "change reference", "change name"];

pub fn kind(call: &Call) -> usize {
    match call {
        Call::AskReference { .. } => 0,
        Call::AskName { .. } => 1,
        Call::ChangeReference { .. } => 2,
        Call::ChangeName { .. } => 3,
    }
}

/// The lengths of the buffer and of the reply.
pub fn lengths(call: &Call) -> (usize, usize) {
    match call {
        Call::AskReference { buffer, reply, .. } | Call::AskName { buffer, reply, .. } => (*buffer, *reply),
        Call::ChangeReference { buffer, reply, .. } | Call::ChangeName { buffer, reply, .. } => (*buffer, *reply),
    }
}

/// What a call came to: the number returned, the reply and the buffer.
pub struct Made {
    pub number: u32,
    pub reply: Edged,
    pub buffer: Edged,
}

/// Makes a call with a reply and a buffer of the lengths that it names.
pub fn make(store: &mut [u8], call: &Call) -> Made {
    let (buffer, reply) = lengths(call);
    let (mut buffer, mut reply) = (Edged::new(buffer), Edged::new(reply));
    let number = match call {
        Call::AskReference { number, .. } => ask_reference(store, *number, buffer.slice(), reply.slice()),
        Call::AskName { number, .. } => ask_name(store, *number, buffer.slice(), reply.slice()),
        Call::ChangeReference { number, text, .. } => change_reference(store, *number, text, buffer.slice(), reply.slice()),
        Call::ChangeName { number, text, .. } => change_name(store, *number, text, buffer.slice(), reply.slice()),
    };
    Made { number, reply, buffer }
}
