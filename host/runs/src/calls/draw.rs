//! Random calls on a loaded sheet: most of them accepted, and some for each refusal.

use super::change_call;
use super::changes::{text_of, Change, Changes, Target};
use crate::store::layout::EXPRS;
use book::{Book, Call, REPLY_BYTES, ROOM_BYTES, TEXT_BYTES};
use canon::{Answer, Expr, Facts};
use generate::Rng;
use tix::Tix;

/// A buffer that no list is too long for.
const LONG_ENOUGH: usize = 4 * EXPRS.limit;

/// Whether the changes of a seed have long texts, so that the change room is spent.
pub fn greedy(seed: u64) -> bool {
    seed.is_multiple_of(8)
}

/// The calls of one load, one after the other.
pub struct Calls {
    rng: Rng,
    changes: Changes,
}

impl Calls {
    pub fn new(seed: u64) -> Self {
        Calls { rng: Rng::new(!seed), changes: Changes::new(seed, greedy(seed)) }
    }

    /// The next call, where so many bytes of the change room are spent.
    pub fn next(&mut self, book: &Book<Tix>, facts: &Facts, spent: usize) -> Call {
        // A text that is over the limit as loaded is soon changed, so it is set to itself more often.
        let mut call = match self.rng.below(20) {
            _ if over_limit(facts).is_some() && self.rng.chance(20) => self.equal_change(facts),
            0..10 => self.change(book, facts, ROOM_BYTES - spent),
            10 => self.long_change(facts),
            11 => self.equal_change(facts),
            12..16 => self.ask_reference(facts),
            _ if facts.module.names.is_empty() => self.ask_reference(facts),
            _ => self.ask_name(facts),
        };
        if self.rng.chance(8) {
            self.misnumber(&mut call, facts);
        }
        if self.rng.chance(20) {
            *reply(&mut call) = self.rng.pick(&[0, 1, 4, REPLY_BYTES - 1, REPLY_BYTES, REPLY_BYTES + 1, 24, 64]);
        }
        call
    }

    /// A change that may be accepted: where its text is longer than what is left of the room, it is cut as often as
    /// not.
    fn change(&mut self, book: &Book<Tix>, facts: &Facts, room: usize) -> Call {
        let room = if self.rng.chance(50) { room } else { usize::MAX };
        let change = self.changes.next(facts, room);
        // Often enough the length is known to suffice, since finding out what moves takes as long as the change.
        let buffer = if self.rng.chance(40) { LONG_ENOUGH } else { self.buffer_for(book, &change) };
        change_call(change, buffer)
    }

    /// The length of a buffer for what a change moves: exact twice in three times, else as for other lists.
    fn buffer_for(&mut self, book: &Book<Tix>, change: &Change) -> usize {
        let moved = book.clone().call(&change_call(change.clone(), LONG_ENOUGH)).list.len();
        if self.rng.chance(66) {
            4 * moved
        } else {
            self.buffer(moved)
        }
    }

    /// A change to a text of 255 bytes, of 256 or of more.
    fn long_change(&mut self, facts: &Facts) -> Call {
        let mut change = self.changes.alone(facts);
        let length = self.rng.pick(&[TEXT_BYTES, TEXT_BYTES + 1, TEXT_BYTES + 1, 300, 4_096, 70_000]);
        change.text = vec![self.rng.pick(b"lm"); length];
        change_call(change, self.rng.pick(&[0, LONG_ENOUGH, LONG_ENOUGH]))
    }

    /// A change to the text that is there already, however long that is: over the limit as often as not, where there is
    /// such a text. It moves nothing, so it wants no buffer.
    fn equal_change(&mut self, facts: &Facts) -> Call {
        let mut change = self.changes.alone(facts);
        if let Some(target) = over_limit(facts).filter(|_| self.rng.chance(50)) {
            change.target = target;
        }
        change.text = text_of(facts, change.target).to_vec();
        change_call(change, self.rng.pick(&[0, 0, 3, LONG_ENOUGH]))
    }

    fn ask_reference(&mut self, facts: &Facts) -> Call {
        let answers = &facts.resolution.answers;
        let withs = |answer: &Answer| matches!(answer, Answer::Withs(_));
        let chosen: Vec<u32> = match self.rng.chance(50) {
            true => answers.iter().filter(|(_, answer)| withs(answer)).map(|(&e, _)| e).collect(),
            false => answers.keys().copied().collect(),
        };
        let number = chosen.get(self.rng.below(chosen.len())).copied().unwrap_or(0);
        let list = match answers.get(&number) {
            Some(Answer::Withs(list)) => list.len(),
            _ => 0,
        };
        Call::AskReference { number, buffer: self.buffer(list), reply: REPLY_BYTES }
    }

    fn ask_name(&mut self, facts: &Facts) -> Call {
        let lists = &facts.resolution.references;
        let from = self.rng.below(lists.len());
        let used = (from..lists.len()).chain(0..from).find(|&name| !lists[name].is_empty());
        let number = used.filter(|_| self.rng.chance(70)).unwrap_or(from);
        let list = lists.get(number).map_or(0, Vec::len);
        Call::AskName { number: number as u32, buffer: self.buffer(list), reply: REPLY_BYTES }
    }

    /// The length of a buffer for a list: exact, a byte or more too short, empty, or longer.
    fn buffer(&mut self, list: usize) -> usize {
        let exact = 4 * list;
        let shorter = self.rng.below(exact + 1);
        self.rng.pick(&[exact, exact, exact + 1, exact + 64, exact.saturating_sub(1), exact.saturating_sub(4), 0, shorter])
    }

    /// Another number: at the end of those that there are, past it, of an expression that is no Reference, or where a
    /// sum would wrap.
    fn misnumber(&mut self, call: &mut Call, facts: &Facts) {
        let (exprs, names) = (facts.module.exprs.len() as u32, facts.module.names.len() as u32);
        let none = (0..exprs).filter(|&e| !matches!(facts.module.exprs[e as usize], Expr::Reference(_)));
        let none: Vec<u32> = none.collect();
        let other = none.get(self.rng.below(none.len())).copied().unwrap_or(exprs);
        let far = self.rng.pick(&[16_383, 16_384, 4_095, 4_096, 1 << 16, 1 << 30, 1 << 31, u32::MAX - 1, u32::MAX]);
        let end = match call {
            Call::AskReference { .. } | Call::ChangeReference { .. } => exprs,
            Call::AskName { .. } | Call::ChangeName { .. } => names,
        };
        let wrong = self.rng.pick(&[end, end, end.wrapping_sub(1), end + 1, far, far, other, other]);
        let (Call::AskReference { number, .. }
        | Call::AskName { number, .. }
        | Call::ChangeReference { number, .. }
        | Call::ChangeName { number, .. }) = call;
        *number = wrong;
    }
}

/// The first name or Reference whose text is longer than any new one.
fn over_limit(facts: &Facts) -> Option<Target> {
    let names = (0..facts.module.names.len() as u32).map(Target::Name);
    let references = facts.resolution.answers.keys().map(|&e| Target::Reference(e));
    names.chain(references).find(|&target| text_of(facts, target).len() > TEXT_BYTES)
}

fn reply(call: &mut Call) -> &mut usize {
    match call {
        Call::AskReference { reply, .. } | Call::AskName { reply, .. } => reply,
        Call::ChangeReference { reply, .. } | Call::ChangeName { reply, .. } => reply,
    }
}

/// The target of a change.
pub fn target(call: &Call) -> Option<(Target, &[u8])> {
    match call {
        Call::ChangeReference { number, text, .. } => Some((Target::Reference(*number), text)),
        Call::ChangeName { number, text, .. } => Some((Target::Name(*number), text)),
        Call::AskReference { .. } | Call::AskName { .. } => None,
    }
}
