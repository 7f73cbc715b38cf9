//! Calls on any bytes at all. Sheet, store, text, buffer and reply lie between pages that can't be touched, a store
//! that a call is not to write can only be read, and every number, reply and list is what docs/STORE.md gives for these
//! bytes. How long each call took.
//!
//! - `guard`: the memory; `lend`: calls over it; `fault`: what is printed when a call touches what it was not lent, or
//!   does not end.
//! - `bases`: the stores; `draw`: the calls; `after`: what an accepted change leaves.
//! - `seen`: what the calls met, and the longest of them; `clock`: what their times are read from.

mod after;
mod bases;
mod clock;
mod draw;
mod fault;
mod guard;
mod lend;
mod seen;

use crate::making::{kind, lengths};
use crate::progress::Progress;
use crate::report::Report;
use crate::split::{split, threads};
use crate::store::asked::{self, Accepted};
use crate::store::damage::{damaged, drawn, Damage, Must};
use crate::store::layout::{get, header, put, BYTES};
use crate::store::{sound, UNWRITTEN};
use bases::Base;
use book::{Call, REPLY_BYTES};
use generate::Rng;
use guard::{Access, Side};
use lend::{Lent, Memory};
use seen::Seen;
use sheet::check::check;

/// Bytes that a store may have past its last.
const MORE: usize = 64;
/// How many of a hundred calls are loads.
const LOADED: u64 = 3;

/// So many stores are one part of a run.
const EACH: u64 = 4;

/// Makes so many calls.
pub fn run(calls: u64, seed: u64) -> Result<Report, String> {
    run_on(threads(), calls, seed)
}

fn run_on(threads: usize, calls: u64, seed: u64) -> Result<Report, String> {
    fault::watch();
    let plan = plan(calls, seed);
    let progress = Progress::new("any", calls);
    let parts = split(threads, plan.len() as u64, EACH, Memory::new, |memory, turns| {
        let mut run =
            Run { memory: memory.as_mut().map_err(|why| why.clone())?, filled: Vec::new(), seen: Seen::default(), progress: &progress };
        turns.map(|i| &plan[i as usize]).for_each(|&(seed, calls)| run.base(seed, calls));
        Ok::<_, String>(run.seen)
    });
    fault::end();
    drop(progress);
    let mut seen = Seen::default();
    for part in parts {
        seen.merge(part?);
    }
    seen.print();
    seen.differences.print();
    println!("{} differences", seen.differences.count);
    let met = format!("{}; the longest call {:.1} ms", seen.met(), seen.longest());
    Ok(Report { met, differences: seen.differences.count, complete: true })
}

/// The seeds of the stores for so many calls, with the calls on each.
fn plan(calls: u64, seed: u64) -> Vec<(u64, u64)> {
    let mut left = calls;
    let mut plan = Vec::new();
    while left > 0 {
        let seed = seed.wrapping_add(plan.len() as u64);
        let share = bases::base(seed).calls.min(left);
        plan.push((seed, share));
        left -= share;
    }
    plan
}

struct Run<'a> {
    memory: &'a mut Memory,
    /// The store as it was filled.
    filled: Vec<u8>,
    seen: Seen,
    progress: &'a Progress,
}

/// What the store was filled with, how long it is, and at which end of its memory it lies.
struct Place {
    base: Base,
    length: usize,
    at: Side,
}

impl Run<'_> {
    /// So many calls on the store of a seed.
    fn base(&mut self, seed: u64, calls: u64) {
        let rng = &mut Rng::new(!seed);
        let (length, at) = (BYTES + rng.pick(&[0, 0, 1, 3, MORE]), draw::side(rng));
        fault::begin(seed);
        self.memory.store.all().fill(UNWRITTEN);
        let store = self.memory.store.own(length, at);
        bases::fill(store, seed);
        self.filled.clear();
        self.filled.extend_from_slice(store);
        let place = Place { base: bases::base(seed), length, at };
        for (i, damage) in (0..).zip(damages(&self.filled, rng, calls)) {
            fault::call(i);
            if let Err(why) = self.turn(&place, &damage, rng) {
                let what = || format!("store of seed {seed} ({}), call {i}, {damage:?}: {why}", place.base.kind);
                self.seen.differences.add(what);
                self.progress.differs();
                self.memory.store.all().fill(UNWRITTEN);
                self.refill(&place);
            }
            self.progress.turn();
        }
        fault::rest();
    }

    fn store(&mut self, place: &Place) -> &mut [u8] {
        self.memory.store.own(place.length, place.at)
    }

    /// The store is again as it was filled.
    fn refill(&mut self, place: &Place) {
        self.memory.store.own(place.length, place.at).copy_from_slice(&self.filled);
    }

    /// Damages the store, makes a call or loads a sheet, and mends the store.
    fn turn(&mut self, place: &Place, damage: &Damage, rng: &mut Rng) -> Result<(), String> {
        let before: Vec<(usize, u32)> = damage.words.iter().map(|&(at, word)| (at, exchange(self.store(place), at, word))).collect();
        let written = if rng.chance(LOADED) { self.load(place, damage, rng)? } else { self.call(place, damage, rng)? };
        if written {
            self.refill(place);
            return Ok(());
        }
        // Backwards, since a word may have been changed twice.
        for &(at, word) in before.iter().rev() {
            put(self.store(place), at, word);
        }
        Ok(())
    }

    /// A call on the store as it is; whether the store was written.
    fn call(&mut self, place: &Place, damage: &Damage, rng: &mut Rng) -> Result<bool, String> {
        let mut lent = lent(place, damage, rng);
        let store = self.memory.store.own(lent.length, lent.at);
        let call = draw::call(rng, store);
        let right = asked::told(store, &call);
        let changes = right.as_ref().ok().and_then(|accepted| accepted.changes);
        lent.access = if changes.is_some() { Access::Write } else { Access::Read };
        let (number, taken) = self.memory.call(&call, lent);
        self.seen.add(kind(&call), number, place.base.kind, damage.kind, taken);
        let list = right.as_ref().map_or(&[][..], |accepted| &accepted.list);
        let told = self.as_told(&call, number, &asked::words(&right), list, lent.side);
        let made = told.and_then(|()| changes.map_or(Ok(()), |at| self.changed(place, damage, &call, at)));
        made.map_err(|why| format!("`{call}`: {why}"))?;
        Ok(changes.is_some())
    }

    /// Whether number, reply and buffer are as they should be; both are unwritten again afterwards.
    fn as_told(&mut self, call: &Call, number: u32, words: &[u32; 5], list: &[u32], side: Side) -> Result<(), String> {
        let (buffer, reply) = lengths(call);
        let replied = self.memory.replied(reply, side, words);
        let listed = self.memory.listed(buffer, side, list);
        if number != words[0] {
            return Err(format!("returned {number}, and right is {words:?}"));
        }
        replied.and(listed)
    }

    /// What an accepted change leaves: the new text, a store that is in order, and nothing written but what a change
    /// writes.
    fn changed(&mut self, place: &Place, damage: &Damage, call: &Call, at: usize) -> Result<(), String> {
        let (Some(changed), Call::ChangeReference { text, .. } | Call::ChangeName { text, .. }) = (asked::place(call), call) else {
            return Ok(());
        };
        if !self.memory.store.edge_stands(place.length, place.at) {
            return Err("bytes beside the store were written".to_string());
        }
        let now = self.memory.store.own(place.length, place.at);
        damaged(&mut self.filled, damage, |before| after::change(before, now, at, changed, text))
    }

    /// Loads a sheet; whether the store was written.
    fn load(&mut self, place: &Place, damage: &Damage, rng: &mut Rng) -> Result<bool, String> {
        let mut lent = lent(place, damage, rng);
        let bytes = draw::sheet(rng);
        let reply = rng.pick(&[0, REPLY_BYTES - 1, REPLY_BYTES, REPLY_BYTES, REPLY_BYTES, REPLY_BYTES, draw::REPLY]);
        let right = match check(&bytes) {
            _ if lent.length < BYTES || reply < REPLY_BYTES => Err((21, 0)),
            Err(refusal) => Err((refusal.number, refusal.place)),
            Ok(_) => Ok(Accepted::default()),
        };
        lent.access = if right.is_ok() { Access::Write } else { Access::Read };
        let past = self.store(place)[BYTES..].to_vec();
        let (number, taken) = self.memory.load(&bytes, reply, lent);
        self.seen.add(seen::LOAD, number, place.base.kind, "a sheet", taken);
        let words = asked::words(&right);
        self.memory.replied(reply, lent.side, &words)?;
        if number != words[0] {
            return Err(format!("a load returned {number}, and right is {words:?}"));
        }
        match right {
            Ok(_) => self.loaded(place, &past).map(|()| true),
            Err(_) => Ok(false),
        }
    }

    /// What an accepted load leaves: a store that is in order, and all that is past it and beside it as it was.
    fn loaded(&mut self, place: &Place, past: &[u8]) -> Result<(), String> {
        let stands = self.memory.store.edge_stands(place.length, place.at);
        let store = self.store(place);
        match sound::condition(store) {
            0 if stands && store[BYTES..] == *past => Ok(()),
            0 => Err("a load wrote past or beside the store".to_string()),
            number => Err(format!("a load left a store that is {number}")),
        }
    }
}

/// What is lent of a store, to be read unless it is said otherwise. A shorter store is any part of the memory, at the
/// same end.
fn lent(place: &Place, damage: &Damage, rng: &mut Rng) -> Lent {
    Lent { length: damage.length.unwrap_or(place.length), at: place.at, access: Access::Read, side: draw::side(rng) }
}

fn exchange(store: &mut [u8], at: usize, word: u32) -> u32 {
    let before = get(store, at);
    put(store, at, word);
    before
}

/// So many damages of a store, some of which leave it as it is. One that is not sound gets a few other words in its
/// header, or is cut.
fn damages(store: &[u8], rng: &mut Rng, calls: u64) -> Vec<Damage> {
    let none = Damage { kind: "no damage", words: Vec::new(), length: None, must: Must::Either };
    let mut all = match sound::condition(store) {
        0 | 23 => drawn(store, rng, calls),
        _ => (0..calls).map(|_| header_damage(rng)).collect(),
    };
    for damage in &mut all {
        if rng.chance(40) {
            *damage = none.clone();
        }
    }
    all
}

fn header_damage(rng: &mut Rng) -> Damage {
    let words = (0..rng.below(3)).map(|_| (4 * rng.below(header::END / 4), rng.below(4) as u32)).collect();
    let length = if rng.chance(5) { Some(rng.below(BYTES)) } else { None };
    Damage { kind: "words of the header", words, length, must: Must::Either }
}

#[cfg(test)]
mod tests {
    use super::*;

    #[test]
    fn the_same_numbers_on_one_thread_and_on_two() {
        let numbers = |report: Report| report.met.split(';').next().map(str::to_string);
        let [one, two] = [1, 2].map(|threads| run_on(threads, 9_000, 6).unwrap());
        assert_eq!((one.differences, two.differences), (0, 0));
        assert_eq!(numbers(one), numbers(two));
    }

    #[test]
    fn the_plan_is_all_calls() {
        for calls in [0, 1, 1_500, 20_001] {
            assert_eq!(plan(calls, 7).iter().map(|(_, calls)| calls).sum::<u64>(), calls);
        }
    }
}
