//! Calls, one after the other, on loaded sheets: number, reply and buffer of each, and the whole store after it, are
//! what the oracle's book works out afresh over the Rust; and what a change moved is what a change of that text may
//! move.
//!
//! - `changes`: random changes of text; `draw`: random calls, refused ones among them.
//! - `seen`: what the calls of a run met.

pub mod changes;
mod draw;
mod seen;

use crate::exported;
use crate::lower::sheets::random;
use crate::lower::Named;
use crate::making::{make, Made};
use crate::nameres::expected::Right;
use crate::nameres::{long_texts, points, sheets};
use crate::progress::Progress;
use crate::realistic;
use crate::report::{Differences, Report};
use crate::split::{split, threads};
use crate::store::Lent;
use book::{locality, Book, Call, Outcome, REPLY_BYTES};
use canon::{Facts, Reading};
use changes::can_change;
use draw::Calls;
use generate::{Preset, Rng};
use seen::Seen;
use sheet::{Node, MAX_NODES};
use tix::{with_big_stack, Tix};

/// How many times more calls a load gets whose texts are to spend the change room.
const GREEDY: u64 = 4;

/// So many loads are one part of a run.
const EACH: u64 = 4;

/// Loads so many sheets and makes so many calls on all of them together.
pub fn run(loads: u64, calls: u64, seed: u64) -> Result<Report, String> {
    run_on(threads(), loads, calls, seed)
}

fn run_on(threads: usize, loads: u64, calls: u64, seed: u64) -> Result<Report, String> {
    let sheets = with_big_stack(Sheets::new)?;
    let shares = shares(loads, calls, seed);
    let progress = Progress::new("calls", calls);
    // Every load soils the store first, so that one store after the other would do.
    let parts = split(threads, loads, EACH, Lent::new, |lent, turns| {
        let mut run = Run { lent, before: Vec::new(), seen: Seen::default(), differences: Differences::default(), progress: &progress };
        turns.for_each(|i| run.load(&sheets, seed.wrapping_add(i), shares[i as usize]));
        (run.seen, run.differences)
    });
    drop(progress);
    let (mut seen, mut differences) = (Seen::default(), Differences::default());
    for (later, differing) in parts {
        seen.merge(&later);
        differences.merge(differing);
    }
    seen.print();
    differences.print();
    println!("{} differences", differences.count);
    Ok(Report { met: seen.met(), differences: differences.count, complete: seen.complete() })
}

/// How many calls each load gets: a little less than its share, so that the greedy ones, one in eight, can have more.
fn shares(loads: u64, calls: u64, seed: u64) -> Vec<u64> {
    let mut left = calls;
    let share = |i: u64| {
        let share = left.div_ceil(loads - i) * 8 / (7 + GREEDY);
        let share = if draw::greedy(seed.wrapping_add(i)) { GREEDY * share } else { share };
        let share = if i + 1 == loads { left } else { share.min(left) };
        left -= share;
        share
    };
    (0..loads).map(share).collect()
}

/// The sheets that are not random, and have a text to change.
struct Sheets {
    points: Vec<Named>,
    large: Vec<Named>,
    /// With texts that are longer than any new text.
    long: Named,
}

impl Sheets {
    fn new() -> Result<Self, String> {
        let points = points()?.into_iter().filter(|sheet| changeable(&sheet.nodes));
        Ok(Sheets { points: points.collect(), large: sheets::large(), long: long_texts() })
    }

    /// The sheet of a seed: every fourth is a point, one in fifty a large one, one has long texts, one is like a NixOS
    /// module, and the others are random.
    fn of_seed(&self, seed: u64) -> Named {
        let turn = |list: &[Named], number: u64| list[number as usize % list.len()].clone();
        match seed % 50 {
            7 => turn(&self.large, seed / 50),
            31 => self.long.clone(),
            43 => realistic::named(seed, 512),
            _ if seed.is_multiple_of(4) => turn(&self.points, seed / 4),
            _ => Named { name: "a random sheet".to_string(), nodes: grown(&mut Rng::new(seed)) },
        }
    }
}

fn changeable(nodes: &[Node]) -> bool {
    can_change(&Tix::new(nodes).facts())
}

/// A random sheet that has a text to change.
fn grown(rng: &mut Rng) -> Vec<Node> {
    loop {
        let seed = rng.draw();
        let nodes = match rng.below(10) {
            0 | 1 => Preset::Keys.sheet(seed),
            2 => Preset::Small.sheet(seed),
            3 => Preset::Medium.sheet(seed),
            4 => Preset::Withs.sheet(seed),
            _ => random(seed, MAX_NODES),
        };
        if changeable(&nodes) {
            return nodes;
        }
    }
}

struct Run<'a> {
    lent: &'a mut Lent,
    /// The store with the bytes about it before a call that is to leave them as they are.
    before: Vec<u8>,
    seen: Seen,
    differences: Differences,
    progress: &'a Progress,
}

impl Run<'_> {
    /// Loads the sheet of a seed and makes so many calls, or until something differs.
    fn load(&mut self, sheets: &Sheets, seed: u64, calls: u64) {
        let sheet = sheets.of_seed(seed);
        self.lent.soil(&mut Rng::new(seed));
        let mut loaded = Loaded::new(&sheet.nodes);
        let store = self.lent.store();
        if let Err(why) = exported::loaded(&sheet::write(&sheet.nodes), store).and_then(|()| loaded.right.holds(store)) {
            return self.differs(&sheet, &format!("seed {seed}, as loaded: {why}"));
        }
        self.before.clear();
        self.before.extend(self.lent.all());
        let mut drawn = Calls::new(seed);
        for i in 1..=calls {
            let call = drawn.next(&loaded.book, &loaded.right.facts, loaded.right.spent());
            self.progress.turn();
            if let Err(why) = self.call(&mut loaded, &call) {
                *self.lent = Lent::new();
                return self.differs(&sheet, &format!("seed {seed}, call {i}, `{call}`: {why}"));
            }
        }
        self.seen.end(&loaded.first, loaded.right.spent());
    }

    fn call(&mut self, loaded: &mut Loaded, call: &Call) -> Result<(), String> {
        let made = make(self.lent.store(), call);
        let outcome = loaded.book.call(call);
        as_told(&made, &outcome)?;
        locality::check(&loaded.right.facts, call, &outcome)?;
        self.seen.add(loaded, call, &outcome);
        if outcome.changed == Some(true) {
            loaded.changed(call);
            loaded.right.holds(self.lent.store())?;
            self.before.copy_from_slice(self.lent.all());
            return if self.lent.margins_stand() { Ok(()) } else { Err("bytes outside the store were written".to_string()) };
        }
        if self.lent.all() != self.before {
            return Err("the store or bytes about it were written".to_string());
        }
        Ok(())
    }

    fn differs(&mut self, sheet: &Named, what: &str) {
        self.differences.add(|| sheet.difference(what));
        self.progress.differs();
    }
}

/// Whether a call returned, replied and left in the buffer what the book says.
fn as_told(made: &Made, outcome: &Outcome) -> Result<(), String> {
    if made.number != outcome.refused {
        return Err(format!("returned {}, and the book says `{outcome}`", made.number));
    }
    let (answer, what) = match &outcome.answer {
        Some(answer @ (canon::Answer::Definition(number) | canon::Answer::Builtin(number))) => (answer.number(), *number),
        Some(answer) => (answer.number(), 0),
        None => (0, 0),
    };
    let words = [outcome.refused, outcome.place, answer, what, outcome.list.len() as u32];
    made.reply.holds(&words).map_err(|why| format!("reply: {why}"))?;
    made.buffer.holds(&outcome.list).map_err(|why| format!("buffer: {why}"))
}

/// A loaded sheet: the book, what is right for the store, and what was right when it was loaded.
struct Loaded {
    book: Book<Tix>,
    right: Right,
    first: Facts,
}

impl Loaded {
    fn new(nodes: &[Node]) -> Self {
        let book = Book::new(Tix::new(nodes));
        let first = book.facts();
        Loaded { book, right: Right::loaded(nodes, first.clone()), first }
    }

    /// A change was accepted whose text differs from the old.
    fn changed(&mut self, call: &Call) {
        if let Call::ChangeName { text, .. } | Call::ChangeReference { text, .. } = call {
            self.right.change(self.book.held(), Some(text));
        }
    }
}

/// A change as the book is told it, in a buffer of so many bytes and with a reply that is just long enough.
fn change_call(change: changes::Change, buffer: usize) -> Call {
    let (text, reply) = (change.text, REPLY_BYTES);
    match change.target {
        changes::Target::Name(number) => Call::ChangeName { number, text, buffer, reply },
        changes::Target::Reference(number) => Call::ChangeReference { number, text, buffer, reply },
    }
}

#[cfg(test)]
mod tests {
    use super::*;

    #[test]
    fn the_same_on_one_thread_and_on_two() {
        let [one, two] = [1, 2].map(|threads| run_on(threads, 3 * EACH, 200, 3).unwrap());
        assert_eq!((one.met, one.differences), (two.met, two.differences));
        assert_eq!(one.differences, 0);
    }

    #[test]
    fn shares_are_all_calls() {
        for (loads, calls) in [(1, 7), (60, 3_000), (1_000, 50_000), (1_000, 10)] {
            assert_eq!(shares(loads, calls, 1).iter().sum::<u64>(), calls);
        }
        let greedy = shares(1_000, 50_000, 0)[8];
        assert!((100..300).contains(&greedy), "{greedy}");
    }
}
