//! Number and place, by the compiled load and by the oracle's checker, over many sheets. A refused load leaves every
//! byte of the store.

use crate::edged::Edged;
use crate::exported::{self, REPLY};
use crate::progress::{grouped, Progress};
use crate::report::{Differences, Report};
use crate::split::{split, threads};
use crate::store::Lent;
use generate::{Preset, Rng};
use sheet::check::check;
use sheet::MAX_BYTES;
use std::collections::BTreeMap;
use tix::with_big_stack;

/// How long the reply is, in turn.
const REPLIES: [usize; 4] = [REPLY, REPLY, REPLY + 1, 64];
/// How long it is for a second load of one sheet in eight: too short.
const SHORT: [usize; 3] = [0, REPLY - 1, 4];

/// The refusals that a sheet can meet.
const NUMBERS: [u32; 10] = [1, 2, 3, 4, 5, 6, 7, 31, 32, 33];

/// So many sheets are loaded into one store, one after the other.
const EACH: u64 = 500;

/// What was seen of a family of sheets: how often each number came, and how many bytes there were.
#[derive(Default)]
struct Seen {
    numbers: BTreeMap<u32, u64>,
    bytes: u64,
    differences: Differences,
}

struct Run<'a> {
    lent: Lent,
    /// The store as it is to stay.
    before: Vec<u8>,
    seen: Seen,
    progress: &'a Progress,
}

/// Loads so many damaged and so many valid sheets, and some of the longest.
pub fn run(damaged: u64, valid: u64, seed: u64) -> Report {
    run_on(threads(), damaged, valid, seed)
}

fn run_on(threads: usize, damaged: u64, valid: u64, seed: u64) -> Report {
    let mut all = family(threads, "damaged", damaged, seed, |run, i| run.damaged(i, seed));
    all.merge(family(threads, "valid", valid, seed, |run, i| run.valid(i, seed)));
    all.merge(with_big_stack(|| limits(seed)));
    all.differences.print();
    println!("{} sheets, {} differences", all.sheets(), all.differences.count);
    let never = all.never();
    if !never.is_empty() {
        println!("refusals that never came up: {never:?}");
    }
    Report { met: all.met(), differences: all.differences.count, complete: never.is_empty() }
}

/// So many sheets, each by its number.
fn family(threads: usize, name: &str, count: u64, seed: u64, sheet: impl Fn(&mut Run, u64) + Sync) -> Seen {
    let progress = Progress::new(format!("sheets, {name}"), count);
    let parts = split(
        threads,
        count,
        EACH,
        || (),
        |(), turns| {
            let mut run = Run::new(seed.wrapping_add(turns.start), &progress);
            turns.for_each(|i| sheet(&mut run, i));
            run.seen
        },
    );
    let mut seen = Seen::default();
    parts.into_iter().for_each(|part| seen.merge(part));
    drop(progress);
    seen.print(name);
    seen
}

/// Sheets at the longest and about it.
fn limits(seed: u64) -> Seen {
    let whole = generate::exactly_written(MAX_BYTES);
    let cut = whole[..MAX_BYTES - 1].to_vec();
    let fixed = [
        ("in order, 1,048,576 bytes", whole),
        ("without its last line's end, 1,048,575 bytes", cut),
        ("in order but for its 1,048,577 bytes", generate::over_long()),
        ("1,048,576 bytes x", vec![b'x'; MAX_BYTES]),
        ("1,048,577 bytes x", vec![b'x'; MAX_BYTES + 1]),
        ("16 times the longest", vec![b'\n'; 16 * MAX_BYTES]),
        ("no bytes", Vec::new()),
    ];
    let progress = Progress::new("sheets, the longest", fixed.len() as u64);
    let mut run = Run::new(seed, &progress);
    for (i, (what, bytes)) in (0..).zip(fixed) {
        let number = run.sheet(i, &bytes, || what.to_string());
        println!("{what}: {}", if number == 0 { "accepted".to_string() } else { format!("refusal {number}") });
    }
    run.seen
}

impl<'a> Run<'a> {
    fn new(seed: u64, progress: &'a Progress) -> Self {
        let mut lent = Lent::new();
        lent.soil(&mut Rng::new(seed));
        let before = lent.all().to_vec();
        Run { lent, before, seen: Seen::default(), progress }
    }

    fn damaged(&mut self, i: u64, seed: u64) {
        let (bytes, what) = generate::damaged(seed.wrapping_add(i));
        self.sheet(i, &bytes, || format!("damaged, seed {}: {what}", seed.wrapping_add(i)));
    }

    fn valid(&mut self, i: u64, seed: u64) {
        // A preset's seeds follow one another, which goes through its sorts.
        let (preset, seed) = (Preset::ALL[(i % 10) as usize], seed.wrapping_add(i / 10));
        let bytes = sheet::write(&preset.sheet(seed));
        let number = self.sheet(i, &bytes, || format!("valid, preset {}, seed {seed}", preset.name()));
        if number != 0 {
            self.differs(|| format!("a sheet of the preset {}, seed {seed}, is refused with {number}", preset.name()));
        }
    }

    /// Loads the sheet of a number and returns the oracle's number for it.
    fn sheet(&mut self, i: u64, bytes: &[u8], name: impl Fn() -> String) -> u32 {
        let expected = check(bytes).map_or_else(|refusal| (refusal.number, refusal.place), |_| (0, 0));
        let turn = |lengths: &[usize]| lengths[(i % lengths.len() as u64) as usize];
        let short = Some(turn(&SHORT)).filter(|_| i.is_multiple_of(8));
        for reply in short.into_iter().chain([turn(&REPLIES)]) {
            if let Err(why) = self.load(bytes, reply, expected) {
                self.differs(|| format!("{}, reply of {reply} bytes: {why}", name()));
            }
        }
        *self.seen.numbers.entry(expected.0).or_insert(0) += 1;
        self.seen.bytes += bytes.len() as u64;
        self.progress.turn();
        expected.0
    }

    /// Loads a sheet with a reply of so many bytes; what is not as expected.
    fn load(&mut self, bytes: &[u8], length: usize, expected: (u32, u32)) -> Result<(), String> {
        // A reply that is too short is refused before the sheet is looked at.
        let (refused, place) = if length < REPLY { (21, 0) } else { expected };
        let (sheet, mut reply) = (bytes.to_vec(), Edged::new(length));
        let number = exported::load(&sheet, self.lent.store(), reply.slice());
        if number != refused {
            return Err(format!("number {number}, right is {refused} at {place}"));
        }
        reply.holds(&[refused, place, 0, 0, 0])?;
        if sheet != bytes {
            return Err("the sheet was written".to_string());
        }
        self.left(number)
    }

    /// What a load leaves of the store: all as it was, or a module that is in order.
    fn left(&mut self, number: u32) -> Result<(), String> {
        if number != 0 {
            let stands = self.lent.all() == self.before;
            return if stands { Ok(()) } else { Err("a refused load changed the store or bytes about it".to_string()) };
        }
        let condition = exported::condition(self.lent.store());
        let stands = self.lent.margins_stand();
        self.before.copy_from_slice(self.lent.all());
        match (condition, stands) {
            (0, true) => Ok(()),
            (0, false) => Err("bytes outside the store were written".to_string()),
            (number, _) => Err(format!("the store that a load left is refused with {number}")),
        }
    }

    fn differs(&mut self, what: impl FnOnce() -> String) {
        self.seen.differences.add(what);
        self.progress.differs();
    }
}

impl Seen {
    fn merge(&mut self, later: Seen) {
        later.numbers.into_iter().for_each(|(number, count)| *self.numbers.entry(number).or_insert(0) += count);
        self.bytes += later.bytes;
        self.differences.merge(later.differences);
    }

    fn sheets(&self) -> u64 {
        self.numbers.values().sum()
    }

    /// The refusals that never came up.
    fn never(&self) -> Vec<u32> {
        NUMBERS.into_iter().filter(|number| !self.numbers.contains_key(number)).collect()
    }

    fn print(&self, family: &str) {
        println!("{family}: {} sheets, {} bytes", self.sheets(), self.bytes);
        for (number, count) in &self.numbers {
            let what = if *number == 0 { "accepted".to_string() } else { format!("refusal {number}") };
            println!("    {what}: {count}");
        }
    }

    fn met(&self) -> String {
        let numbers = self.numbers.iter().map(|(number, &count)| match number {
            0 => format!("accepted {}", grouped(count)),
            number => format!("{number}: {}", grouped(count)),
        });
        format!("{}; {} bytes", numbers.collect::<Vec<_>>().join(", "), grouped(self.bytes))
    }
}

#[cfg(test)]
mod tests {
    use super::*;

    #[test]
    fn the_same_on_one_thread_and_on_two() {
        let [one, two] = [1, 2].map(|threads| run_on(threads, 2 * EACH + 20, 20, 5));
        assert_eq!((one.met, one.differences), (two.met, two.differences));
        assert!(one.complete && one.differences == 0);
    }
}
