//! Random modules written into a store and read back; then damaged stores, judged by the compiled check, as a call
//! shows it, and by the one from the page. A refused call leaves every byte.

use super::build::{build, Texts};
use super::coverage::Coverage;
use super::damage::{damaged, drawn, Must, KINDS};
use super::layout::{self, header, put};
use super::model::{self, Size};
use super::module::Module;
use super::same::same_module;
use super::sound::condition;
use super::{page, Lent};
use crate::exported;
use crate::progress::{grouped, Progress};
use crate::report::Report;
use crate::split::{split, threads};
use generate::Rng;
use std::collections::BTreeMap;

/// The numbers that a check can give, in the order of the columns.
const CONDITIONS: [u32; 4] = [0, 21, 22, 23];

/// How often each kind of store came out as what, and the first difference of each kind.
#[derive(Default)]
struct Run {
    seen: BTreeMap<String, [u64; 4]>,
    differences: BTreeMap<String, (u64, String)>,
    coverage: Coverage,
}

/// So many modules, and so many stores of any bytes, are one part of a run.
const EACH: u64 = 4;

/// Builds so many modules and damages them at least so many times in all.
pub fn run(fills: u64, damages: u64, seed: u64) -> Report {
    run_on(threads(), fills, damages, seed)
}

fn run_on(threads: usize, fills: u64, damages: u64, seed: u64) -> Report {
    let (each, wholes) = (damages.div_ceil(fills.max(1)), damages.div_ceil(20));
    let mut run = Run::default();
    run.family(threads, "modules and their damage", fills, |run, lent, i| run.fill(lent, seed.wrapping_add(i), each));
    run.family(threads, "any bytes", wholes, |run, lent, i| run.whole(lent, seed.wrapping_add(i)));
    run.print(fills);
    let differences = run.differences.values().map(|(count, _)| count).sum();
    Report { met: run.met(fills), differences, complete: true }
}

/// Writes the random module of a seed into a store.
pub fn filled<T>(store: &mut [u8], size: &Size, rng: &mut Rng, look: impl FnOnce(&mut [u8], &Module) -> T) -> T {
    let texts = model::texts(rng, size);
    let mut module = model::module(rng, size, &texts);
    let to_come = texts.iter().map(|text| 4 + text.len()).sum();
    module.texts = build(store, &module, Texts::new(to_come), rng);
    look(store, &module)
}

impl Run {
    /// So many stores, each by its number. Every one is soiled before anything else, so that it is the same in any
    /// store that is lent.
    fn family(&mut self, threads: usize, family: &str, count: u64, store: impl Fn(&mut Run, &mut Lent, u64) + Sync) {
        let progress = Progress::new(format!("stores, {family}"), count);
        let parts = split(threads, count, EACH, Lent::new, |lent, turns| {
            let mut run = Run::default();
            for i in turns {
                let before = run.differences.len();
                store(&mut run, lent, i);
                (before..run.differences.len()).for_each(|_| progress.differs());
                progress.turn();
            }
            run
        });
        drop(progress);
        parts.into_iter().for_each(|part| self.merge(part));
    }

    fn merge(&mut self, later: Run) {
        for (kind, counts) in later.seen {
            self.seen.entry(kind).or_default().iter_mut().zip(counts).for_each(|(sum, count)| *sum += count);
        }
        for (kind, (count, first)) in later.differences {
            self.differences.entry(kind).or_insert((0, first)).0 += count;
        }
        self.coverage.merge(&later.coverage);
    }

    fn met(&self, fills: u64) -> String {
        let sums = self.sums();
        let stores = CONDITIONS.iter().zip(sums).map(|(number, count)| format!("{number}: {}", grouped(count)));
        let stores: Vec<String> = stores.collect();
        format!("{} modules read back; {} stores judged, {}", grouped(fills), grouped(sums.iter().sum()), stores.join(", "))
    }

    /// How many stores there were of each condition.
    fn sums(&self) -> [u64; 4] {
        let mut sums = [0; 4];
        self.seen.values().for_each(|seen| sums.iter_mut().zip(seen).for_each(|(sum, count)| *sum += count));
        sums
    }

    /// One module: written over soiled bytes, read back, and damaged so many times.
    fn fill(&mut self, lent: &mut Lent, seed: u64, damages: u64) {
        let mut rng = Rng::new(seed);
        let size = Size::of_seed(&mut rng, seed);
        lent.soil(&mut rng);
        let sound = if size.exprs == 0 { 23 } else { 0 };
        let built = filled(lent.store(), &size, &mut rng, |store, module| same_module(&page::read(store)?, module));
        if let Err(why) = built {
            return self.differs("filled store", format!("seed {seed}, {why}"));
        }
        self.coverage.add(lent.store());
        self.judged("filled store", lent.store(), Some(sound), || format!("seed {seed}"));
        self.damage(lent.store(), &mut rng, sound, damages, seed);
        if !lent.margins_stand() {
            self.differs("filled store", format!("seed {seed}, bytes outside the store were written"));
            *lent = Lent::new();
        }
    }

    /// Damages a filled store, one time after the other, and mends it again.
    fn damage(&mut self, store: &mut [u8], rng: &mut Rng, sound: u32, damages: u64, seed: u64) {
        let before = store.to_vec();
        for (i, damage) in drawn(store, rng, damages).iter().enumerate() {
            let must = match damage.must {
                Must::Stay => Some(sound),
                Must::Break => Some(22),
                Must::Short => Some(21),
                Must::Either => None,
            };
            damaged(store, damage, |store| self.judged(damage.kind, store, must, || format!("seed {seed}, damage {i}: {damage:?}")));
        }
        self.judged("mended store", store, Some(sound), || format!("seed {seed}"));
        // The mending puts back what the damage took, so whatever else was written shows.
        if store != before {
            self.differs("mended store", format!("seed {seed}, a refused call wrote to the store"));
        }
    }

    /// Bytes that nobody built: what soils a store, as it is, or with a header that is in order.
    fn whole(&mut self, lent: &mut Lent, seed: u64) {
        let mut rng = Rng::new(!seed);
        lent.soil(&mut rng);
        let (kind, must) = match seed % 3 {
            0 => ("any bytes", None),
            1 => {
                empty_header(lent.store());
                ("any bytes under an empty header", Some(23))
            }
            _ => {
                small_header(lent.store(), &mut rng);
                ("any bytes under small counts", None)
            }
        };
        self.judged(kind, lent.store(), must, || format!("seed {seed}"));
    }

    /// Counts what both checks tell, and a difference between them or from what must be.
    fn judged(&mut self, kind: &str, store: &[u8], must: Option<u32>, name: impl Fn() -> String) {
        let (told, page) = (exported::condition(store), condition(store));
        if let Some(column) = CONDITIONS.iter().position(|&number| number == page) {
            self.seen.entry(kind.to_string()).or_default()[column] += 1;
        }
        if told != page || must.is_some_and(|must| must != page) {
            let must = must.map_or(String::new(), |must| format!(", must be {must}"));
            self.differs(kind, format!("told {told}, page {page}{must}; {}", name()));
        }
    }

    fn differs(&mut self, kind: &str, what: String) {
        let (count, _) = self.differences.entry(kind.to_string()).or_insert((0, what));
        *count += 1;
    }

    fn print(&self, fills: u64) {
        println!("{fills} modules built and read back");
        self.coverage.print();
        println!("stores by kind and condition:");
        println!("{:<34} {:>8} {:>8} {:>8} {:>8} {:>8}", "", "all", "0", "21", "22", "23");
        for (kind, seen) in &self.seen {
            print_row(kind, *seen);
        }
        print_row("all", self.sums());
        for kind in KINDS.iter().filter(|&&kind| !self.seen.contains_key(kind)) {
            println!("no store had a place for: {kind}");
        }
        for (kind, (count, first)) in &self.differences {
            println!("DIFFERENCES, {kind}: {count}, the first: {first}");
        }
        println!("{} differences", self.differences.values().map(|(count, _)| count).sum::<u64>());
    }
}

/// Nothing is in use.
pub fn empty_header(store: &mut [u8]) {
    store[..header::END].fill(0);
    for table in [layout::EXPRS, layout::SCOPES, layout::REFERENCES] {
        put(store, table.at, 0);
    }
}

/// Counts of up to two, and lists that are all empty.
pub fn small_header(store: &mut [u8], rng: &mut Rng) {
    for at in (0..header::END).step_by(4) {
        put(store, at, rng.below(3) as u32);
    }
    put(store, header::TEXTS, layout::TEXTS_UNSPENT as u32);
    for table in [layout::EXPRS, layout::SCOPES, layout::REFERENCES] {
        for row in 0..3 {
            put(store, table.word(row, 0), 0);
        }
    }
}

fn print_row(kind: &str, seen: [u64; 4]) {
    let [sound, short, broken, empty] = seen;
    println!("{kind:<34} {:>8} {sound:>8} {short:>8} {broken:>8} {empty:>8}", seen.iter().sum::<u64>());
}

#[cfg(test)]
mod tests {
    use super::*;

    #[test]
    fn the_same_on_one_thread_and_on_two() {
        let [one, two] = [1, 2].map(|threads| run_on(threads, 3 * EACH, 200, 1));
        assert_eq!((one.met, one.differences), (two.met, two.differences));
        assert_eq!(one.differences, 0);
    }
}
