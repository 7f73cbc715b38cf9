//! What the calls on any bytes met, and the longest of them.

use crate::making::KINDS;
use crate::progress::grouped;
use crate::report::Differences;
use std::collections::BTreeMap;

/// A load stands behind the other kinds of calls.
pub const LOAD: usize = KINDS.len();

/// So many of the longest calls are printed.
const LONGEST: usize = 12;

#[derive(Default)]
pub struct Seen {
    /// By the kind of call and the number returned.
    numbers: BTreeMap<(usize, u32), u64>,
    /// By the kind of store how many calls there were, and their microseconds together.
    bases: BTreeMap<&'static str, (u64, f64)>,
    /// By the kind of call, the number and the kind of store: the longest, in microseconds, and what was damaged.
    longest: BTreeMap<(usize, u32, &'static str), (f64, &'static str)>,
    pub differences: Differences,
}

impl Seen {
    pub fn add(&mut self, kind: usize, number: u32, base: &'static str, damage: &'static str, taken: f64) {
        *self.numbers.entry((kind, number)).or_default() += 1;
        let (calls, sum) = self.bases.entry(base).or_default();
        *calls += 1;
        *sum += taken;
        let longest = self.longest.entry((kind, number, base)).or_default();
        if taken > longest.0 {
            *longest = (taken, damage);
        }
    }

    /// Adds what a later part of the run met.
    pub fn merge(&mut self, later: Seen) {
        later.numbers.into_iter().for_each(|(of, count)| *self.numbers.entry(of).or_default() += count);
        for (base, (calls, sum)) in later.bases {
            let all = self.bases.entry(base).or_default();
            *all = (all.0 + calls, all.1 + sum);
        }
        for (of, one) in later.longest {
            let longest = self.longest.entry(of).or_default();
            if one.0 > longest.0 {
                *longest = one;
            }
        }
        self.differences.merge(later.differences);
    }

    fn calls(&self) -> u64 {
        self.numbers.values().sum()
    }

    /// The numbers that were returned, and how often.
    pub fn met(&self) -> String {
        let mut sums = BTreeMap::new();
        self.numbers.iter().for_each(|((_, number), count)| *sums.entry(*number).or_insert(0) += count);
        let numbers = sums.into_iter().map(|(number, count)| match number {
            0 => format!("accepted {}", grouped(count)),
            number => format!("{number}: {}", grouped(count)),
        });
        numbers.collect::<Vec<_>>().join(", ")
    }

    /// Milliseconds of the longest call.
    pub fn longest(&self) -> f64 {
        self.longest.values().map(|longest| longest.0).fold(0.0, f64::max) / 1e3
    }

    pub fn print(&self) {
        println!("{} calls, each between pages that can't be touched:", self.calls());
        for kind in 0..=LOAD {
            let numbers = self.numbers.range((kind, 0)..=(kind, u32::MAX));
            let numbers: Vec<String> = numbers.map(|((_, number), count)| format!("{number}: {count}")).collect();
            println!("    {}, by the number returned: {}", name(kind), numbers.join(", "));
        }
        println!("by the store, with the mean time of a call in microseconds:");
        for (base, (calls, sum)) in &self.bases {
            println!("    {base}: {calls}, {:.1}", sum / *calls as f64);
        }
        self.print_longest();
    }

    fn print_longest(&self) {
        let mut all: Vec<_> = self.longest.iter().collect();
        all.sort_by(|one, other| other.1 .0.total_cmp(&one.1 .0));
        println!("the longest calls, in microseconds of the processor's time:");
        for ((kind, number, base), (taken, damage)) in all.into_iter().take(LONGEST) {
            let what = if *number == 0 { "accepted".to_string() } else { format!("refused with {number}") };
            println!("    {taken:.0}: {}, {what}; store: {base}; damage: {damage}", name(*kind));
        }
    }
}

fn name(kind: usize) -> &'static str {
    KINDS.get(kind).copied().unwrap_or("load")
}
