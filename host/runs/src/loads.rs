//! Sheets loaded in a store: module, scopes, answers and references that are read back are the Rust's, nothing is
//! spent, and what the store is asked it tells.

use crate::exported;
use crate::lending::{random, Lending};
use crate::lower::{self, Named};
use crate::making::make;
use crate::nameres::expected::Right;
use crate::nameres::{points, sheets};
use crate::progress::{grouped, Progress};
use crate::realistic;
use crate::report::{Differences, Report};
use crate::split::{split, threads};
use crate::store::coverage::Coverage;
use book::{Call, REPLY_BYTES};
use canon::{Answer, Facts, Reading, ScopeKind};
use sheet::Node;
use tix::Tix;

/// At most so many References, and so many names, of a load are asked about: each asking checks the whole store first.
const ASKED: usize = 200;
/// So many random sheets, and so many of the others, are loaded into one store, one after the other.
const EACH: u64 = 256;
const EACH_OTHER: u64 = 8;

/// Loads the points, the sheets at the limits, those like the files that people write, and so many random ones of up to
/// so many nodes.
pub fn run(count: u64, most: usize, seed: u64) -> Result<Report, String> {
    run_on(threads(), count, most, seed)
}

fn run_on(threads: usize, count: u64, most: usize, seed: u64) -> Result<Report, String> {
    let mut run = Run { threads, seed, seen: Seen::default() };
    run.list("points that need care", &points()?);
    run.list("sheets at the limits", &lower::sheets::limits().into_iter().chain(sheets::large()).collect::<Vec<_>>());
    run.list("sheets like a NixOS module", &realistic::all());
    run.family("random sheets", count, EACH, |i| random(most, seed.wrapping_add(i)));
    run.seen.counts.print_kinds();
    run.seen.coverage.print_sorts();
    run.seen.differences.print();
    println!("{} sheets, {} differences", run.seen.counts.sheets, run.seen.differences.count);
    Ok(Report { met: run.seen.counts.met(), differences: run.seen.differences.count, complete: true })
}

struct Run {
    threads: usize,
    seed: u64,
    seen: Seen,
}

/// What there was to compare, and what differed.
#[derive(Default)]
struct Seen {
    counts: Counts,
    coverage: Coverage,
    differences: Differences,
}

#[derive(Default, Clone, Copy)]
struct Counts {
    sheets: u64,
    nodes: u64,
    exprs: u64,
    unwalked: u64,
    names: u64,
    unheld: u64,
    hidden: u64,
    duplicates: u64,
    scopes: u64,
    withs: u64,
    /// How many References have which of the answers 0 to 3.
    answers: [u64; 4],
}

impl Run {
    fn list(&mut self, family: &str, sheets: &[Named]) {
        self.family(family, sheets.len() as u64, EACH_OTHER, |i| sheets[i as usize].clone());
    }

    /// So many sheets, each by its number.
    fn family(&mut self, family: &str, count: u64, each: u64, sheet: impl Fn(u64) -> Named + Sync) {
        let progress = Progress::new(format!("loads, {family}"), count);
        let part = |(): &mut (), turns: std::ops::Range<u64>| {
            let (mut lending, mut seen) = (Lending::new(self.seed.wrapping_add(turns.start)), Seen::default());
            turns.for_each(|i| seen.load(&mut lending, &sheet(i), &progress));
            Seen { differences: lending.differences, ..seen }
        };
        let parts = split(self.threads, count, each, || (), part);
        drop(progress);
        let before = self.seen.counts;
        for part in parts {
            self.seen.counts.merge(&part.counts);
            self.seen.coverage.merge(&part.coverage);
            self.seen.differences.merge(part.differences);
        }
        self.seen.counts.print(family, before);
    }
}

impl Seen {
    fn load(&mut self, lending: &mut Lending, sheet: &Named, progress: &Progress) {
        let facts = Tix::new(&sheet.nodes).facts();
        self.counts.add(&sheet.nodes, &facts);
        if lending.sheet(sheet, |store| compared(store, &sheet.nodes, facts)) {
            self.coverage.add(lending.store());
        } else {
            progress.differs();
        }
        progress.turn();
    }
}

/// Loads a sheet in a store that may hold anything, and compares.
fn compared(store: &mut [u8], nodes: &[Node], facts: Facts) -> Result<(), String> {
    exported::loaded(&sheet::write(nodes), store)?;
    let right = Right::loaded(nodes, facts);
    right.holds(store)?;
    right.holders(store)?;
    let resolution = &right.facts.resolution;
    let some = |count: usize| count.div_ceil(ASKED).max(1);
    for (&e, answer) in resolution.answers.iter().step_by(some(resolution.answers.len())) {
        asked_reference(store, e, answer)?;
    }
    for (name, list) in (0..).zip(&resolution.references).step_by(some(resolution.references.len())) {
        let call = Call::AskName { number: name, buffer: 4 * list.len(), reply: REPLY_BYTES };
        asked(store, &call, [0, 0], list)?;
    }
    Ok(())
}

fn asked_reference(store: &mut [u8], e: u32, answer: &Answer) -> Result<(), String> {
    let (what, list) = match answer {
        Answer::None => (0, &[][..]),
        Answer::Definition(number) | Answer::Builtin(number) => (*number, &[][..]),
        Answer::Withs(list) => (0, list.as_slice()),
    };
    let call = Call::AskReference { number: e, buffer: 4 * list.len(), reply: REPLY_BYTES };
    asked(store, &call, [answer.number(), what], list)
}

/// Asks, with a buffer that is just long enough.
fn asked(store: &mut [u8], call: &Call, [answer, what]: [u32; 2], list: &[u32]) -> Result<(), String> {
    let made = make(store, call);
    let told = made.reply.holds(&[0, 0, answer, what, list.len() as u32]).and_then(|()| made.buffer.holds(list));
    match told {
        Ok(()) if made.number == 0 => Ok(()),
        Ok(()) => Err(format!("`{call}` returned {}", made.number)),
        Err(why) => Err(format!("`{call}`: {why}")),
    }
}

impl Counts {
    fn add(&mut self, nodes: &[Node], facts: &Facts) {
        self.sheets += 1;
        self.nodes += nodes.len() as u64;
        self.exprs += facts.module.exprs.len() as u64;
        self.unwalked += facts.scopes.of_expr.iter().filter(|scope| scope.is_none()).count() as u64;
        self.names += facts.module.names.len() as u64;
        self.unheld += facts.module.names.len() as u64;
        self.duplicates += facts.module.diagnostics.len() as u64;
        for scope in &facts.scopes.scopes {
            self.scopes += 1;
            match &scope.kind {
                ScopeKind::With(_) => self.withs += 1,
                ScopeKind::Definitions(names) => {
                    self.unheld -= names.len() as u64;
                    self.hidden += hidden(facts, names);
                }
            }
        }
        for answer in facts.resolution.answers.values() {
            self.answers[answer.number() as usize] += 1;
        }
    }

    fn merge(&mut self, later: &Counts) {
        self.sheets += later.sheets;
        self.nodes += later.nodes;
        self.exprs += later.exprs;
        self.unwalked += later.unwalked;
        self.names += later.names;
        self.unheld += later.unheld;
        self.hidden += later.hidden;
        self.duplicates += later.duplicates;
        self.scopes += later.scopes;
        self.withs += later.withs;
        self.answers.iter_mut().zip(later.answers).for_each(|(sum, count)| *sum += count);
    }

    fn met(&self) -> String {
        format!(
            "{} sheets of {} nodes: {} expressions, {} names, {} scopes, {} duplicates; References answered 0 to 3: {}",
            grouped(self.sheets),
            grouped(self.nodes),
            grouped(self.exprs),
            grouped(self.names),
            grouped(self.scopes),
            grouped(self.duplicates),
            self.answers.map(grouped).join("; ")
        )
    }

    fn print(&self, family: &str, before: Counts) {
        let references = |counts: &Counts| counts.answers.iter().sum::<u64>();
        println!(
            "{family}: {} sheets of {} nodes; {} expressions, {} References, {} names, {} duplicates, {} scopes",
            self.sheets - before.sheets,
            self.nodes - before.nodes,
            self.exprs - before.exprs,
            references(self) - references(&before),
            self.names - before.names,
            self.duplicates - before.duplicates,
            self.scopes - before.scopes
        );
    }

    fn print_kinds(&self) {
        let [none, definitions, builtins, withs] = self.answers;
        println!("References answered with nothing, a definition, a builtin, Withs: {none}, {definitions}, {builtins}, {withs}");
        println!("expressions without a scope: {}; scopes for Withs: {}", self.unwalked, self.withs);
        println!("names that no scope holds: {}; names that a later one hides: {}", self.unheld, self.hidden);
    }
}

/// How many names of a scope have the text of a later one.
fn hidden(facts: &Facts, names: &[u32]) -> u64 {
    let mut later = std::collections::HashSet::new();
    let texts = names.iter().rev().map(|&name| &facts.module.names[name as usize].text);
    texts.filter(|text| !later.insert(*text)).count() as u64
}

#[cfg(test)]
mod tests {
    use super::*;

    #[test]
    fn the_same_on_one_thread_and_on_two() {
        let [one, two] = [1, 2].map(|threads| run_on(threads, 2 * EACH + 10, 60, 9).unwrap());
        assert_eq!((one.met, one.differences), (two.met, two.differences));
        assert_eq!(one.differences, 0);
    }
}
