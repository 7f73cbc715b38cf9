//! What chance gives: valid sheets of the small families, some with a script, and damaged ones for every cause of a
//! refusal.

use std::collections::BTreeMap;

use book::{Book, Call};
use generate::{Preset, Rng};
use judge::Cause;

use super::Vector;

/// The families, and the longest sheet that is taken of each.
const FAMILIES: [(Preset, usize); 3] = [(Preset::Tiny, 1_500), (Preset::Small, 1_500), (Preset::Keys, 2_200)];
/// How many sheets of a family, which of them have a script, and its calls.
const SHEETS: usize = 40;
const SCRIPT_EVERY: usize = 3;
const CALLS: usize = 12;

/// How many sheets for a cause, and the longest; a sheet that is too deep has more than 256 nodes.
const EACH: usize = 2;
const LONGEST: usize = 1_500;
const LONGEST_DEEP: usize = 12_000;

/// The first sheets of each family that are short enough.
pub fn valid() -> Vec<Vector> {
    let mut vectors = Vec::new();
    for (preset, longest) in FAMILIES {
        let sheets = (0..).map(|seed| (seed, preset.sheet(seed))).filter(|(_, nodes)| sheet::write(nodes).len() <= longest);
        for (turn, (seed, nodes)) in sheets.take(SHEETS).enumerate() {
            let title = format!("random {} {seed}", preset.name());
            let calls = if turn % SCRIPT_EVERY == 0 { script(&nodes, seed) } else { Vec::new() };
            vectors.push(Vector::of_sheet(title, sheet::write(&nodes)).with(calls));
        }
    }
    vectors
}

/// The calls follow the texts as they then read, so that renamed names are met again.
fn script(nodes: &[sheet::Node], seed: u64) -> Vec<Call> {
    let mut book = Book::new(tix::Tix::new(nodes));
    let mut rng = Rng::new(seed);
    let mut calls = Vec::new();
    for _ in 0..CALLS {
        calls.push(book::random::call(&mut rng, &book, false));
        book.call(&calls[calls.len() - 1]);
    }
    calls
}

/// Damaged sheets with their seeds, by the cause of the refusal.
type Found = BTreeMap<Cause, Vec<(u64, Vec<u8>)>>;

/// The first damaged sheets of each cause, in the order of the causes.
pub fn damaged() -> Result<Vec<Vector>, String> {
    let found = found_by_cause()?;
    let titled = |(cause, sheets): (Cause, Vec<(u64, Vec<u8>)>)| {
        sheets.into_iter().map(move |(seed, sheet)| Vector::of_sheet(format!("damaged: {cause:?}, seed {seed}"), sheet))
    };
    Ok(found.into_iter().flat_map(titled).collect())
}

/// For every cause but that of refusal 1, which is longer than a list of vectors should be, so many sheets with their
/// seeds.
fn found_by_cause() -> Result<Found, String> {
    let causes: Vec<Cause> = Cause::all().into_iter().filter(|&cause| cause != Cause::TooLong).collect();
    let mut found: Found = causes.iter().map(|&cause| (cause, Vec::new())).collect();
    for seed in 0..2_000_000 {
        let (sheet, _) = generate::damaged(seed);
        if sheet.len() > LONGEST_DEEP {
            continue;
        }
        if let Err(judgement) = judge::judge(&sheet) {
            let short = sheet.len() <= LONGEST || judgement.cause == Cause::Depth;
            if let Some(sheets) = found.get_mut(&judgement.cause).filter(|sheets| short && sheets.len() < EACH) {
                sheets.push((seed, sheet));
            }
        }
        if seed % 1_000 == 0 && found.values().all(|sheets| sheets.len() == EACH) {
            return Ok(found);
        }
    }
    let missing: Vec<String> = found.iter().filter(|(_, sheets)| sheets.len() < EACH).map(|(cause, _)| format!("{cause:?}")).collect();
    Err(format!("too few sheets for {}", missing.join(", ")))
}
