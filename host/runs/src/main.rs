//! Runs of the compiled Rattle code through the five calls that the product exports: against the oracle's checker, the
//! Rust's lowering and name resolution and the oracle's book, against a reader and a check that were written from
//! docs/STORE.md, on any bytes at all, and against the clock.

mod all;
mod any;
mod calls;
mod edged;
mod exported;
mod lending;
mod loads;
mod lower;
mod making;
mod memory;
mod nameres;
mod progress;
mod realistic;
mod report;
mod sheets;
mod slow;
mod speed;
mod split;
mod stack;
#[cfg(feature = "stand-in")]
mod stand_in;
mod store;

use all::Scale;
use report::Report;
use std::process::ExitCode;

const USAGE: &str = "runs sheets DAMAGED VALID [SEED]    so many damaged and valid sheets, loaded or refused as the oracle's checker says
runs loads COUNT MAXNODES [SEED]    so many random sheets of up to so many nodes, and those that need care, loaded and read back
runs calls LOADS CALLS [SEED]       so many sheets loaded, and so many calls in all, each against the oracle's book
runs stores FILLS DAMAGED [SEED]    so many modules built in a store, and so many damaged stores, judged by both sides
runs any CALLS [SEED]               so many calls on any bytes, between pages that can't be touched
runs slow                           stores and sheets that are built to be slow
runs speed                          microseconds for a load, an asking and a change, beside the Rust's; and for the check of a store
runs memory                         bytes of a store that are in use after a load, beside what the Rust allocates
runs stack                          bytes of stack that loading the deepest sheets takes
runs all [SEED] [full]              all of these, short or at scale, with one table of what they came to";

fn main() -> ExitCode {
    let words: Vec<String> = std::env::args().skip(1).collect();
    match run(&words.iter().map(String::as_str).collect::<Vec<_>>()) {
        Ok(true) => ExitCode::SUCCESS,
        Ok(false) => ExitCode::from(1),
        Err(why) => {
            eprintln!("{why}");
            ExitCode::from(2)
        }
    }
}

/// Runs a command; whether all was as it should be.
fn run(words: &[&str]) -> Result<bool, String> {
    let (command, words) = words.split_first().ok_or(USAGE)?;
    if *command == "all" {
        let (full, numbers): (Vec<&str>, Vec<&str>) = words.iter().copied().partition(|word| *word == "full");
        let scale = match full.len() {
            0 => Scale::Short,
            1 => Scale::Full,
            _ => return Err(USAGE.to_string()),
        };
        return Ok(all::run(scale, first(&all_numbers(&numbers)?)?));
    }
    if let (&all::REPORTED, Some((command, numbers))) = (command, words.split_first()) {
        return Ok(all::reported(command, &all_numbers(numbers)?));
    }
    Ok(self::command(command, &all_numbers(words)?)?.right())
}

/// Runs one of the commands that compare or measure.
fn command(command: &str, numbers: &[u64]) -> Result<Report, String> {
    match (command, numbers) {
        ("sheets", [damaged, valid, seed @ ..]) => Ok(sheets::run(*damaged, *valid, first(seed)?)),
        ("loads", [count, most, seed @ ..]) => loads::run(*count, usize::try_from(*most).unwrap_or(usize::MAX), first(seed)?),
        ("calls", [loads, calls, seed @ ..]) => calls::run(*loads, *calls, first(seed)?),
        ("stores", [fills, damaged, seed @ ..]) => Ok(store::runs::run(*fills, *damaged, first(seed)?)),
        ("any", [calls, seed @ ..]) => any::run(*calls, first(seed)?),
        ("slow", []) => slow::run(),
        ("speed", []) => speed::run(),
        ("memory", []) => memory::run(),
        ("stack", []) => stack::run(),
        _ => Err(USAGE.to_string()),
    }
}

/// The seed, 0 where none is given.
fn first(seed: &[u64]) -> Result<u64, String> {
    match seed {
        [] => Ok(0),
        [seed] => Ok(*seed),
        _ => Err(USAGE.to_string()),
    }
}

fn all_numbers(words: &[&str]) -> Result<Vec<u64>, String> {
    words.iter().map(|word| number(word)).collect()
}

fn number(word: &str) -> Result<u64, String> {
    word.parse().map_err(|_| format!("'{word}' is no number"))
}
