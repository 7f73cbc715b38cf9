//! The names of a Nix file at a shell. Bad input gets one sentence on standard error and exit status 1.

mod args;
mod at;
mod edits;
mod follow;
mod input;
mod json;
mod keys;
mod lines;
mod place;
mod plan;
mod rename;
mod run;
mod script;
mod show;
mod text;
mod tree;
mod words;

use args::{Args, Command, Path, Spot, USAGE};
use input::{open, Opened};
use json::Object;
use run::Stop;
use std::ffi::OsStr;
use std::io::{self, ErrorKind, Write};
use std::process::ExitCode;

/// A load takes up to one mebibyte of stack, which the first thread of a program need not have.
const STACK_BYTES: usize = 8 << 20;

fn main() -> ExitCode {
    let worker = std::thread::Builder::new().stack_size(STACK_BYTES).spawn(work);
    worker.map_or_else(|_| work(), |worker| worker.join().unwrap_or(ExitCode::FAILURE))
}

fn work() -> ExitCode {
    let words: Vec<_> = std::env::args_os().skip(1).collect();
    if words.is_empty() {
        let _ = io::stderr().write_all(USAGE.as_bytes());
        return ExitCode::FAILURE;
    }
    let done = args::parse(words.into_iter()).map_err(Stop::Said).and_then(|args| obey(&args));
    match done {
        Ok(true) => ExitCode::SUCCESS,
        Ok(false) => ExitCode::FAILURE,
        // Whoever closed the pipe has read enough.
        Err(Stop::Output(error)) if error.kind() == ErrorKind::BrokenPipe => ExitCode::SUCCESS,
        Err(Stop::Output(error)) => failed(&format!("standard output: {error}")),
        Err(Stop::Said(why)) => failed(&why),
    }
}

fn failed(why: &str) -> ExitCode {
    // Nothing is left to do if standard error can't be written either.
    let _ = writeln!(io::stderr(), "names: {why}");
    ExitCode::FAILURE
}

/// Does what is asked for, and says whether all is right.
fn obey(args: &Args) -> Result<bool, Stop> {
    let said = |printed: Result<String, String>| print(&printed.map_err(Stop::Said)?);
    match &args.command {
        Command::Help => print(USAGE),
        Command::Show { sheet, nix } => said(shown(args.json, sheet, nix.as_deref())),
        Command::Follow { sheet, spot, nix } => {
            said(spotted(sheet, *spot, nix.as_deref(), |opened, byte| either(args.json, opened, byte, follow::follow, follow::follow_json)))
        }
        Command::References { sheet, spot, nix } => said(spotted(sheet, *spot, nix.as_deref(), |opened, byte| {
            either(args.json, opened, byte, follow::references, follow::references_json)
        })),
        Command::Rename { sheet, spot, new, nix } => {
            let text = |opened: &Opened, byte| rename::text(opened, byte, new);
            let json = |opened: &Opened, byte| rename::json(opened, byte, new);
            said(spotted(sheet, *spot, nix.as_deref(), |opened, byte| either(args.json, opened, byte, text, json)))
        }
        Command::Run { sheet, script } => ran(args.json, sheet, script.as_ref()),
        Command::Lines => {
            let (text, ok) = lines::report(args.json);
            print(&text).map(|_| ok)
        }
    }
}

fn print(text: &str) -> Result<bool, Stop> {
    let mut out = io::stdout().lock();
    out.write_all(text.as_bytes())?;
    out.flush()?;
    Ok(true)
}

fn shown(json: bool, sheet: &OsStr, nix: Option<&OsStr>) -> Result<String, String> {
    let opened = open(sheet, nix)?;
    let shown = if json { show::json(&opened).map(line) } else { show::text(&opened) };
    shown.map_err(|refusal| input::refused(refusal, &[]))
}

/// What a command about a byte prints.
fn spotted(
    sheet: &OsStr,
    spot: Spot,
    nix: Option<&OsStr>,
    printed: impl FnOnce(&Opened, u32) -> Result<String, String>,
) -> Result<String, String> {
    let opened = open(sheet, nix)?;
    let byte = at::byte(&opened, spot)?;
    printed(&opened, byte)
}

/// For people, or for programs.
fn either(
    for_programs: bool,
    opened: &Opened,
    byte: u32,
    text: impl FnOnce(&Opened, u32) -> Result<String, String>,
    json: impl FnOnce(&Opened, u32) -> Result<Object, String>,
) -> Result<String, String> {
    match for_programs {
        true => json(opened, byte).map(line),
        false => text(opened, byte),
    }
}

fn line(object: Object) -> String {
    format!("{object}\n")
}

fn ran(json: bool, sheet: &OsStr, script: Option<&Path>) -> Result<bool, Stop> {
    let script = script.map_or(OsStr::new("-"), Path::as_os_str);
    if sheet == "-" && script == "-" {
        return Err(Stop::Said("the sheet and the script can't both be standard input".to_string()));
    }
    let mut opened = open(sheet, None).map_err(Stop::Said)?;
    run::run(&mut opened, script, json, &mut io::stdout().lock()).map(|()| true)
}
