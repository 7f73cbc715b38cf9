//! The command line.

use crate::place;
use crate::text::shown;
use std::ffi::{OsStr, OsString};

pub const USAGE: &str = "\
usage: names COMMAND .. [--json]
  show SHEET [NIX]               every reference and what it means, counts, duplicate keys
  follow SHEET BYTE [NIX]        what stands at a byte, and where its definition is
  references SHEET BYTE [NIX]    the definition at a byte, and all references that mean it
  rename SHEET BYTE NEW [NIX]    what renaming the definition at a byte would write and move; nothing is written
  run SHEET [SCRIPT]             askings and changes, one on a line, and what comes of each
  lines                          the field engineer's lines A to E, tried out; status 1 if one is wrong

SHEET is a syntax sheet (docs/SHEET.md) and NIX the text that it was made from. SCRIPT has lines such as
`ask-ref 0`, `ask-name 0`, `set-ref 0 text=78` and `set-name 0 text=78`, texts in hex. Each is a file, or standard
input if it is `-`; without SCRIPT the lines come from standard input.
BYTE counts from 0 in the Nix text; where NIX is given it may be LINE:COLUMN, both from 1.
--json prints JSON for programs. What follows `--` is no option.
";

/// A file, or `-` for standard input.
pub type Path = OsString;

#[derive(Debug, PartialEq, Eq)]
pub enum Command {
    Help,
    Show { sheet: Path, nix: Option<Path> },
    Follow { sheet: Path, spot: Spot, nix: Option<Path> },
    References { sheet: Path, spot: Spot, nix: Option<Path> },
    Rename { sheet: Path, spot: Spot, new: Vec<u8>, nix: Option<Path> },
    Run { sheet: Path, script: Option<Path> },
    Lines,
}

/// A place in the Nix text.
#[derive(Debug, Clone, Copy, PartialEq, Eq)]
pub enum Spot {
    Byte(u32),
    LineColumn(place::Spot),
}

/// What is asked for: a command, and whether what it prints is for programs.
#[derive(Debug, PartialEq, Eq)]
pub struct Args {
    pub command: Command,
    pub json: bool,
}

/// The command of the words behind the program's name, or what is wrong with them.
pub fn parse(words: impl Iterator<Item = OsString>) -> Result<Args, String> {
    let (mut plain, mut json, mut help, mut options) = (Vec::new(), false, false, true);
    for word in words {
        match word.to_str() {
            Some("--") if options => options = false,
            Some("--json") if options => json = true,
            Some("--help" | "-h") if options => help = true,
            _ if options && word.len() > 1 && word.as_encoded_bytes().starts_with(b"-") => {
                return Err(format!("`{}` is no option: `names --help` lists them", said(&word)));
            }
            _ => plain.push(word),
        }
    }
    let command = if help { Command::Help } else { command(plain)? };
    Ok(Args { command, json })
}

fn command(words: Vec<OsString>) -> Result<Command, String> {
    let mut words = words.into_iter();
    let Some(verb) = words.next() else { return Err("a command is missing: `names --help` lists them".to_string()) };
    let verb = said(&verb);
    let rest: Vec<OsString> = words.collect();
    let command = match verb.as_str() {
        "help" => Some(Command::Help),
        "show" => files(rest).map(|(sheet, nix)| Command::Show { sheet, nix }),
        "follow" | "references" => spotted(&verb, rest)?,
        "rename" => renamed(rest)?,
        "run" => files(rest).map(|(sheet, script)| Command::Run { sheet, script }),
        "lines" => rest.is_empty().then_some(Command::Lines),
        _ => return Err(format!("`{verb}` is no command: `names --help` lists them")),
    };
    command.ok_or_else(|| format!("{verb} takes {}: `names --help` says more", wants(&verb)))
}

/// What a command takes, in the words of the usage.
fn wants(verb: &str) -> &'static str {
    match verb {
        "show" => "SHEET [NIX]",
        "follow" | "references" => "SHEET BYTE [NIX]",
        "rename" => "SHEET BYTE NEW [NIX]",
        "run" => "SHEET [SCRIPT]",
        _ => "nothing more",
    }
}

/// One file, and perhaps a second.
fn files(words: Vec<OsString>) -> Option<(Path, Option<Path>)> {
    let mut words = words.into_iter();
    let (first, second) = (words.next()?, words.next());
    words.next().is_none().then_some((first, second))
}

fn spotted(verb: &str, mut words: Vec<OsString>) -> Result<Option<Command>, String> {
    if words.len() < 2 {
        return Ok(None);
    }
    let spot = spot(&words.remove(1))?;
    Ok(files(words).map(|(sheet, nix)| match verb {
        "follow" => Command::Follow { sheet, spot, nix },
        _ => Command::References { sheet, spot, nix },
    }))
}

fn renamed(mut words: Vec<OsString>) -> Result<Option<Command>, String> {
    if words.len() < 3 {
        return Ok(None);
    }
    let new = words.remove(2).into_encoded_bytes();
    let spot = spot(&words.remove(1))?;
    Ok(files(words).map(|(sheet, nix)| Command::Rename { sheet, spot, new, nix }))
}

fn spot(word: &OsStr) -> Result<Spot, String> {
    let known = || {
        let word = word.to_str()?;
        match word.split_once(':') {
            None => digits(word).map(Spot::Byte),
            Some((line, column)) => Some(Spot::LineColumn(place::Spot { line: digits(line)?, column: digits(column)? })),
        }
    };
    known().ok_or_else(|| format!("`{}` is no BYTE: a number below 4294967296, or LINE:COLUMN, is wanted", said(word)))
}

/// Digits alone: the library's parse would also take a sign.
fn digits<T: std::str::FromStr>(word: &str) -> Option<T> {
    word.bytes().all(|byte| byte.is_ascii_digit()).then(|| word.parse().ok())?
}

fn said(word: &OsStr) -> String {
    shown(word.as_encoded_bytes())
}

#[cfg(test)]
mod tests {
    use super::*;

    fn parsed(line: &str) -> Result<Args, String> {
        parse(line.split_whitespace().map(OsString::from))
    }

    #[test]
    fn commands_are_told_apart() {
        let show = Command::Show { sheet: "a".into(), nix: Some("-".into()) };
        assert_eq!(parsed("show a - --json"), Ok(Args { command: show, json: true }));
        let rename = Command::Rename { sheet: "a".into(), spot: Spot::Byte(7), new: b"--json".to_vec(), nix: None };
        assert_eq!(parsed("rename a 7 -- --json"), Ok(Args { command: rename, json: false }));
        let spot = Spot::LineColumn(place::Spot { line: 3, column: 14 });
        let follow = Command::Follow { sheet: "a".into(), spot, nix: Some("b".into()) };
        assert_eq!(parsed("follow a 3:14 b"), Ok(Args { command: follow, json: false }));
        assert_eq!(parsed("show --help"), Ok(Args { command: Command::Help, json: false }));
    }

    #[test]
    fn what_is_wrong_is_told() {
        for (line, wrong) in [
            ("", "a command is missing"),
            ("shwo a", "`shwo` is no command"),
            ("show", "show takes SHEET [NIX]"),
            ("show a b c", "show takes SHEET [NIX]"),
            ("follow a", "follow takes SHEET BYTE [NIX]"),
            ("follow a x", "`x` is no BYTE"),
            ("follow a +1", "`+1` is no BYTE"),
            ("follow a 4294967296", "no BYTE"),
            ("follow a 1:", "no BYTE"),
            ("rename a 1", "rename takes SHEET BYTE NEW [NIX]"),
            ("lines a", "lines takes nothing more"),
            ("show a --jsno", "`--jsno` is no option"),
        ] {
            assert!(parsed(line).unwrap_err().contains(wrong), "{line}");
        }
    }
}
