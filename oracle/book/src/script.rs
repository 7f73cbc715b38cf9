//! Calls as text, one on a line; what follows a `#` and blank lines are passed over:
//!
//! ```text
//! ask-ref N buffer=BYTES reply=BYTES
//! ask-name N buffer=BYTES reply=BYTES
//! set-ref N text=HEX buffer=BYTES reply=BYTES
//! set-name N text=HEX buffer=BYTES reply=BYTES
//! ```
//!
//! `N` and `BYTES` are decimal, `HEX` is two digits a byte; the fields stand in this order. A `Call` is shown as such a
//! line.

use std::fmt;

use crate::Call;

/// What is wrong with a script, and on which line, counted from 1.
#[derive(Debug, Clone, PartialEq, Eq)]
pub struct ScriptError {
    pub line: usize,
    pub wrong: String,
}

impl fmt::Display for ScriptError {
    fn fmt(&self, f: &mut fmt::Formatter<'_>) -> fmt::Result {
        write!(f, "line {}: {}", self.line, self.wrong)
    }
}

impl std::error::Error for ScriptError {}

/// The calls of a script, or the first thing that is wrong with it.
pub fn parse(script: &str) -> Result<Vec<Call>, ScriptError> {
    let mut calls = Vec::new();
    for (line, text) in (1..).zip(script.lines()) {
        let said = text.split('#').next().unwrap_or("").trim();
        if !said.is_empty() {
            calls.push(call(said).map_err(|wrong| ScriptError { line, wrong })?);
        }
    }
    Ok(calls)
}

fn call(line: &str) -> Result<Call, String> {
    let mut words = line.split_whitespace();
    let verb = words.next().unwrap_or("");
    let call = match verb {
        "ask-ref" | "ask-name" => {
            let number = number(words.next())?;
            let buffer = length("buffer", words.next())?;
            let reply = length("reply", words.next())?;
            match verb {
                "ask-ref" => Call::AskReference { number, buffer, reply },
                _ => Call::AskName { number, buffer, reply },
            }
        }
        "set-ref" | "set-name" => {
            let number = number(words.next())?;
            let text = bytes(value("text", words.next())?)?;
            let buffer = length("buffer", words.next())?;
            let reply = length("reply", words.next())?;
            match verb {
                "set-ref" => Call::ChangeReference { number, text, buffer, reply },
                _ => Call::ChangeName { number, text, buffer, reply },
            }
        }
        _ => return Err(format!("`{verb}` is no call: ask-ref, ask-name, set-ref or set-name is wanted")),
    };
    words.next().map_or(Ok(call), |more| Err(format!("`{more}` follows a finished call")))
}

fn number(word: Option<&str>) -> Result<u32, String> {
    let word = word.ok_or("the number is missing")?;
    digits(word).ok_or_else(|| format!("`{word}` is no number below 4294967296"))
}

fn length(field: &str, word: Option<&str>) -> Result<usize, String> {
    let value = value(field, word)?;
    digits(value).ok_or_else(|| format!("`{value}` is no length in bytes for {field}"))
}

/// Digits alone: the library's parse would also take a sign.
fn digits<T: std::str::FromStr>(word: &str) -> Option<T> {
    word.bytes().all(|byte| byte.is_ascii_digit()).then(|| word.parse().ok())?
}

fn value<'a>(field: &str, word: Option<&'a str>) -> Result<&'a str, String> {
    let word = word.ok_or_else(|| format!("{field}= is missing"))?;
    let value = word.strip_prefix(field).and_then(|rest| rest.strip_prefix('='));
    value.ok_or_else(|| format!("`{word}` stands where {field}= is wanted"))
}

fn bytes(hex: &str) -> Result<Vec<u8>, String> {
    let digits: Option<Vec<u32>> = hex.chars().map(|c| c.to_digit(16)).collect();
    let digits = digits.ok_or_else(|| format!("`{hex}` is no hex text"))?;
    if digits.len() % 2 == 1 {
        return Err(format!("`{hex}` has an odd number of hex digits"));
    }
    Ok(digits.chunks(2).map(|pair| (pair[0] * 16 + pair[1]) as u8).collect())
}

impl fmt::Display for Call {
    fn fmt(&self, f: &mut fmt::Formatter<'_>) -> fmt::Result {
        let hex = |text: &[u8]| text.iter().map(|byte| format!("{byte:02x}")).collect::<String>();
        match self {
            Call::AskReference { number, buffer, reply } => write!(f, "ask-ref {number} buffer={buffer} reply={reply}"),
            Call::AskName { number, buffer, reply } => write!(f, "ask-name {number} buffer={buffer} reply={reply}"),
            Call::ChangeReference { number, text, buffer, reply } => {
                write!(f, "set-ref {number} text={} buffer={buffer} reply={reply}", hex(text))
            }
            Call::ChangeName { number, text, buffer, reply } => {
                write!(f, "set-name {number} text={} buffer={buffer} reply={reply}", hex(text))
            }
        }
    }
}
