//! Askings and changes as text, one on a line; what follows a `#` and blank lines are passed over:
//!
//! ```text
//! ask-ref N buffer=BYTES reply=BYTES
//! ask-name N buffer=BYTES reply=BYTES
//! set-ref N text=HEX buffer=BYTES reply=BYTES
//! set-name N text=HEX buffer=BYTES reply=BYTES
//! ```
//!
//! It is the format of the oracle's book, but that `buffer=` and `reply=` may be left out: then what is lent is long
//! enough.

use crate::tree::bytes;
use std::str::SplitWhitespace;

/// What is asked or changed.
#[derive(Debug, Clone, PartialEq, Eq)]
pub enum What {
    AskReference,
    AskName,
    ChangeReference(Vec<u8>),
    ChangeName(Vec<u8>),
}

/// A line of a script. A length is none where it was left out.
#[derive(Debug, Clone, PartialEq, Eq)]
pub struct Call {
    pub what: What,
    pub number: u32,
    pub buffer: Option<u64>,
    pub reply: Option<u64>,
}

/// The call on a line, none where it has none; or what is wrong with it.
pub fn call(line: &str) -> Result<Option<Call>, String> {
    let mut words = line.split('#').next().unwrap_or("").split_whitespace();
    let Some(verb) = words.next() else { return Ok(None) };
    if !matches!(verb, "ask-ref" | "ask-name" | "set-ref" | "set-name") {
        return Err(format!("`{verb}` is no call: ask-ref, ask-name, set-ref or set-name is wanted"));
    }
    let number = number(words.next())?;
    let what = match verb {
        "ask-ref" => What::AskReference,
        "ask-name" => What::AskName,
        "set-ref" => What::ChangeReference(text(words.next())?),
        _ => What::ChangeName(text(words.next())?),
    };
    let buffer = length("buffer=", &mut words)?;
    let reply = length("reply=", &mut words)?;
    match words.next() {
        None => Ok(Some(Call { what, number, buffer, reply })),
        Some(more) => Err(format!("`{more}` follows a finished call")),
    }
}

fn number(word: Option<&str>) -> Result<u32, String> {
    let word = word.ok_or("the number is missing")?;
    digits(word).ok_or_else(|| format!("`{word}` is no number below 4294967296"))
}

fn text(word: Option<&str>) -> Result<Vec<u8>, String> {
    let word = word.ok_or("text= is missing")?;
    let hex = word.strip_prefix("text=").ok_or_else(|| format!("`{word}` stands where text= is wanted"))?;
    bytes(hex.as_bytes()).ok_or_else(|| format!("`{hex}` is no text in hex, two digits a byte"))
}

/// A length, if the next word is one of this field.
fn length(field: &str, words: &mut SplitWhitespace) -> Result<Option<u64>, String> {
    let Some(value) = words.clone().next().and_then(|word| word.strip_prefix(field)) else { return Ok(None) };
    words.next();
    digits(value).map(Some).ok_or_else(|| format!("`{value}` is no length in bytes for {field}"))
}

/// Digits alone: the library's parse would also take a sign.
fn digits<T: std::str::FromStr>(word: &str) -> Option<T> {
    word.bytes().all(|byte| byte.is_ascii_digit()).then(|| word.parse().ok())?
}

#[cfg(test)]
mod tests {
    use super::*;

    #[test]
    fn lengths_may_be_left_out() {
        let call = |line| call(line).unwrap().unwrap();
        let asking = Call { what: What::AskReference, number: 3, buffer: Some(8), reply: Some(20) };
        assert_eq!(call("ask-ref 3 buffer=8 reply=20 # n0"), asking);
        assert_eq!(call(" ask-ref 3"), Call { buffer: None, reply: None, ..asking.clone() });
        assert_eq!(call("ask-ref 3 reply=20"), Call { buffer: None, ..asking });
        assert_eq!(call("set-name 0 text="), Call { what: What::ChangeName(vec![]), number: 0, buffer: None, reply: None });
        assert_eq!(call("set-ref 1 text=78").what, What::ChangeReference(b"x".to_vec()));
        assert_eq!(call("set-ref 1 text=78 buffer=4").buffer, Some(4));
    }

    #[test]
    fn nothing_is_on_blank_lines_and_remarks() {
        assert_eq!(call(""), Ok(None));
        assert_eq!(call("  # ask-ref"), Ok(None));
    }

    #[test]
    fn other_forms_are_told() {
        for (line, wrong) in [
            ("ask 1", "no call"),
            ("ask-ref", "number is missing"),
            ("ask-ref +1", "no number"),
            ("ask-ref 4294967296", "no number"),
            ("ask-ref 1 buffer=x", "no length"),
            ("ask-ref 1 reply=20 buffer=4", "`buffer=4` follows"),
            ("set-ref 1", "text= is missing"),
            ("set-ref 1 reply=20", "where text= is wanted"),
            ("set-ref 1 text=7", "no text in hex"),
            ("set-ref 1 text=zz", "no text in hex"),
            ("set-ref 1 text=78 reply=20 buffer=4", "`buffer=4` follows"),
            ("set-ref 1 text=78 buffer=x", "no length"),
        ] {
            assert!(call(line).unwrap_err().contains(wrong), "{line}");
        }
    }
}
