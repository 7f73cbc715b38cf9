//! The two files. What the program reads, a line each unless something else is said, after a first line of free text:
//!
//! ```text
//! TITLE
//! sheet=LENGTH        then so many bytes of the sheet
//! calls=COUNT         then so many calls:
//! call=KIND           0 asks about a Reference, 1 asks about a name, 2 changes a Reference, 3 changes a name
//! number=NUMBER
//! lent=LENGTH         of the buffer of an asking, or of the text of a change
//! moved=LENGTH        of a change alone: of the buffer for what it moves
//! reply=LENGTH
//! TEXT                of a change alone: its bytes as they are, then a byte 10
//! ```
//!
//! What it must print for each vector: the title, what refsheet prints for the sheet, the outcome of each call, and
//! where there are calls what refsheet would print of all that holds after them.

use std::fmt::Write;

use book::{Book, Call, Outcome};
use reading::Plain;
use tix::Tix;

use super::{Vector, MOST_LENT, MOST_REPLY};
use crate::refsheet;

const HEAD: &str = "# Written by 'oracle vectors INPUT OUTPUT'. Sheets with calls: 0 asks about a Reference, 1 asks about a name, \
                    2 changes a Reference, 3 changes a name.\n";

/// What the program reads, and what it must print. Fails where a vector breaks a limit or the two readings differ.
pub fn written(vectors: &[Vector]) -> Result<(Vec<u8>, String), String> {
    let (mut input, mut output) = (HEAD.as_bytes().to_vec(), String::new());
    for vector in vectors {
        within_limits(vector).map_err(|error| format!("{}: {error}", vector.title))?;
        write_vector(&mut input, vector);
        output += &said(vector).map_err(|error| format!("{}: {error}", vector.title))?;
    }
    Ok((input, output))
}

fn within_limits(vector: &Vector) -> Result<(), String> {
    let title = &vector.title;
    if title.is_empty() || !title.bytes().all(|byte| (b' '..=b'~').contains(&byte)) {
        return Err("the title is not of printable ASCII".to_string());
    }
    if vector.sheet.len() >= refsheet::MAX_BYTES {
        return Err(format!("a sheet of {} bytes", vector.sheet.len()));
    }
    match vector.calls.iter().find(|call| is_too_much(&parts(call))) {
        Some(call) => Err(format!("too much is lent for {call}")),
        None => Ok(()),
    }
}

fn is_too_much(parts: &Parts) -> bool {
    let moved = parts.change.as_ref().map_or(0, |change| change.moved);
    parts.lent > MOST_LENT || moved > MOST_LENT || parts.reply > MOST_REPLY
}

/// The numbers of a call, and what a change has beside them.
struct Parts<'a> {
    kind: u8,
    number: u32,
    lent: usize,
    reply: usize,
    change: Option<Change<'a>>,
}

/// The text of a change, and the length of its buffer.
struct Change<'a> {
    text: &'a [u8],
    moved: usize,
}

fn parts(call: &Call) -> Parts<'_> {
    let asking =
        |kind, number: &u32, buffer: &usize, reply: &usize| Parts { kind, number: *number, lent: *buffer, reply: *reply, change: None };
    match call {
        Call::AskReference { number, buffer, reply } => asking(0, number, buffer, reply),
        Call::AskName { number, buffer, reply } => asking(1, number, buffer, reply),
        Call::ChangeReference { number, text, buffer, reply } => change_parts(2, *number, text, *buffer, *reply),
        Call::ChangeName { number, text, buffer, reply } => change_parts(3, *number, text, *buffer, *reply),
    }
}

fn change_parts(kind: u8, number: u32, text: &[u8], moved: usize, reply: usize) -> Parts<'_> {
    Parts { kind, number, lent: text.len(), reply, change: Some(Change { text, moved }) }
}

fn write_vector(input: &mut Vec<u8>, vector: &Vector) {
    input.extend(format!("{}\nsheet={}\n", vector.title, vector.sheet.len()).into_bytes());
    input.extend_from_slice(&vector.sheet);
    input.extend(format!("calls={}\n", vector.calls.len()).into_bytes());
    for Parts { kind, number, lent, reply, change } in vector.calls.iter().map(parts) {
        let moved = change.as_ref().map_or(String::new(), |change| format!("moved={}\n", change.moved));
        input.extend(format!("call={kind}\nnumber={number}\nlent={lent}\n{moved}reply={reply}\n").into_bytes());
        if let Some(Change { text, .. }) = change {
            input.extend_from_slice(text);
            input.push(b'\n');
        }
    }
}

fn said(vector: &Vector) -> Result<String, String> {
    match sheet::check::check(&vector.sheet) {
        Err(refusal) if vector.calls.is_empty() => Ok(format!("{}\n{}", vector.title, refsheet::refused(refusal))),
        Err(_) => Err("calls on a refused sheet".to_string()),
        Ok(nodes) => Ok(format!("{}\n{}", vector.title, kept(&nodes, &vector.calls)?)),
    }
}

/// What an accepted sheet and the calls on it come to.
fn kept(nodes: &[sheet::Node], calls: &[Call]) -> Result<String, String> {
    let (mut rust, mut plain) = (Book::new(Tix::new(nodes)), Book::new(Plain::new(nodes)));
    let mut output = shared(&rust, &plain)?;
    for call in calls {
        let outcome = rust.call(call);
        if outcome != plain.call(call) {
            return Err(format!("the two readings differ at {call}"));
        }
        output += &outcome_lines(call, &outcome);
    }
    if !calls.is_empty() {
        output += &shared(&rust, &plain)?;
    }
    Ok(output)
}

/// What refsheet prints of all that holds now, by both readings.
fn shared(rust: &Book<Tix>, plain: &Book<Plain>) -> Result<String, String> {
    let facts = rust.facts();
    match facts == plain.facts() && rust.held() == plain.held() {
        true => Ok(refsheet::answers(&facts)),
        false => Err("the two readings differ in what holds".to_string()),
    }
}

fn outcome_lines(call: &Call, outcome: &Outcome) -> String {
    let list = || outcome.list.iter().map(u32::to_string).collect::<Vec<_>>().join(",");
    let mut lines = String::new();
    // Writing to a string does not fail.
    let _ = match (outcome.refused, call, &outcome.answer) {
        (0, Call::AskReference { .. }, Some(answer)) => writeln!(lines, "{}", refsheet::answer_lines(answer)),
        (0, Call::AskName { .. } | Call::AskReference { .. }, _) => writeln!(lines, "list={}", list()),
        (0, Call::ChangeReference { .. } | Call::ChangeName { .. }, _) => writeln!(lines, "moved={}", list()),
        (refused, ..) => writeln!(lines, "refused={refused}\nat={}", outcome.place),
    };
    lines
}
