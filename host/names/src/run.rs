//! `names run`: askings and changes, one after the other, and what comes of each.

use crate::input::{name_of, unread, Opened};
use crate::json::Object;
use crate::script::{call, Call, What};
use crate::words;
use lang_ast::{Answer, ExprId, NameId, Refusal, Store};
use std::ffi::OsStr;
use std::fmt;
use std::fs::File;
use std::io::{self, BufRead, BufReader, Read, Write};

/// The most bytes of a line; a text of 255 bytes takes 510.
const LINE_BYTES: u64 = 65_536;
/// The shortest reply that a call can be answered in.
const REPLY_BYTES: u64 = 20;

/// Why a run ends early.
pub enum Stop {
    Said(String),
    /// What it prints can't be written.
    Output(io::Error),
}

impl From<io::Error> for Stop {
    fn from(error: io::Error) -> Self {
        Stop::Output(error)
    }
}

/// What comes of a call.
#[derive(Debug, Clone, PartialEq, Eq)]
enum Outcome {
    Answered(Answer),
    Listed(Vec<ExprId>),
    /// A change, with the References that it moved.
    Accepted(Vec<ExprId>),
    Refused(Refusal),
}

/// Each line is answered before the next is read, so that a program can hold a conversation.
pub fn run(opened: &mut Opened, script: &OsStr, json: bool, out: &mut dyn Write) -> Result<(), Stop> {
    let mut reader: Box<dyn BufRead> = match script == "-" {
        true => Box::new(io::stdin().lock()),
        false => Box::new(BufReader::new(File::open(script).map_err(|error| Stop::Said(unread(script, &error)))?)),
    };
    for line in 1u64.. {
        let wrong = |wrong: String| Stop::Said(format!("{}: line {line}: {wrong}", name_of(script)));
        let Some(text) = next_line(&mut reader).map_err(|error| Stop::Said(unread(script, &error)))? else { break };
        let text = text.map_err(wrong)?;
        let Some(call) = call(&text).map_err(wrong)? else { continue };
        let outcome = outcome(opened, &call);
        match json {
            true => writeln!(out, "{}", outcome_json(opened, &call, &outcome))?,
            false => writeln!(out, "{outcome}")?,
        }
        out.flush()?;
    }
    Ok(())
}

/// The next line, or what is wrong with it; none at the end.
fn next_line(reader: &mut dyn BufRead) -> io::Result<Option<Result<String, String>>> {
    let mut bytes = Vec::new();
    if reader.take(LINE_BYTES + 1).read_until(b'\n', &mut bytes)? == 0 {
        return Ok(None);
    }
    if bytes.len() as u64 > LINE_BYTES {
        return Ok(Some(Err(format!("it has more than {LINE_BYTES} bytes"))));
    }
    Ok(Some(String::from_utf8(bytes).map_err(|_| "it is not UTF-8".to_string())))
}

/// Makes a call. The library always lends enough, so lengths that the line names are held against the rules here: 21
/// for a short reply comes before all else, 26 or 34 for a short buffer after all else.
fn outcome(opened: &mut Opened, call: &Call) -> Outcome {
    if call.reply.is_some_and(|reply| reply < REPLY_BYTES) {
        return Outcome::Refused(Refusal { number: 21, place: 0 });
    }
    let is_change = matches!(call.what, What::ChangeReference(_) | What::ChangeName(_));
    // A change that turns out to move too much for its buffer changes nothing.
    let before = if is_change && call.buffer.is_some() { Some(opened.store.clone()) } else { None };
    let outcome = made(&mut opened.store, call).unwrap_or_else(Outcome::Refused);
    let length = outcome.list().len();
    if call.buffer.is_none_or(|buffer| buffer / 4 >= length as u64) {
        return outcome;
    }
    if let Some(before) = before {
        opened.store = before;
    }
    Outcome::Refused(Refusal { number: if is_change { 34 } else { 26 }, place: length as u32 })
}

fn made(store: &mut Store, call: &Call) -> Result<Outcome, Refusal> {
    match &call.what {
        What::AskReference => store.ask_reference(ExprId(call.number)).map(Outcome::Answered),
        What::AskName => store.ask_name(NameId(call.number)).map(Outcome::Listed),
        What::ChangeReference(text) => store.change_reference(ExprId(call.number), text).map(Outcome::Accepted),
        What::ChangeName(text) => store.change_name(NameId(call.number), text).map(Outcome::Accepted),
    }
}

impl Outcome {
    /// The list that the call leaves in the buffer.
    fn list(&self) -> &[ExprId] {
        match self {
            Outcome::Answered(Answer::Withs(list)) | Outcome::Listed(list) | Outcome::Accepted(list) => list,
            _ => &[],
        }
    }
}

/// As the oracle's book shows it; but that a change is `accepted`, whether its text is another or not.
impl fmt::Display for Outcome {
    fn fmt(&self, f: &mut fmt::Formatter<'_>) -> fmt::Result {
        let numbers = self.list().iter().map(|expr| expr.number().to_string()).collect::<Vec<_>>().join(",");
        let listed = format!("length={} list={numbers}", self.list().len());
        match self {
            Outcome::Answered(Answer::None) => write!(f, "answer=0 to= {listed}"),
            Outcome::Answered(Answer::Definition(name)) => write!(f, "answer=1 to={} {listed}", name.number()),
            Outcome::Answered(Answer::Builtin(builtin)) => write!(f, "answer=2 to={} {listed}", builtin.index()),
            Outcome::Answered(Answer::Withs(_)) => write!(f, "answer=3 to={numbers} {listed}"),
            Outcome::Listed(_) => write!(f, "{listed}"),
            Outcome::Accepted(_) => write!(f, "accepted {listed}"),
            Outcome::Refused(Refusal { number, place }) => write!(f, "refused={number} at={place}"),
        }
    }
}

/// An object for each call, on a line of its own.
fn outcome_json(opened: &Opened, call: &Call, outcome: &Outcome) -> Object {
    let verb = match call.what {
        What::AskReference => "ask-ref",
        What::AskName => "ask-name",
        What::ChangeReference(_) => "set-ref",
        What::ChangeName(_) => "set-name",
    };
    let object = Object::new().with("call", verb).with("number", call.number);
    let references = |list: &[ExprId]| list.iter().map(|&expr| words::reference_json(opened, expr)).collect::<Vec<Object>>();
    match outcome {
        Outcome::Answered(answer) => object.with("accepted", true).with("means", words::answer_json(opened, answer)),
        Outcome::Listed(list) => object.with("accepted", true).with("references", references(list)),
        Outcome::Accepted(moved) => object.with("accepted", true).with("moved", references(moved)),
        Outcome::Refused(refusal) => {
            object.with("accepted", false).with("refused", refusal.number).with("at", refusal.place).with("why", refusal.to_string())
        }
    }
}
