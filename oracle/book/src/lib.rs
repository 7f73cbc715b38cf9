//! The plain book of docs/RULES.md, which measures demand 3: fed the same calls as the store, it says what each is
//! refused with or answered, and what the store then holds. It keeps no answer: whatever it says of answers is worked
//! out afresh from a `canon::Reading`, over the scopes as loaded and the texts as they then read.
//!
//! An `Outcome` is shown in one line, which is what the host is told:
//!
//! | call | line |
//! |---|---|
//! | refused | `refused=R at=P` |
//! | asking about a Reference | `answer=A to=T length=L list=N,N` |
//! | asking about a name | `length=L list=N,N` |
//! | change | `changed=C length=L list=N,N` |
//!
//! `answer` is 0 to 3, `to` the name, the index, the Withs or empty; `changed` is 0 for an equal text, else 1; `list`
//! has the Withs, the kept references or the References that moved. That a text was equal is the one thing of these
//! that the host is not told.
//!
//! `script` reads calls from text, `random` makes them up, `locality` holds what a call moved against demand 3.

use std::collections::BTreeMap;
use std::fmt;

use canon::{Answer, Expr, ExprId, Facts, Module, NameId, Reading, Resolution};

pub mod locality;
pub mod random;
pub mod script;

/// The shortest reply a call can be answered in, in bytes: below it is refusal 21.
pub const REPLY_BYTES: usize = 20;
/// The longest new text, in bytes: above it is refusal 8.
pub const TEXT_BYTES: usize = 255;
/// The change room, in bytes: above it is refusal 27.
pub const ROOM_BYTES: usize = 8_192;

/// A call as the book is fed it: kind, number, text and the lengths of buffer and reply in bytes.
#[derive(Debug, Clone, PartialEq, Eq)]
pub enum Call {
    AskReference { number: u32, buffer: usize, reply: usize },
    AskName { number: u32, buffer: usize, reply: usize },
    ChangeReference { number: u32, text: Vec<u8>, buffer: usize, reply: usize },
    ChangeName { number: u32, text: Vec<u8>, buffer: usize, reply: usize },
}

impl Call {
    fn reply(&self) -> usize {
        match self {
            Call::AskReference { reply, .. } | Call::AskName { reply, .. } => *reply,
            Call::ChangeReference { reply, .. } | Call::ChangeName { reply, .. } => *reply,
        }
    }
}

/// What a call comes to.
#[derive(Debug, Clone, PartialEq, Eq, Default)]
pub struct Outcome {
    /// The refusal's number, 0 for none.
    pub refused: u32,
    /// The refusal's place, 0 for none.
    pub place: u32,
    /// The answer of an accepted asking about a Reference.
    pub answer: Option<Answer>,
    /// What an accepted call leaves in the buffer: the With list, the kept references, or the References that a change
    /// moved. Its length is the length that is returned.
    pub list: Vec<u32>,
    /// For an accepted change whether the text differed from the old.
    pub changed: Option<bool>,
    /// The References whose answers are others after the call, ascending: "its 0-3, name, index or With list
    /// different". Every call is looked at for them, refused ones too, whatever its list says.
    pub moved: Vec<ExprId>,
}

/// All that the store holds of what can change, afresh.
#[derive(Debug, Clone, PartialEq, Eq)]
pub struct Held {
    pub reference_texts: BTreeMap<ExprId, Vec<u8>>,
    pub name_texts: Vec<Vec<u8>>,
    /// Kept answers and kept references.
    pub resolution: Resolution,
    /// Lengths of all accepted changes since the load whose text differed from the old.
    pub room_spent: usize,
}

/// A refusal's number and place.
type Refusal = (u32, u32);

/// The refusals of a buffer that is too short: for the list of an asking, and for what a change moves.
const LIST_TOO_LONG: u32 = 26;
const MOVED_TOO_LONG: u32 = 34;

/// What a change is about.
#[derive(Clone, Copy)]
enum Target {
    Reference(ExprId),
    Name(NameId),
}

/// The book over one reading.
#[derive(Debug, Clone)]
pub struct Book<R> {
    reading: R,
    room_spent: usize,
}

impl<R: Reading> Book<R> {
    /// "It starts with the module and texts that these rules make of the loaded sheet, no room spent."
    pub fn new(reading: R) -> Book<R> {
        Book { reading, room_spent: 0 }
    }

    /// The module with the texts as they read now, the scopes as loaded and the answers afresh.
    pub fn facts(&self) -> Facts {
        self.reading.facts()
    }

    /// What the store holds now.
    pub fn held(&self) -> Held {
        let facts = self.reading.facts();
        let text = |(number, expr): (usize, &Expr)| match expr {
            Expr::Reference(text) => Some((number as ExprId, text.clone())),
            _ => None,
        };
        Held {
            reference_texts: facts.module.exprs.iter().enumerate().filter_map(text).collect(),
            name_texts: facts.module.names.into_iter().map(|name| name.text).collect(),
            resolution: self.reading.resolution(),
            room_spent: self.room_spent,
        }
    }

    /// Puts one call to the book. "refused calls and askings alter nothing".
    pub fn call(&mut self, call: &Call) -> Outcome {
        let before = self.reading.facts();
        let mut outcome = self.outcome(&before, call).unwrap_or_else(|(refused, place)| Outcome { refused, place, ..Outcome::default() });
        outcome.moved = moved(&before.resolution, &self.reading.resolution());
        outcome
    }

    /// 21 to 25, then 8, then 26 of an asking, 27 and 34 of a change. A short store, 22 and 23 never come up.
    fn outcome(&mut self, now: &Facts, call: &Call) -> Result<Outcome, Refusal> {
        if call.reply() < REPLY_BYTES {
            return Err((21, 0));
        }
        match call {
            Call::AskReference { number, buffer, .. } => ask_reference(now, *number, *buffer),
            Call::AskName { number, buffer, .. } => ask_name(now, *number, *buffer),
            Call::ChangeReference { number, text, buffer, .. } => self.change(now, Target::Reference(*number), text, *buffer),
            Call::ChangeName { number, text, buffer, .. } => self.change(now, Target::Name(*number), text, *buffer),
        }
    }

    /// The checks 24, 25, 8, 27 and 34, and the change. 8 comes before the comparison with the old text (D21).
    fn change(&mut self, now: &Facts, target: Target, text: &[u8], buffer: usize) -> Result<Outcome, Refusal> {
        let old = match target {
            Target::Reference(number) => reference_text(&now.module, number)?,
            Target::Name(number) => name_text(&now.module, number)?,
        };
        if text.len() > TEXT_BYTES {
            return Err((8, TEXT_BYTES as u32));
        }
        if old == text {
            return Ok(Outcome { changed: Some(false), ..Outcome::default() });
        }
        // "lengths of all accepted changes since the load whose text differed from the old, plus this one, exceed
        // 8,192".
        let spent = self.room_spent + text.len();
        if spent > ROOM_BYTES {
            return Err((27, 0));
        }
        self.set(target, text);
        match fitting(moved(&now.resolution, &self.reading.resolution()), buffer, MOVED_TOO_LONG) {
            Ok(list) => {
                self.room_spent = spent;
                Ok(Outcome { changed: Some(true), list, ..Outcome::default() })
            }
            Err(refusal) => {
                // "and nothing is changed": what would move is only known with the text set, so it is set back.
                self.set(target, old);
                Err(refusal)
            }
        }
    }

    fn set(&mut self, target: Target, text: &[u8]) {
        match target {
            Target::Reference(number) => self.reading.set_reference(number, text),
            Target::Name(number) => self.reading.set_name(number, text),
        }
    }
}

/// "Asking about a Reference gives its answer, with the With list in the buffer."
fn ask_reference(now: &Facts, number: ExprId, buffer: usize) -> Result<Outcome, Refusal> {
    reference_text(&now.module, number)?;
    let answer = now.resolution.answers[&number].clone();
    let list = match &answer {
        Answer::Withs(list) => list.clone(),
        _ => Vec::new(),
    };
    let list = fitting(list, buffer, LIST_TOO_LONG)?;
    Ok(Outcome { answer: Some(answer), list, ..Outcome::default() })
}

/// "asking about a name gives its kept references there".
fn ask_name(now: &Facts, number: NameId, buffer: usize) -> Result<Outcome, Refusal> {
    name_text(&now.module, number)?;
    let list = fitting(now.resolution.references[number as usize].clone(), buffer, LIST_TOO_LONG)?;
    Ok(Outcome { list, ..Outcome::default() })
}

/// 26 or 34: the buffer has fewer bytes than four times the list's length (D28), which an empty list never meets.
fn fitting(list: Vec<u32>, buffer: usize, refusal: u32) -> Result<Vec<u32>, Refusal> {
    // Divided and not multiplied, so that no length can wrap.
    if buffer / 4 < list.len() {
        return Err((refusal, list.len() as u32));
    }
    Ok(list)
}

/// The text of a Reference: 24 where there is no such expression, 25 where it is none; the place is the number.
fn reference_text(module: &Module, number: ExprId) -> Result<&[u8], Refusal> {
    match module.exprs.get(number as usize) {
        None => Err((24, number)),
        Some(Expr::Reference(text)) => Ok(text),
        Some(_) => Err((25, number)),
    }
}

/// The text of a name: 24 where there is none; the place is the number.
fn name_text(module: &Module, number: NameId) -> Result<&[u8], Refusal> {
    module.names.get(number as usize).map(|name| name.text.as_slice()).ok_or((24, number))
}

/// The References whose answers differ.
fn moved(before: &Resolution, after: &Resolution) -> Vec<ExprId> {
    let numbers = after.answers.iter().filter(|&(number, answer)| before.answers.get(number) != Some(answer));
    numbers.map(|(number, _)| *number).collect()
}

impl fmt::Display for Outcome {
    fn fmt(&self, f: &mut fmt::Formatter<'_>) -> fmt::Result {
        let listed = || format!("length={} list={}", self.list.len(), commas(&self.list));
        match (self.refused, &self.answer, self.changed) {
            (0, Some(answer), _) => write!(f, "{answer} {}", listed()),
            (0, None, Some(changed)) => write!(f, "changed={} {}", u8::from(changed), listed()),
            (0, None, None) => write!(f, "{}", listed()),
            (refused, ..) => write!(f, "refused={refused} at={}", self.place),
        }
    }
}

fn commas(list: &[u32]) -> String {
    list.iter().map(u32::to_string).collect::<Vec<_>>().join(",")
}
