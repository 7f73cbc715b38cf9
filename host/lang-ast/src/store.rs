//! The store, and the five calls on it.

use crate::answer::{Answer, Builtin};
use crate::ffi;
use crate::ids::{ExprId, NameId};
use crate::layout::{word, words, KEPT, REPLY_BYTES, STORE_BYTES};
use crate::refusal::Refusal;
use std::fmt;

/// How many numbers the first buffer of a call holds. Few lists are longer, and for those the call is made twice.
const FIRST_BUFFER: usize = 32;

/// No list is longer than the table of kept references.
const LONGEST_LIST: u32 = KEPT.limit;

/// The refusals of a list that is longer than its buffer, an asking's and a change's, and of a number that nothing has.
const BUFFER_TOO_SHORT: u32 = 26;
const MOVED_BUFFER_TOO_SHORT: u32 = 34;
const NO_SUCH_NUMBER: u32 = 24;

/// A loaded file: its expressions, names and scopes, what each Reference means and where each name is used.
///
/// It owns its [`STORE_BYTES`] bytes. They hold everything: a copy of them is a copy of the file ([`Clone`]), and bytes
/// that were kept elsewhere are a store again by [`Store::from_bytes`]. Every call checks the bytes first, so no bytes
/// are dangerous: what is no store is refused.
///
/// A load takes up to one mebibyte of the thread's stack; asking and changing take little.
///
/// ```
/// use lang_ast::{Answer, ExprId, NameId, Store};
///
/// // The sheet of `x: x`.
/// let mut store = Store::load(&std::fs::read("../../examples/lambda.sheet")?)?;
/// assert_eq!(store.ask_reference(ExprId(0))?, Answer::Definition(NameId(0)));
/// assert_eq!(store.ask_name(NameId(0))?, [ExprId(0)]);
///
/// // `y: x`, in which nothing has the name x. The change tells which meanings are others now.
/// assert_eq!(store.change_name(NameId(0), b"y")?, [ExprId(0)]);
/// assert_eq!(store.ask_reference(ExprId(0))?, Answer::None);
/// # Ok::<(), Box<dyn std::error::Error>>(())
/// ```
#[derive(Clone)]
pub struct Store {
    bytes: Box<[u8]>,
}

/// What a call said: the five words of its reply, and the list.
struct Reply {
    words: [u8; REPLY_BYTES],
    list: Vec<ExprId>,
}

impl Reply {
    /// What stands at a place of the reply, by its table in docs/STORE.md.
    fn word(&self, at: usize) -> u32 {
        word(&self.words, at).unwrap_or_default()
    }

    /// The answer of an asking about a Reference.
    fn answer(self) -> Result<Answer, Refusal> {
        Ok(match self.word(8) {
            0 => Answer::None,
            1 => Answer::Definition(NameId(self.word(12))),
            2 => Answer::Builtin(Builtin::from_index(self.word(12)).ok_or(Refusal::UNKNOWN)?),
            3 => Answer::Withs(self.list),
            _ => return Err(Refusal::UNKNOWN),
        })
    }
}

/// What a call came to that returned this number and wrote this reply.
fn outcome(number: u32, reply: &[u8]) -> Result<(), Refusal> {
    match number {
        0 => Ok(()),
        number => Err(Refusal { number, place: word(reply, 4).unwrap_or_default() }),
    }
}

/// Makes a call that has a list, and where that is longer than the buffer once more with one that is long enough: the
/// first has then changed nothing.
fn listed(mut call: impl FnMut(&mut [u8], &mut [u8]) -> u32) -> Result<Reply, Refusal> {
    match listed_once(&mut call, FIRST_BUFFER) {
        Err(Refusal { number: BUFFER_TOO_SHORT | MOVED_BUFFER_TOO_SHORT, place }) => listed_once(call, place.min(LONGEST_LIST) as usize),
        other => other,
    }
}

fn listed_once(mut call: impl FnMut(&mut [u8], &mut [u8]) -> u32, numbers: usize) -> Result<Reply, Refusal> {
    let mut buffer = vec![0; 4 * numbers];
    let mut reply = Reply { words: [0; REPLY_BYTES], list: Vec::new() };
    outcome(call(&mut buffer, &mut reply.words), &reply.words)?;
    reply.list = words(&buffer).take(reply.word(16) as usize).map(ExprId).collect();
    Ok(reply)
}

impl Store {
    /// A store with nothing in it, which all askings and changes refuse with 23.
    ///
    /// ```
    /// use lang_ast::{ExprId, Reason, Store};
    /// let refusal = Store::empty().ask_reference(ExprId(0)).unwrap_err();
    /// assert_eq!(refusal.reason(), Some(Reason::NothingLoaded));
    /// ```
    pub fn empty() -> Self {
        Store { bytes: vec![0; STORE_BYTES].into_boxed_slice() }
    }

    /// A store of the sheet; refused are the sheets that docs/SHEET.md refuses, with 1 to 7 and 31 to 33.
    /// [`SheetWriter`](crate::SheetWriter) writes sheets that are not.
    pub fn load(sheet: &[u8]) -> Result<Self, Refusal> {
        let mut store = Store::empty();
        store.reload(sheet)?;
        Ok(store)
    }

    /// Puts another sheet in the place of the one that is loaded. A refusal leaves the store as it was.
    ///
    /// The numbers of expressions, names and scopes are those of the new sheet, and the whole change room is free
    /// again.
    ///
    /// ```
    /// # let sheet = std::fs::read("../../examples/lambda.sheet")?;
    /// let mut store = lang_ast::Store::load(&sheet)?;
    /// assert_eq!(store.reload(b"no sheet").unwrap_err().number, 2);
    /// assert_eq!(store.name_count(), 1);
    /// # Ok::<(), Box<dyn std::error::Error>>(())
    /// ```
    pub fn reload(&mut self, sheet: &[u8]) -> Result<(), Refusal> {
        let mut reply = [0; REPLY_BYTES];
        outcome(ffi::load(sheet, &mut self.bytes, &mut reply), &reply)
    }

    /// A store of any bytes. Bytes that are no store are refused by the calls: with 21 if they are too few, else with
    /// 22 or 23.
    ///
    /// ```
    /// # let sheet = std::fs::read("../../examples/lambda.sheet")?;
    /// use lang_ast::{ExprId, Store};
    /// let store = Store::load(&sheet)?;
    /// let same = Store::from_bytes(store.as_bytes().to_vec());
    /// assert_eq!(same.ask_reference(ExprId(0)), store.ask_reference(ExprId(0)));
    /// assert_eq!(Store::from_bytes(vec![1, 2, 3]).check().unwrap_err().number, 21);
    /// # Ok::<(), Box<dyn std::error::Error>>(())
    /// ```
    pub fn from_bytes(bytes: Vec<u8>) -> Self {
        Store { bytes: bytes.into_boxed_slice() }
    }

    /// The bytes, as docs/STORE.md lays them out.
    pub fn as_bytes(&self) -> &[u8] {
        &self.bytes
    }

    /// The bytes, without the store.
    pub fn into_bytes(self) -> Vec<u8> {
        self.bytes.into_vec()
    }

    /// Whether the store can be asked at all: refused with 21 if its bytes are too few, with 22 if they are unsound,
    /// with 23 if nothing is loaded. A store that was loaded, and changed by its own methods alone, never is.
    pub fn check(&self) -> Result<(), Refusal> {
        // An asking checks the store before the number, and this number no name has.
        match self.ask_name(NameId(u32::MAX)) {
            Err(Refusal { number: NO_SUCH_NUMBER, .. }) => Ok(()),
            other => other.map(|_| ()),
        }
    }

    /// What a Reference means. Refused with 24 where there is no such expression, and with 25 where it is no Reference.
    pub fn ask_reference(&self, expr: ExprId) -> Result<Answer, Refusal> {
        listed(|buffer, reply| ffi::ask_reference(&self.bytes, expr.0, buffer, reply))?.answer()
    }

    /// The References that mean a name, ascending. Refused with 24 where there is no such name.
    pub fn ask_name(&self, name: NameId) -> Result<Vec<ExprId>, Refusal> {
        Ok(listed(|buffer, reply| ffi::ask_name(&self.bytes, name.0, buffer, reply))?.list)
    }

    /// Sets the text of a Reference, and with it what it means. All answers and references are then those of the file
    /// with the new text. Gives the References that mean something else than before: this one, or none.
    ///
    /// Refused with 24 and 25 as [`Store::ask_reference`] is, with 8 for a text of more than
    /// [`TEXT_LIMIT`](crate::TEXT_LIMIT) bytes, and with 27 if it is another than the old one and has more bytes than
    /// [`Store::room_left`] says. A refusal leaves the store as it was.
    pub fn change_reference(&mut self, expr: ExprId, text: &[u8]) -> Result<Vec<ExprId>, Refusal> {
        Ok(listed(|moved, reply| ffi::change_reference(&mut self.bytes, expr.0, text, moved, reply))?.list)
    }

    /// Sets the text of a name, and nothing else: the References that meant it keep their texts. All answers and
    /// references are then those of the file with the new text.
    ///
    /// Gives the References that mean something else than before, ascending, and no others: what an editor has to paint
    /// again. A text that is the old one moves none.
    ///
    /// Refused with 24 where there is no such name, with 8 for a text of more than [`TEXT_LIMIT`](crate::TEXT_LIMIT)
    /// bytes, and with 27 if it is another than the old one and has more bytes than [`Store::room_left`] says. A
    /// refusal leaves the store as it was.
    ///
    /// # To rename
    ///
    /// Take the uses first ([`Store::ask_name`]), since afterwards they mean something else or nothing. Then change the
    /// name and each use, and ask again: the rename is safe if every name's uses are what they were. Then every
    /// Reference means what it meant.
    ///
    /// ```
    /// use lang_ast::{Kind, Store};
    /// // `x: y: x`, in which the x is to be called something else.
    /// let mut store = Store::load(&std::fs::read("../../examples/line-d-rename-and-back.sheet")?)?;
    /// let name = store.name_at(Kind::ident("x").pointer(0, 1)).ok_or("no name there")?;
    ///
    /// let mut rename = |text: &[u8]| -> Result<bool, lang_ast::Refusal> {
    ///     let mut renamed = store.clone();
    ///     renamed.change_name(name, text)?;
    ///     for used in store.ask_name(name)? {
    ///         renamed.change_reference(used, text)?;
    ///     }
    ///     // What `ask_name` says, without a check of the whole store for each name.
    ///     let safe = store.names().all(|name| store.kept_references(name) == renamed.kept_references(name));
    ///     if safe {
    ///         store = renamed;
    ///     }
    ///     Ok(safe)
    /// };
    /// assert!(!rename(b"y")?, "the inner y would take the use");
    /// assert!(rename(b"z")?);
    /// # Ok::<(), Box<dyn std::error::Error>>(())
    /// ```
    ///
    /// - A text is not checked to be one that Nix takes as a name.
    /// - Each change spends its own bytes, so a rename may be refused with 27 halfway: see [`Store::room_left`], or
    ///   work on a clone as here.
    /// - What is no Reference is no use: the `x` of `set.x`, and an argument `{ x = 1; }` for a field `x` of a pattern.
    /// - Whether a key is then in its set twice is not looked at: [`Store::diagnostics`] are those of the load.
    /// - The Ident of `inherit x;` is a name and a Reference, that of `inherit (source) x;` a name and what is
    ///   selected. Where only one of the two is renamed no `inherit` says it any more: `x = y;`, `y = x;` or
    ///   `y = source.x;` does.
    pub fn change_name(&mut self, name: NameId, text: &[u8]) -> Result<Vec<ExprId>, Refusal> {
        Ok(listed(|moved, reply| ffi::change_name(&mut self.bytes, name.0, text, moved, reply))?.list)
    }
}

impl Default for Store {
    fn default() -> Self {
        Store::empty()
    }
}

impl fmt::Debug for Store {
    fn fmt(&self, f: &mut fmt::Formatter<'_>) -> fmt::Result {
        let mut counts = f.debug_struct("Store");
        counts.field("exprs", &self.expr_count()).field("names", &self.name_count()).field("scopes", &self.scope_count());
        counts.finish_non_exhaustive()
    }
}
