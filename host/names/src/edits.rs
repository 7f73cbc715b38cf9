//! What a rename would write in the Nix text.
//!
//! Most places are simply written over. An inherit is not: in `inherit base;` one text is both the key and the use of
//! an outer name, and a rename is about one of them. Writing over it would tie the key to another value, or the value
//! to another key, so it is spelled out as `new = base;` or `base = new;`.

use crate::at;
use crate::input::Opened;
use crate::place::Source;
use crate::plan::{beside, has_text, is_name, Plan};
use crate::tree::{kind, Node};
use crate::words;
use lang_ast::{NameKind, Pointer};
use std::collections::BTreeMap;

const INHERIT: &[u8] = b"inherit";

/// Bytes to be written in the place of others.
#[derive(Debug, Clone, PartialEq, Eq)]
pub struct Edit {
    pub from: u32,
    pub to: u32,
    /// What is written there now; none where only the Nix text would tell.
    pub old: Option<Vec<u8>>,
    pub new: Vec<u8>,
}

/// What of a place is renamed.
#[derive(Debug, Clone, Copy, Default)]
struct Touched {
    key: bool,
    reference: bool,
}

/// The edits, by their places, and sentences about what would then be wrong and about what could not be written.
pub struct Edits {
    pub list: Vec<Edit>,
    pub warnings: Vec<String>,
    pub notes: Vec<String>,
}

struct Writing<'a> {
    opened: &'a Opened,
    plan: &'a Plan,
    edits: Edits,
}

/// What a rename would write; nothing where the text stays the same.
pub fn edits(opened: &Opened, plan: &Plan) -> Edits {
    let mut writing = Writing { opened, plan, edits: Edits { list: Vec::new(), warnings: Vec::new(), notes: Vec::new() } };
    if plan.old != plan.new {
        let touched = writing.touched();
        // Keys come last, since an inherit from a source may be spelled out with a copy of the source as it then reads.
        for of_keys in [false, true] {
            touched.iter().filter(|(_, touched)| touched.key == of_keys).for_each(|(&pointer, &touched)| writing.write(pointer, touched));
        }
    }
    writing.edits.list.sort_by_key(|edit| (edit.from, edit.to));
    writing.edits
}

impl Writing<'_> {
    /// The places that the rename is about.
    fn touched(&self) -> BTreeMap<Pointer, Touched> {
        let mut touched: BTreeMap<Pointer, Touched> = BTreeMap::new();
        for pointer in self.plan.references.iter().filter_map(|&expr| self.opened.store.expr_pointer(expr)) {
            touched.entry(pointer).or_default().reference = true;
        }
        if let Some(first) = self.opened.store.name(self.plan.name).map(|name| name.pointer) {
            let again = self.opened.again.iter().filter(|again| again.first == first).map(|again| again.place);
            std::iter::once(first).chain(again).for_each(|pointer| touched.entry(pointer).or_default().key = true);
        }
        touched
    }

    fn write(&mut self, pointer: Pointer, touched: Touched) {
        match self.opened.tree.inherit_with(pointer) {
            Some(inherit) if touched.key != touched.reference => self.write_inherit(inherit, pointer, touched),
            _ => self.written_over(pointer),
        }
    }

    fn write_inherit(&mut self, inherit: &Node, pointer: Pointer, touched: Touched) {
        let (old, new) = (&self.plan.old, &self.plan.new);
        let (key, value, side) = if touched.key { (new, old, "the key") } else { (old, new, "the inherited value") };
        let written = match self.opened.tree.kids(inherit, 1).count() {
            1 => self.spelled_out(inherit, pointer, key, value),
            _ => self.moved_out(inherit, pointer, key, value),
        };
        let at = words::place(self.opened, Some(pointer));
        let note = match written {
            Ok(()) => format!("in the inherit {at} is key and value in one; {side} alone is renamed, so both are written out"),
            Err(why) => format!("the inherit of {at} is left as it is: {why}"),
        };
        self.edits.notes.push(note);
        self.edits.warnings.extend(self.captured(pointer, touched));
    }

    /// An inherit looks its value up outside its let or rec set, but `base = new;` looks it up inside. If the new text
    /// is a name in there, no way of writing the inherit with it means the outer name.
    fn captured(&self, pointer: Pointer, touched: Touched) -> Option<String> {
        let (opened, new) = (self.opened, &self.plan.new);
        let key = at::name_written(opened, pointer).filter(|_| touched.reference)?;
        let recursive = matches!(opened.store.name(key)?.kind, NameKind::LetIn | NameKind::RecAttrset);
        let inner = beside(&opened.store, key).into_iter().find(|&name| has_text(&opened.store, name, new)).filter(|_| recursive)?;
        let (value, inner) = (words::place(opened, Some(pointer)), words::definition(opened, inner));
        Some(format!("the value inherited at {value} would be captured in the text: written out it would mean {inner}"))
    }

    fn push(&mut self, from: u32, to: u32, old: Option<&[u8]>, new: Vec<u8>) {
        self.edits.list.push(Edit { from, to, old: old.map(<[u8]>::to_vec), new });
    }

    /// What is written at the place of a name now.
    fn old_at(&self, pointer: Pointer) -> Option<&[u8]> {
        match pointer.kind {
            kind::IDENT => Some(&self.plan.old),
            _ => self.opened.source.as_ref().and_then(|source| source.text(pointer.from, pointer.to)),
        }
    }

    /// A key in quotes stays one.
    fn written_over(&mut self, pointer: Pointer) {
        let new = if pointer.kind == kind::IDENT { self.plan.new.clone() } else { quoted(&self.plan.new) };
        let old = self.old_at(pointer).map(<[u8]>::to_vec);
        self.push(pointer.from, pointer.to, old.as_deref(), new);
    }

    /// `inherit key;` to `key = value;`, and `inherit (source) key;` to `key = (source) .value;`
    fn spelled_out(&mut self, inherit: &Node, pointer: Pointer, key: &[u8], value: &[u8]) -> Result<(), &'static str> {
        let start = inherit.pointer.from;
        let end = start.checked_add(INHERIT.len() as u32).filter(|&end| end <= pointer.from);
        let end = end.ok_or("its place has no room for the word")?;
        self.push(start, end, Some(INHERIT), [as_key(key).as_slice(), b" ="].concat());
        if self.opened.tree.kid(inherit, 0).is_some() {
            self.push(pointer.from, pointer.from, Some(b""), b".".to_vec());
            return Ok(());
        }
        let old = self.old_at(pointer).map(<[u8]>::to_vec);
        if old.as_deref() != Some(value) {
            self.push(pointer.from, pointer.to, old.as_deref(), value.to_vec());
        }
        Ok(())
    }

    /// One key of an inherit that has others goes behind it: `inherit a b;` to `inherit a; new = b;`
    fn moved_out(&mut self, inherit: &Node, pointer: Pointer, key: &[u8], value: &[u8]) -> Result<(), &'static str> {
        let value = match self.opened.tree.kid(inherit, 0) {
            None => value.to_vec(),
            Some(source) => {
                let source = self.copied(source.pointer).ok_or("to split it, the Nix text is wanted too")?;
                [source.as_slice(), b".", &as_key(value)].concat()
            }
        };
        let blank = pointer.from.checked_sub(1).filter(|&before| self.source_text(before, pointer.from) == Some(b" "));
        let from = blank.unwrap_or(pointer.from);
        let old = self.source_text(from, pointer.to).or(self.old_at(pointer)).map(<[u8]>::to_vec);
        self.push(from, pointer.to, old.as_deref(), Vec::new());
        let entry = [b" ", as_key(key).as_slice(), b" = ", &value, b";"].concat();
        self.push(inherit.pointer.to, inherit.pointer.to, Some(b""), entry);
        Ok(())
    }

    fn source_text(&self, from: u32, to: u32) -> Option<&[u8]> {
        self.opened.source.as_ref()?.text(from, to)
    }

    /// The text of a place with the edits inside it made.
    fn copied(&self, place: Pointer) -> Option<Vec<u8>> {
        let inside = |edit: &&Edit| place.from <= edit.from && edit.to <= place.to;
        let mut edits: Vec<Edit> = self.edits.list.iter().filter(inside).cloned().collect();
        edits.sort_by_key(|edit| (edit.from, edit.to));
        applied(self.opened.source.as_ref()?, &edits, place.from as usize, place.to as usize)
    }
}

/// A text as a key: as it is where Nix reads it as a name, else in quotes.
fn as_key(text: &[u8]) -> Vec<u8> {
    if is_name(text) {
        text.to_vec()
    } else {
        quoted(text)
    }
}

/// A text as a string of Nix.
fn quoted(text: &[u8]) -> Vec<u8> {
    let mut quoted = vec![b'"'];
    for &byte in text {
        if matches!(byte, b'"' | b'\\' | b'$') {
            quoted.push(b'\\');
        }
        quoted.push(byte);
    }
    quoted.push(b'"');
    quoted
}

/// A part of the text with edits inside it made, which are in order; none where they overlap.
fn applied(source: &Source, edits: &[Edit], from: usize, to: usize) -> Option<Vec<u8>> {
    let (mut text, mut at) = (Vec::new(), from);
    for edit in edits {
        text.extend_from_slice(source.bytes().get(at..edit.from as usize)?);
        text.extend_from_slice(&edit.new);
        at = edit.to as usize;
    }
    text.extend_from_slice(source.bytes().get(at..to)?);
    Some(text)
}

/// Lines as they are and as they would be.
pub struct Changed {
    /// The number of the first.
    pub line: usize,
    pub before: Vec<Vec<u8>>,
    pub after: Vec<Vec<u8>>,
}

/// The lines that edits change; none where the edits overlap or lie outside the text.
pub fn changed_lines(source: &Source, edits: &[Edit]) -> Option<Vec<Changed>> {
    let mut changed = Vec::new();
    let mut rest = edits;
    while let Some(edit) = rest.first() {
        let first = source.spot(edit.from)?.line;
        let mut last = source.spot(edit.to)?.line;
        let mut count = 1;
        while let Some(next) = rest.get(count).filter(|next| source.spot(next.from).is_some_and(|spot| spot.line <= last)) {
            last = last.max(source.spot(next.to)?.line);
            count += 1;
        }
        let (here, others) = rest.split_at(count);
        let (from, to) = (source.line_bounds(first)?.0, source.line_bounds(last)?.1);
        let before = lines(source.bytes().get(from..to)?);
        changed.push(Changed { line: first, before, after: lines(&applied(source, here, from, to)?) });
        rest = others;
    }
    Some(changed)
}

fn lines(text: &[u8]) -> Vec<Vec<u8>> {
    let text = text.strip_suffix(b"\n").unwrap_or(text);
    text.split(|&byte| byte == b'\n').map(|line| line.strip_suffix(b"\r").unwrap_or(line).to_vec()).collect()
}
