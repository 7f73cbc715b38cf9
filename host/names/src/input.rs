//! What is read: a sheet, which is loaded, and the Nix text beside it.

use crate::keys::{self, Again};
use crate::place::Source;
use crate::text::shown;
use crate::tree::{kind, Tree};
use lang_ast::{Pointer, Refusal, Store};
use std::ffi::OsStr;
use std::fs::File;
use std::io::{ErrorKind, Read};

/// A sheet has at most 1,048,576 bytes; with one more the load can say that it has too many.
const SHEET_BYTES: u64 = 1_048_577;
/// No Nix text that a sheet of 4,096 nodes is made from is longer.
const NIX_BYTES: u64 = 64 << 20;

/// A sheet that was accepted, with the Nix text beside it if one was given.
#[derive(Clone)]
pub struct Opened {
    pub store: Store,
    pub tree: Tree,
    /// The keys that are written again.
    pub again: Vec<Again>,
    pub source: Option<Source>,
}

/// Reads and loads a sheet, and reads the Nix text.
pub fn open(sheet: &OsStr, nix: Option<&OsStr>) -> Result<Opened, String> {
    if sheet == "-" && nix.is_some_and(|nix| nix == "-") {
        return Err("the sheet and the Nix text can't both be standard input".to_string());
    }
    let bytes = read(sheet, SHEET_BYTES)?;
    let mut opened = load(&bytes).map_err(|why| format!("{}: {why}", name_of(sheet)))?;
    if let Some(nix) = nix {
        opened.source = Some(beside(&opened.store, nix)?);
    }
    Ok(opened)
}

/// Loads a sheet, without a Nix text.
pub fn load(sheet: &[u8]) -> Result<Opened, String> {
    let store = Store::load(sheet).map_err(|refusal| refused(refusal, sheet))?;
    let tree = Tree::read(sheet);
    let again = keys::again(&tree);
    Ok(Opened { store, tree, again, source: None })
}

/// A refusal in the library's sentence; where that tells a byte of the sheet, its line too.
pub fn refused(refusal: Refusal, sheet: &[u8]) -> String {
    let Refusal { number, place } = refusal;
    match number {
        2 | 3 | 31..=33 => {
            let before = sheet.get(..place as usize).unwrap_or(sheet);
            format!("{refusal} (line {} of the sheet)", before.iter().filter(|&&byte| byte == b'\n').count() + 1)
        }
        _ => refusal.to_string(),
    }
}

/// A Nix text, if it is the one that the sheet was made from: markers under the wrong names would mislead.
fn beside(store: &Store, nix: &OsStr) -> Result<Source, String> {
    let bytes = read(nix, NIX_BYTES + 1)?;
    if bytes.len() as u64 > NIX_BYTES {
        return Err(format!("{}: the Nix text has more than {NIX_BYTES} bytes", name_of(nix)));
    }
    let source = Source::new(bytes);
    let references = store.references().filter_map(|(expr, text)| Some((text, store.expr_pointer(expr)?)));
    let names = store.names().filter_map(|name| store.name(name)).map(|name| (name.text, name.pointer));
    match references.chain(names).find(|&(text, pointer)| differs(&source, text, pointer)) {
        Some((text, Pointer { from, to, .. })) => {
            Err(format!("{}: not the text of this sheet, which has `{}` at {from}..{to}", name_of(nix), shown(text)))
        }
        None => Ok(source),
    }
}

/// Whether the source has another text where the sheet has a name. An Ident without a text says nothing.
fn differs(source: &Source, text: &[u8], pointer: Pointer) -> bool {
    pointer.kind == kind::IDENT && !text.is_empty() && source.text(pointer.from, pointer.to) != Some(text)
}

/// The bytes of a file, or of standard input, up to a limit.
fn read(path: &OsStr, limit: u64) -> Result<Vec<u8>, String> {
    let mut bytes = Vec::new();
    let read = match path == "-" {
        true => std::io::stdin().lock().take(limit).read_to_end(&mut bytes),
        false => File::open(path).and_then(|file| file.take(limit).read_to_end(&mut bytes)),
    };
    read.map_err(|error| unread(path, &error))?;
    Ok(bytes)
}

/// Why a file can't be read, in a sentence.
pub fn unread(path: &OsStr, error: &std::io::Error) -> String {
    let why = match error.kind() {
        ErrorKind::NotFound => "there is no such file".to_string(),
        ErrorKind::IsADirectory => "it is a directory".to_string(),
        ErrorKind::PermissionDenied => "it may not be read".to_string(),
        _ => error.to_string(),
    };
    format!("{}: {why}", name_of(path))
}

/// What a file is called in a sentence.
pub fn name_of(path: &OsStr) -> String {
    match path == "-" {
        true => "standard input".to_string(),
        false => shown(path.as_encoded_bytes()),
    }
}
