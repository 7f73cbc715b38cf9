//! A stand-in for the five calls, so that the host can be tried without the archive: what the oracle's second reading
//! makes of a sheet, written into the store by the host's builder, and askings and changes over what the host's reader
//! finds there.

#![allow(clippy::missing_safety_doc, clippy::too_many_arguments)]

use crate::nameres::expected::Right;
use crate::store::asked::{self, Accepted, Refusal};
use crate::store::build::{build, Texts};
use crate::store::layout::{self, get, header, put, KEPT, NONE, REFERENCES, USES};
use crate::store::module::{Answer, Expr};
use crate::store::moves::{self, Moves, Place};
use crate::store::{encode, page};
use book::Call;
use canon::Reading;
use generate::Rng;
use sheet::check::check;
use std::slice::{from_raw_parts, from_raw_parts_mut};

#[rustfmt::skip]
pub unsafe fn lang_ast_load(sheet: *const u8, sheet_length: usize, store: *mut u8, length: usize, reply: *mut u8, reply_length: usize) -> u32 {
    let (sheet, store) = unsafe { (from_raw_parts(sheet, sheet_length), from_raw_parts_mut(store, length)) };
    let loaded = if reply_length < book::REPLY_BYTES { Err((21, 0)) } else { load(sheet, store) };
    tell(unsafe { from_raw_parts_mut(reply, reply_length) }, &loaded)
}

#[rustfmt::skip]
pub unsafe fn lang_ast_ask_reference(store: *const u8, length: usize, number: u32, buffer: *mut u8, buffer_length: usize, reply: *mut u8, reply_length: usize) -> u32 {
    let call = Call::AskReference { number, buffer: buffer_length, reply: reply_length };
    unsafe { ask(from_raw_parts(store, length), &call, from_raw_parts_mut(buffer, buffer_length), from_raw_parts_mut(reply, reply_length)) }
}

#[rustfmt::skip]
pub unsafe fn lang_ast_ask_name(store: *const u8, length: usize, number: u32, buffer: *mut u8, buffer_length: usize, reply: *mut u8, reply_length: usize) -> u32 {
    let call = Call::AskName { number, buffer: buffer_length, reply: reply_length };
    unsafe { ask(from_raw_parts(store, length), &call, from_raw_parts_mut(buffer, buffer_length), from_raw_parts_mut(reply, reply_length)) }
}

#[rustfmt::skip]
pub unsafe fn lang_ast_change_reference(store: *mut u8, length: usize, number: u32, text: *const u8, text_length: usize, moved: *mut u8, moved_length: usize, reply: *mut u8, reply_length: usize) -> u32 {
    let text = unsafe { from_raw_parts(text, text_length) }.to_vec();
    let call = Call::ChangeReference { number, text: text.clone(), buffer: moved_length, reply: reply_length };
    let (moved, reply) = unsafe { (from_raw_parts_mut(moved, moved_length), from_raw_parts_mut(reply, reply_length)) };
    change(unsafe { from_raw_parts_mut(store, length) }, &call, Place::Reference(number), &text, moved, reply)
}

#[rustfmt::skip]
pub unsafe fn lang_ast_change_name(store: *mut u8, length: usize, number: u32, text: *const u8, text_length: usize, moved: *mut u8, moved_length: usize, reply: *mut u8, reply_length: usize) -> u32 {
    let text = unsafe { from_raw_parts(text, text_length) }.to_vec();
    let call = Call::ChangeName { number, text: text.clone(), buffer: moved_length, reply: reply_length };
    let (moved, reply) = unsafe { (from_raw_parts_mut(moved, moved_length), from_raw_parts_mut(reply, reply_length)) };
    change(unsafe { from_raw_parts_mut(store, length) }, &call, Place::Name(number), &text, moved, reply)
}

/// Writes the reply where it is long enough; the number that is returned.
fn tell(reply: &mut [u8], told: &Result<Accepted, Refusal>) -> u32 {
    let words = asked::words(told);
    if reply.len() >= book::REPLY_BYTES {
        words.iter().enumerate().for_each(|(i, &word)| put(reply, 4 * i, word));
    }
    words[0]
}

fn load(sheet: &[u8], store: &mut [u8]) -> Result<Accepted, Refusal> {
    if store.len() < layout::BYTES {
        return Err((21, 0));
    }
    let nodes = check(sheet).map_err(|refusal| (refusal.number, refusal.place))?;
    let right = Right::loaded(&nodes, reading::Plain::new(&nodes).facts());
    if let Ok(module) = right.module() {
        build(store, &module, Texts::of_nodes(&nodes), &mut Rng::new(1));
    }
    Ok(Accepted::default())
}

fn ask(store: &[u8], call: &Call, buffer: &mut [u8], reply: &mut [u8]) -> u32 {
    let told = asked::told(store, call);
    list(buffer, &told);
    tell(reply, &told)
}

/// Writes the list of an accepted call.
fn list(buffer: &mut [u8], told: &Result<Accepted, Refusal>) {
    if let Ok(accepted) = told {
        accepted.list.iter().enumerate().for_each(|(i, &number)| put(buffer, 4 * i, number));
    }
}

fn change(store: &mut [u8], call: &Call, changed: Place, text: &[u8], moved: &mut [u8], reply: &mut [u8]) -> u32 {
    let told = asked::told(store, call);
    if let Ok(Accepted { changes: Some(at), .. }) = told {
        let moves = page::read(store).map(|before| moves::by(&before, changed, text));
        let number = place(store, text);
        put(store, at, number);
        if let Ok(moves) = moves {
            keep(store, &moves);
        }
    }
    list(moved, &told);
    tell(reply, &told)
}

/// Puts a text behind those in use, unless it is empty; its number.
fn place(store: &mut [u8], text: &[u8]) -> u32 {
    if text.is_empty() {
        return NONE;
    }
    let (number, length) = (get(store, header::TEXTS), text.len() as u32);
    let spent = get(store, header::SPENT) + length;
    let begin = layout::TEXTS + number as usize;
    put(store, begin, length);
    store[begin + 4..begin + 4 + text.len()].copy_from_slice(text);
    put(store, header::TEXTS, number + 4 + length);
    put(store, header::SPENT, spent);
    number
}

/// The answers as they moved, and where one did the references of every name from all answers.
fn keep(store: &mut [u8], moves: &Moves) {
    for &e in &moves.moved {
        put(store, USES.word(e as usize, 1), encode::answer(moves.answers[e as usize]));
    }
    if moves.moved.is_empty() {
        return;
    }
    let Ok(module) = page::read(store) else { return };
    let is_kept =
        |e: usize, name: usize| matches!(module.exprs[e].expr, Expr::Reference(_)) && moves.answers[e] == Answer::Definition(name as u32);
    let names = module.names.len();
    let lists: Vec<Vec<usize>> = (0..names).map(|name| (0..moves.answers.len()).filter(|&e| is_kept(e, name)).collect()).collect();
    let mut kept = 0;
    for (name, list) in lists.into_iter().enumerate() {
        put(store, REFERENCES.word(name, 0), kept as u32);
        for e in list {
            put(store, KEPT.word(kept, 0), e as u32);
            kept += 1;
        }
    }
    put(store, REFERENCES.word(names, 0), kept as u32);
}
