//! The five calls that the product exports. None of them has a `requires`, so every argument is allowed.

use crate::edged::Edged;
#[cfg(feature = "stand-in")]
use crate::stand_in as raw;

#[cfg(not(feature = "stand-in"))]
mod raw {
    // A slice of Rattle is two parameters, a pointer and a length.
    #[rustfmt::skip]
    extern "C" {
        pub fn lang_ast_load(sheet: *const u8, sheet_length: usize, store: *mut u8, length: usize, reply: *mut u8, reply_length: usize) -> u32;
        pub fn lang_ast_ask_reference(store: *const u8, length: usize, number: u32, buffer: *mut u8, buffer_length: usize, reply: *mut u8, reply_length: usize) -> u32;
        pub fn lang_ast_ask_name(store: *const u8, length: usize, number: u32, buffer: *mut u8, buffer_length: usize, reply: *mut u8, reply_length: usize) -> u32;
        pub fn lang_ast_change_reference(store: *mut u8, length: usize, number: u32, text: *const u8, text_length: usize, moved: *mut u8, moved_length: usize, reply: *mut u8, reply_length: usize) -> u32;
        pub fn lang_ast_change_name(store: *mut u8, length: usize, number: u32, text: *const u8, text_length: usize, moved: *mut u8, moved_length: usize, reply: *mut u8, reply_length: usize) -> u32;
    }
}

/// The words of a reply.
pub const REPLY: usize = book::REPLY_BYTES;

/// A number that no expression and no name has.
const NO_NUMBER: u32 = u32::MAX;

/// Loads a sheet into the store.
pub fn load(sheet: &[u8], store: &mut [u8], reply: &mut [u8]) -> u32 {
    unsafe { raw::lang_ast_load(sheet.as_ptr(), sheet.len(), store.as_mut_ptr(), store.len(), reply.as_mut_ptr(), reply.len()) }
}

/// Asks what a Reference means.
pub fn ask_reference(store: &[u8], number: u32, buffer: &mut [u8], reply: &mut [u8]) -> u32 {
    let (at, length) = (buffer.as_mut_ptr(), buffer.len());
    unsafe { raw::lang_ast_ask_reference(store.as_ptr(), store.len(), number, at, length, reply.as_mut_ptr(), reply.len()) }
}

/// Asks where a name is used.
pub fn ask_name(store: &[u8], number: u32, buffer: &mut [u8], reply: &mut [u8]) -> u32 {
    let (at, length) = (buffer.as_mut_ptr(), buffer.len());
    unsafe { raw::lang_ast_ask_name(store.as_ptr(), store.len(), number, at, length, reply.as_mut_ptr(), reply.len()) }
}

/// Sets the text of a Reference, and lists what that moved.
pub fn change_reference(store: &mut [u8], number: u32, text: &[u8], moved: &mut [u8], reply: &mut [u8]) -> u32 {
    let (store, length) = (store.as_mut_ptr(), store.len());
    let (text, text_length) = (text.as_ptr(), text.len());
    let (moved, moved_length) = (moved.as_mut_ptr(), moved.len());
    unsafe {
        raw::lang_ast_change_reference(store, length, number, text, text_length, moved, moved_length, reply.as_mut_ptr(), reply.len())
    }
}

/// Sets the text of a name, and lists what that moved.
pub fn change_name(store: &mut [u8], number: u32, text: &[u8], moved: &mut [u8], reply: &mut [u8]) -> u32 {
    let (store, length) = (store.as_mut_ptr(), store.len());
    let (text, text_length) = (text.as_ptr(), text.len());
    let (moved, moved_length) = (moved.as_mut_ptr(), moved.len());
    unsafe { raw::lang_ast_change_name(store, length, number, text, text_length, moved, moved_length, reply.as_mut_ptr(), reply.len()) }
}

/// Loads a sheet that is in order.
pub fn loaded(sheet: &[u8], store: &mut [u8]) -> Result<(), String> {
    let mut reply = Edged::new(REPLY);
    match load(sheet, store, reply.slice()) {
        0 => reply.holds(&[0; 5]),
        number => Err(format!("the sheet is refused with {number}")),
    }
}

/// Whether the store is a reason for a refusal: 21, 22 or 23, else 0. It is what an asking meets that gets no further.
pub fn condition(store: &[u8]) -> u32 {
    let mut reply = [0; REPLY];
    match ask_name(store, NO_NUMBER, &mut [], &mut reply) {
        24 => 0,
        number => number,
    }
}
