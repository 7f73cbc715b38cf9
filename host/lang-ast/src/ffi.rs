//! The five calls of the archive, and all that is unsafe in this crate: turning slices into the pointers and lengths
//! that the calls take.
//!
//! None of the calls forbids an argument: any bytes, any numbers, any lengths, none too. So each is safe to call with
//! any slices, and what is left to see to is only that a pointer and a length belong together and that nothing else
//! looks at a slice while it is written, which a Rust slice says of itself.

#![allow(unsafe_code)]

mod archive {
    // A slice is two parameters, a pointer and a length, in the order of the table in docs/STORE.md.
    #[rustfmt::skip]
    extern "C" {
        pub fn lang_ast_load(sheet: *const u8, sheet_length: usize, store: *mut u8, store_length: usize, reply: *mut u8, reply_length: usize) -> u32;
        pub fn lang_ast_ask_reference(store: *const u8, store_length: usize, number: u32, buffer: *mut u8, buffer_length: usize, reply: *mut u8, reply_length: usize) -> u32;
        pub fn lang_ast_ask_name(store: *const u8, store_length: usize, number: u32, buffer: *mut u8, buffer_length: usize, reply: *mut u8, reply_length: usize) -> u32;
        pub fn lang_ast_change_reference(store: *mut u8, store_length: usize, number: u32, text: *const u8, text_length: usize, moved: *mut u8, moved_length: usize, reply: *mut u8, reply_length: usize) -> u32;
        pub fn lang_ast_change_name(store: *mut u8, store_length: usize, number: u32, text: *const u8, text_length: usize, moved: *mut u8, moved_length: usize, reply: *mut u8, reply_length: usize) -> u32;
    }
}

/// Loads a sheet into the store. The refusal's number, 0 for none.
pub fn load(sheet: &[u8], store: &mut [u8], reply: &mut [u8]) -> u32 {
    let (sheet, sheet_length) = (sheet.as_ptr(), sheet.len());
    let (store, store_length) = (store.as_mut_ptr(), store.len());
    // SAFETY: each pointer is its slice's, with that slice's length; what is written is borrowed mutably, so nothing
    // else is in it. The call keeps no pointer after it returns.
    unsafe { archive::lang_ast_load(sheet, sheet_length, store, store_length, reply.as_mut_ptr(), reply.len()) }
}

/// Asks what a Reference means. The refusal's number, 0 for none.
pub fn ask_reference(store: &[u8], number: u32, buffer: &mut [u8], reply: &mut [u8]) -> u32 {
    let (store, store_length) = (store.as_ptr(), store.len());
    let (buffer, buffer_length) = (buffer.as_mut_ptr(), buffer.len());
    // SAFETY: as for `load`. The store is read and never written, so a shared borrow is enough.
    unsafe { archive::lang_ast_ask_reference(store, store_length, number, buffer, buffer_length, reply.as_mut_ptr(), reply.len()) }
}

/// Asks where a name is used. The refusal's number, 0 for none.
pub fn ask_name(store: &[u8], number: u32, buffer: &mut [u8], reply: &mut [u8]) -> u32 {
    let (store, store_length) = (store.as_ptr(), store.len());
    let (buffer, buffer_length) = (buffer.as_mut_ptr(), buffer.len());
    // SAFETY: as for `load`. The store is read and never written, so a shared borrow is enough.
    unsafe { archive::lang_ast_ask_name(store, store_length, number, buffer, buffer_length, reply.as_mut_ptr(), reply.len()) }
}

/// Sets the text of a Reference, and lists what that moved. The refusal's number, 0 for none.
pub fn change_reference(store: &mut [u8], number: u32, text: &[u8], moved: &mut [u8], reply: &mut [u8]) -> u32 {
    let (store, store_length) = (store.as_mut_ptr(), store.len());
    let (text, text_length) = (text.as_ptr(), text.len());
    let (moved, moved_length) = (moved.as_mut_ptr(), moved.len());
    let (reply, reply_length) = (reply.as_mut_ptr(), reply.len());
    // SAFETY: as for `load`. The text is another slice than those that are written, since they are borrowed mutably.
    unsafe { archive::lang_ast_change_reference(store, store_length, number, text, text_length, moved, moved_length, reply, reply_length) }
}

/// Sets the text of a name, and lists what that moved. The refusal's number, 0 for none.
pub fn change_name(store: &mut [u8], number: u32, text: &[u8], moved: &mut [u8], reply: &mut [u8]) -> u32 {
    let (store, store_length) = (store.as_mut_ptr(), store.len());
    let (text, text_length) = (text.as_ptr(), text.len());
    let (moved, moved_length) = (moved.as_mut_ptr(), moved.len());
    let (reply, reply_length) = (reply.as_mut_ptr(), reply.len());
    // SAFETY: as for `load`. The text is another slice than those that are written, since they are borrowed mutably.
    unsafe { archive::lang_ast_change_name(store, store_length, number, text, text_length, moved, moved_length, reply, reply_length) }
}

#[cfg(test)]
mod tests {
    use super::*;
    use crate::layout::{REPLY_BYTES, STORE_BYTES};

    /// What the library never lends: replies and buffers that are too short.
    #[test]
    fn short_replies_and_buffers_are_refused() {
        let (mut store, mut reply) = (vec![0; STORE_BYTES], [7; REPLY_BYTES]);
        let sheet = b"nodes=3\nkind=21\nfrom=0\nto=9\nflag=0\nkids=1\ntext=\nkind=4\nfrom=0\nto=9\nflag=0\nkids=-,2\ntext=\n\
            kind=18\nfrom=8\nto=9\nflag=1\nkids=\ntext=62\n";
        assert_eq!(load(sheet, &mut store, &mut reply[1..]), 21);
        assert_eq!(reply, [7; REPLY_BYTES]);
        assert_eq!(load(sheet, &mut store, &mut reply), 0);
        let mut buffer = [7; 3];
        assert_eq!(ask_reference(&store, 1, &mut buffer, &mut reply), 26);
        assert_eq!(reply, [26, 0, 0, 0, 1, 0, 0, 0, 0, 0, 0, 0, 0, 0, 0, 0, 0, 0, 0, 0]);
        assert_eq!(buffer, [7; 3]);
    }

    /// What the library does not let its callers see: 34 leaves store and buffer as they were, and four bytes for each
    /// number are enough.
    #[test]
    fn a_change_in_a_buffer_that_is_too_short_is_refused() {
        let (mut store, mut reply) = (vec![0; STORE_BYTES], [7; REPLY_BYTES]);
        assert_eq!(load(include_bytes!("../../../examples/definition-before-with.sheet"), &mut store, &mut reply), 0);
        let (before, mut moved) = (store.clone(), [7; 9]);
        for length in [0, 4, 7] {
            assert_eq!(change_name(&mut store, 0, b"z", &mut moved[..length], &mut reply), 34);
            assert_eq!(reply, [34, 0, 0, 0, 2, 0, 0, 0, 0, 0, 0, 0, 0, 0, 0, 0, 0, 0, 0, 0]);
            assert!(store == before && moved == [7; 9], "{length}");
        }
        assert_eq!(change_name(&mut store, 0, b"y", &mut [], &mut reply), 0);
        assert!(store == before);
        assert_eq!(change_name(&mut store, 0, b"z", &mut moved[..8], &mut reply), 0);
        assert_eq!(reply, [0, 0, 0, 0, 0, 0, 0, 0, 0, 0, 0, 0, 0, 0, 0, 0, 2, 0, 0, 0]);
        assert_eq!(moved, [0, 0, 0, 0, 1, 0, 0, 0, 7]);
    }

    /// Nothing that is lent need be aligned: each slice at every distance from a multiple of eight.
    #[test]
    fn no_slice_need_be_aligned() {
        fn at(bytes: &mut [u8], distance: usize, length: usize) -> &mut [u8] {
            let to_eight = bytes.as_ptr().align_offset(8);
            &mut bytes[to_eight + distance..][..length]
        }
        let lambda = include_bytes!("../../../examples/lambda.sheet");
        let (mut sheets, mut stores) = (vec![0; lambda.len() + 16], vec![0; STORE_BYTES + 16]);
        let (mut texts, mut buffers, mut replies) = ([0; 17], [0; 20], [0; REPLY_BYTES + 16]);
        for distance in 0..8 {
            let sheet = at(&mut sheets, distance, lambda.len());
            sheet.copy_from_slice(lambda);
            let text = at(&mut texts, 7 - distance, 1);
            text.copy_from_slice(b"y");
            let store = at(&mut stores, (distance + 1) % 8, STORE_BYTES);
            let (buffer, reply) = (at(&mut buffers, (distance + 2) % 8, 4), at(&mut replies, (distance + 3) % 8, REPLY_BYTES));
            assert_eq!(load(sheet, store, reply), 0);
            assert_eq!(ask_reference(store, 0, buffer, reply), 0);
            assert_eq!(reply, [0, 0, 0, 0, 0, 0, 0, 0, 1, 0, 0, 0, 0, 0, 0, 0, 0, 0, 0, 0]);
            assert_eq!(change_name(store, 0, text, buffer, reply), 0);
            assert_eq!((&buffer[..], &reply[16..]), (&[0; 4][..], &[1, 0, 0, 0][..]));
            assert_eq!(change_reference(store, 0, text, buffer, reply), 0);
            buffer.fill(7);
            assert_eq!(ask_name(store, 0, buffer, reply), 0);
            assert_eq!((&buffer[..], &reply[16..]), (&[0; 4][..], &[1, 0, 0, 0][..]));
        }
    }
}
