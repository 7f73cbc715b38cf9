//! A slice to lend that lies between bytes which no call may write, and whose own bytes show whether they were written.

use crate::store::layout::put;
use crate::store::{MARGIN, UNWRITTEN};

pub struct Edged {
    bytes: Vec<u8>,
    length: usize,
}

impl Edged {
    pub fn new(length: usize) -> Self {
        Edged { bytes: vec![UNWRITTEN; length + 2 * MARGIN], length }
    }

    pub fn slice(&mut self) -> &mut [u8] {
        &mut self.bytes[MARGIN..MARGIN + self.length]
    }

    /// Whether these words were written from the slice's first byte on, and nothing else. Words that do not fit are not
    /// to be written.
    pub fn holds(&self, words: &[u32]) -> Result<(), String> {
        let mut right = vec![UNWRITTEN; self.bytes.len()];
        if 4 * words.len() <= self.length {
            words.iter().enumerate().for_each(|(i, &word)| put(&mut right, MARGIN + 4 * i, word));
        }
        match (0..right.len()).find(|&at| self.bytes[at] != right[at]) {
            None => Ok(()),
            Some(at) => {
                let (at, length) = (at as i64 - MARGIN as i64, self.length);
                let near = &self.bytes[MARGIN..MARGIN + length.min(40)];
                Err(format!("{length} lent bytes for the words {words:?} are wrong at byte {at}; they begin with {near:?}"))
            }
        }
    }
}
