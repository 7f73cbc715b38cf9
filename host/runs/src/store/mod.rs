//! The store: a reader, a check and a builder that were written from docs/STORE.md alone.
//!
//! - `layout`: the page's offsets.
//! - `module`: what a store holds, as plain values; `page`: the reader; `encode`, `build`: the builder.
//! - `sound`: the check of 21, 22 and 23; `asked`: what a call on any store comes to; `resolve`: what a Reference
//!   means; `moves`: which answers a change moves.
//! - `model`: random modules.
//! - `sites`, `damage`: which words may be what, and changes to them.
//! - `same`: where two modules differ.
//! - `runs`: what the command runs; `coverage`: what the modules of a run had in them.

pub mod asked;
pub mod build;
pub mod coverage;
pub mod damage;
pub mod encode;
pub mod layout;
pub mod model;
pub mod module;
pub mod moves;
pub mod page;
pub mod resolve;
pub mod runs;
pub mod same;
pub mod sites;
pub mod sound;

use generate::Rng;

/// What bytes hold that no call may write.
pub const UNWRITTEN: u8 = 0xa5;
pub const MARGIN: usize = 64;

/// A store to lend, which goes on a little past its last byte and lies between bytes that no call may write.
pub struct Lent {
    bytes: Vec<u8>,
}

impl Lent {
    pub fn new() -> Self {
        Lent { bytes: vec![UNWRITTEN; layout::BYTES + 3 * MARGIN] }
    }

    pub fn store(&mut self) -> &mut [u8] {
        &mut self.bytes[MARGIN..layout::BYTES + 2 * MARGIN]
    }

    /// The store with the bytes about it.
    pub fn all(&self) -> &[u8] {
        &self.bytes
    }

    /// Fills the store with what may be left in it from anywhere.
    pub fn soil(&mut self, rng: &mut Rng) {
        soil(&mut self.bytes[MARGIN..layout::BYTES + MARGIN], rng);
    }

    /// Whether the bytes about the store are as they were.
    pub fn margins_stand(&self) -> bool {
        let (before, after) = (&self.bytes[..MARGIN], &self.bytes[layout::BYTES + MARGIN..]);
        before.iter().chain(after).all(|&byte| byte == UNWRITTEN)
    }
}

/// Fills bytes with words of one sort: zeros, ones, any numbers or small ones.
pub fn soil(bytes: &mut [u8], rng: &mut Rng) {
    let sort = rng.below(4);
    for four in bytes.chunks_exact_mut(4) {
        let word = match sort {
            0 => 0,
            1 => u32::MAX,
            2 => rng.draw() as u32,
            _ => rng.below(40) as u32,
        };
        four.copy_from_slice(&word.to_le_bytes());
    }
}
