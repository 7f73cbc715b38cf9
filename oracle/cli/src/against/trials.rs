//! The sheets that a program is tried with, none of them longer than refsheet reads but those that must be refused for
//! it.

use generate::{Preset, Rng};

use crate::refsheet::MAX_BYTES;

/// A sheet, and what it is.
pub struct Trial {
    pub what: String,
    pub sheet: Vec<u8>,
}

impl Trial {
    fn new(what: impl Into<String>, sheet: Vec<u8>) -> Trial {
        Trial { what: what.into(), sheet }
    }
}

/// The sheets of every run: the lengths about the limit, no sheet at all, and the deepest ones.
pub fn fixed() -> Vec<Trial> {
    let mut trials: Vec<Trial> = [MAX_BYTES - 1, MAX_BYTES, MAX_BYTES + 1]
        .map(|bytes| Trial::new(format!("{bytes} bytes"), generate::exactly_written(bytes)))
        .into();
    trials.push(Trial::new("a sheet longer than any load takes", generate::over_long()));
    trials.push(Trial::new("no bytes", Vec::new()));
    trials.push(Trial::new("65,536 bytes that are no sheet", vec![b'x'; MAX_BYTES]));
    trials.push(Trial::new("65,536 line ends", vec![b'\n'; MAX_BYTES]));
    for (what, nodes) in generate::deepest(MAX_BYTES) {
        trials.push(Trial::new(what, sheet::write(&nodes)));
    }
    trials
}

/// The sheet of a seed: one that is too long is drawn again.
pub fn random(seed: u64) -> Trial {
    let mut rng = Rng::new(seed);
    loop {
        let trial = drawn(&mut rng);
        if trial.sheet.len() <= MAX_BYTES {
            return trial;
        }
    }
}

/// Told as the oracle's own commands make it, where one does. The sheets of the families that are left out are all too
/// long; their shapes come as large as they may be.
fn drawn(rng: &mut Rng) -> Trial {
    let families = [
        (20, Preset::Tiny),
        (30, Preset::Small),
        (20, Preset::Medium),
        (20, Preset::Keys),
        (3, Preset::Deep),
        (2, Preset::Merging),
        (3, Preset::Withs),
        (1, Preset::Large),
    ];
    let seed = rng.draw();
    match rng.below(100) {
        0..35 => Trial::new(format!("damaged {seed}"), generate::damaged(seed).0),
        35..40 => Trial::new(format!("near the limit, seed {seed}"), sheet::write(&generate::within(seed, MAX_BYTES))),
        40..42 => {
            Trial::new(format!("near the limit and damaged, seed {seed}"), struck(rng, sheet::write(&generate::within(seed, MAX_BYTES))))
        }
        42 => {
            let bytes = MAX_BYTES - rng.below(2_000);
            Trial::new(format!("a text that makes {bytes} bytes"), generate::exactly_written(bytes))
        }
        _ => {
            let preset = rng.weighted(&families);
            Trial::new(format!("valid {} {seed}", preset.name()), sheet::write(&preset.sheet(seed)))
        }
    }
}

/// One byte changed anywhere, or all cut off from there on.
fn struck(rng: &mut Rng, mut sheet: Vec<u8>) -> Vec<u8> {
    let at = rng.below(sheet.len());
    match rng.below(3) {
        0 => sheet.truncate(at),
        1 => sheet[at] = rng.pick(b"0123456789abcdef,-\n"),
        _ => sheet[at] ^= 1 << rng.below(8),
    }
    sheet
}
