//! The texts that keys, parameters and references are made of: few of them, so that they meet.

use crate::rng::Rng;

/// The 22 names that are global without a binding.
pub const BUILTINS: [&[u8]; 22] = [
    b"abort",
    b"baseNameOf",
    b"builtins",
    b"derivation",
    b"dirOf",
    b"false",
    b"fetchGit",
    b"fetchMercurial",
    b"fetchTarball",
    b"fetchTree",
    b"fetchurl",
    b"fromTOML",
    b"import",
    b"isNull",
    b"map",
    b"null",
    b"placeholder",
    b"removeAttrs",
    b"scopedImport",
    b"throw",
    b"toString",
    b"true",
];

/// Texts that a comparison may get wrong: the empty one, prefixes of each other and of builtins, bytes from 80 hex on,
/// NUL, line ends.
const ODD: [&[u8]; 26] = [
    b"a",
    b"ab",
    b"abc",
    b"b",
    b"x",
    b"y",
    b"",
    b"\x80",
    b"\xff",
    b"a\x80",
    b"a\xff\x00",
    b"\x00",
    b"a\x00",
    b"\n",
    b"A",
    b"a.b",
    b"a-b'",
    b"\xc3\xa9",
    b"ma",
    b"map",
    b"maps",
    b"Map",
    b"true",
    b"import",
    b"null",
    b"__add",
];

/// Texts that nothing ever binds: with no With around them they have no answer.
const FREE: [&[u8]; 4] = [b"free", b"nowhere", b"fre", b"\xfe"];

/// The texts of one sheet.
#[derive(Debug, Clone)]
pub struct Names {
    bound: Vec<Vec<u8>>,
}

impl Names {
    /// `count` different texts, at least one.
    pub fn new(rng: &mut Rng, count: usize) -> Self {
        let mut odd: Vec<Vec<u8>> = ODD.iter().map(|text| text.to_vec()).collect();
        let mut bound = Vec::new();
        for number in 0..count.max(1) {
            let text = match odd.len() {
                0 => format!("n{number}").into_bytes(),
                left => odd.swap_remove(rng.below(left)),
            };
            bound.push(text);
        }
        Names { bound }
    }

    /// A text to bind, or to ask a set for.
    pub fn key(&self, rng: &mut Rng) -> Vec<u8> {
        rng.pick(&self.bound)
    }

    /// A text to refer to, with the names bound around it, outermost first. Weighted so that definitions, builtins,
    /// Withs and nothing all come up as answers.
    pub fn reference(&self, rng: &mut Rng, around: &[Vec<u8>]) -> Vec<u8> {
        match rng.below(100) {
            0..30 if !around.is_empty() => rng.pick(around),
            30..50 if !around.is_empty() => {
                let near = around.len().saturating_sub(3);
                rng.pick(&around[near..])
            }
            0..70 => self.key(rng),
            70..85 => rng.pick(&BUILTINS).to_vec(),
            _ => rng.pick(&FREE).to_vec(),
        }
    }
}
