//! What a Reference means.

use crate::ids::{ExprId, NameId};
use std::fmt;

/// The names that Nix knows without a definition, in the order of the archive's table.
const NAMES: [&str; 22] = [
    "abort",
    "baseNameOf",
    "builtins",
    "derivation",
    "dirOf",
    "false",
    "fetchGit",
    "fetchMercurial",
    "fetchTarball",
    "fetchTree",
    "fetchurl",
    "fromTOML",
    "import",
    "isNull",
    "map",
    "null",
    "placeholder",
    "removeAttrs",
    "scopedImport",
    "throw",
    "toString",
    "true",
];

/// What a Reference means: the innermost definition around it; else a name built into Nix; else one of the Withs around
/// it, which only an evaluation can tell; else nothing.
#[derive(Debug, Clone, PartialEq, Eq, Hash)]
pub enum Answer {
    /// Nothing has its name.
    None,
    /// This definition.
    Definition(NameId),
    /// A name that is built into Nix.
    Builtin(Builtin),
    /// An attribute of one of these Withs, innermost first; there is at least one.
    Withs(Vec<ExprId>),
}

impl Answer {
    /// The definition, if the answer is one.
    ///
    /// ```
    /// use lang_ast::{Answer, NameId};
    /// assert_eq!(Answer::Definition(NameId(4)).definition(), Some(NameId(4)));
    /// assert_eq!(Answer::None.definition(), None);
    /// ```
    pub fn definition(&self) -> Option<NameId> {
        match self {
            Answer::Definition(name) => Some(*name),
            _ => None,
        }
    }
}

/// One of the 22 names that are built into Nix and need no `builtins.` before them.
#[derive(Clone, Copy, PartialEq, Eq, PartialOrd, Ord, Hash)]
pub struct Builtin(u8);

impl Builtin {
    /// How many there are.
    pub const COUNT: u32 = NAMES.len() as u32;

    /// The built-in name with this index, which is below [`Builtin::COUNT`].
    ///
    /// ```
    /// use lang_ast::Builtin;
    /// assert_eq!(Builtin::from_index(14).map(Builtin::name), Some("map"));
    /// assert_eq!(Builtin::from_index(22), None);
    /// ```
    pub fn from_index(index: u32) -> Option<Self> {
        u8::try_from(index).ok().filter(|&index| usize::from(index) < NAMES.len()).map(Builtin)
    }

    /// The built-in name that is written so.
    ///
    /// ```
    /// use lang_ast::Builtin;
    /// assert_eq!(Builtin::from_name(b"map").map(Builtin::index), Some(14));
    /// assert_eq!(Builtin::from_name(b"mop"), None);
    /// ```
    pub fn from_name(name: &[u8]) -> Option<Self> {
        Builtin::all().find(|builtin| builtin.name().as_bytes() == name)
    }

    /// All of them, by their index.
    pub fn all() -> impl Iterator<Item = Self> {
        (0..Builtin::COUNT).filter_map(Builtin::from_index)
    }

    /// Its index, from 0.
    pub const fn index(self) -> u32 {
        self.0 as u32
    }

    /// How it is written.
    pub fn name(self) -> &'static str {
        NAMES.get(usize::from(self.0)).copied().unwrap_or_default()
    }
}

impl fmt::Debug for Builtin {
    fn fmt(&self, f: &mut fmt::Formatter<'_>) -> fmt::Result {
        write!(f, "Builtin({} {:?})", self.0, self.name())
    }
}

impl fmt::Display for Builtin {
    fn fmt(&self, f: &mut fmt::Formatter<'_>) -> fmt::Result {
        f.write_str(self.name())
    }
}

#[cfg(test)]
mod tests {
    use super::*;

    #[test]
    fn names_and_indices_belong_together() {
        assert_eq!(Builtin::all().count(), 22);
        for (index, builtin) in (0..).zip(Builtin::all()) {
            assert_eq!(builtin.index(), index);
            assert_eq!(Builtin::from_name(builtin.name().as_bytes()), Some(builtin));
        }
    }
}
