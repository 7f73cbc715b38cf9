//! Stands in for smol_str: a text that is cheap to clone and is compared as `str` is.
//!
//! Different on purpose: every text is shared, while the real one keeps short texts inside itself. Nothing that
//! lang_ast does shows it.

use std::{fmt, ops::Deref, sync::Arc};

#[derive(Clone, PartialEq, Eq, PartialOrd, Ord, Hash)]
pub struct SmolStr(Arc<str>);

impl SmolStr {
    pub fn as_str(&self) -> &str {
        &self.0
    }
}

impl Default for SmolStr {
    fn default() -> Self {
        SmolStr::from("")
    }
}

impl Deref for SmolStr {
    type Target = str;
    fn deref(&self) -> &str {
        self.as_str()
    }
}

impl From<&str> for SmolStr {
    fn from(text: &str) -> Self {
        SmolStr(text.into())
    }
}

impl From<String> for SmolStr {
    fn from(text: String) -> Self {
        SmolStr(text.into())
    }
}

impl PartialEq<str> for SmolStr {
    fn eq(&self, other: &str) -> bool {
        self.as_str() == other
    }
}

impl PartialEq<SmolStr> for str {
    fn eq(&self, other: &SmolStr) -> bool {
        self == other.as_str()
    }
}

impl fmt::Debug for SmolStr {
    fn fmt(&self, f: &mut fmt::Formatter<'_>) -> fmt::Result {
        fmt::Debug::fmt(self.as_str(), f)
    }
}
