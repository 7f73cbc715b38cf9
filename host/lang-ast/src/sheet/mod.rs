//! Sheets: the syntax tree of a source text as lines, which is what a load takes.

mod error;
mod kind;
mod writer;

pub use error::{Fault, SheetError};
pub use kind::Kind;
pub use writer::{NodeId, SheetWriter};
