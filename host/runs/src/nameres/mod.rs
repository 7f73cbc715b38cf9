//! Names: what is resolved, and what the Rust's own `ModuleScopes::new` and `compute_name_resolution` say of it.
//!
//! - `points`, `sheets`: what is resolved beside the sheets of `lower`: small ones for the rules of scopes and answers,
//!   and large ones.
//! - `expected`: what the Rust says, as a store would hold it.
//! - `around`: what docs/STORE.md has as a rule and not as a table.

mod around;
pub mod expected;
mod points;
pub mod sheets;

use crate::lower::{self, Named};
pub use points::long_texts;

/// The points of lowering, and those of scopes and answers.
pub fn points() -> Result<Vec<Named>, String> {
    let mut all = lower::points::points()?;
    all.extend(points::points()?);
    Ok(all)
}
