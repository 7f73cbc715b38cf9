//! Lowering: what is lowered, and the module that the Rust's own `lower` makes of it.
//!
//! - `sheets`, `points`: random sheets, sheets at the limits, and small ones for the points that need care.
//! - `expected`: the Rust's module as a store would hold it.

pub mod expected;
pub mod points;
pub mod sheets;

use sheet::Node;

/// A sheet that is longer than this is not printed; its name is enough to have it again.
const PRINTED: usize = 1 << 16;

/// A sheet and what it is called in a report.
#[derive(Clone)]
pub struct Named {
    pub name: String,
    pub nodes: Vec<Node>,
}

impl Named {
    /// What is wrong with it, and the sheet itself where it is short.
    pub fn difference(&self, what: &str) -> String {
        let written = sheet::write(&self.nodes);
        let shown = if written.len() <= PRINTED { String::from_utf8_lossy(&written) } else { "".into() };
        format!("{}: {what}\n{shown}", self.name)
    }
}

/// The checker accepts what is written of each.
#[cfg(test)]
pub fn assert_accepted(sheets: impl IntoIterator<Item = Named>) {
    for Named { name, nodes } in sheets {
        assert!(sheet::check::check(&sheet::write(&nodes)).is_ok_and(|read| read == nodes), "{name}");
    }
}
