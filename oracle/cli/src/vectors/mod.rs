//! A fixed list of sheets and calls with what is said of each, for a program that is tested without the oracle at hand.
//!
//! - `list`: what is in the list, in its order.
//! - `named`: examples, traps, lines of the request and limits; `points`: those of docs/DECISIONS.md; `calls`: calls
//!   with their refusals.
//! - `random`: random sheets and scripts, and damaged sheets for every cause of a refusal.
//! - `write`: the two files, with the outcomes by the Rust, which the second reading must share.

use book::Call;

mod calls;
mod list;
mod named;
mod points;
mod random;
mod write;

/// The most bytes of all vectors together: what the program that reads them can hold.
pub const MOST_BYTES: usize = 520_000;
/// The longest buffer and the longest text that the program can lend, and the longest reply.
pub const MOST_LENT: usize = 16_384;
pub const MOST_REPLY: usize = 32;

/// A sheet and the calls that follow its load.
#[derive(Debug, Clone, PartialEq, Eq)]
pub struct Vector {
    /// What it is for, in printable ASCII.
    pub title: String,
    pub sheet: Vec<u8>,
    pub calls: Vec<Call>,
}

impl Vector {
    fn of_sheet(title: impl Into<String>, sheet: Vec<u8>) -> Vector {
        Vector { title: title.into(), sheet, calls: Vec::new() }
    }

    /// The vector of a tree in the short notation.
    fn of_tree(title: impl Into<String>, notation: &str) -> Result<Vector, String> {
        let title = title.into();
        let nodes = sheet::short::parse(notation).map_err(|error| format!("{title}: {error}"))?;
        Ok(Vector::of_sheet(title, sheet::write(&nodes)))
    }

    fn with(self, calls: Vec<Call>) -> Vector {
        Vector { calls, ..self }
    }
}

/// What the program reads, and what it must print.
pub fn make() -> Result<(Vec<u8>, String), String> {
    let (input, output) = write::written(&list::all()?)?;
    if input.len() > MOST_BYTES {
        return Err(format!("the vectors take {} bytes, and {MOST_BYTES} are the most", input.len()));
    }
    Ok((input, output))
}
