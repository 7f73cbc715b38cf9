//! The refusals 1 to 7 and 31 to 33 of docs/RULES.md, said as rules: every violation of a sheet is collected, each with
//! its place in the order of checks, and the least one is the answer. Nothing here stops at the first fault; only the
//! order says which fault decides.
//!
//! - `grammar`: what each kind's flag, text and kids may be.
//! - `lines`: the rules of single lines, refusals 2, 3 and 31 to 33.
//! - `tree`: the rules of the walk and of what it does not meet, refusals 4 to 7.
//! - `cause`: a name for each way to be refused, with its number, so that tests can count which ones were reached.

mod cause;
pub mod grammar;
mod lines;
mod tree;

pub use cause::{Cause, FlagFamily, Line, TextFault};
use sheet::{Node, Refusal};

/// Why a sheet is refused.
#[derive(Debug, Clone, Copy, PartialEq, Eq, Hash)]
pub struct Judgement {
    pub refusal: Refusal,
    pub cause: Cause,
}

/// Where a violation stands in the order of checks; the least decides. Lines are ordered by number and then 2 before a
/// wrong value; steps of the walk by their number and then 5 and 6 of the kid before 4 of what is met there.
#[derive(Debug, Clone, Copy, PartialEq, Eq, PartialOrd, Ord)]
pub enum Order {
    Length,
    Line { line: usize, check: u8 },
    Step { step: usize, check: u8 },
    Unmet { node: usize },
}

/// One broken rule.
#[derive(Debug, Clone, Copy, PartialEq, Eq)]
pub struct Violation {
    pub order: Order,
    pub judgement: Judgement,
}

impl Violation {
    fn new(order: Order, place: usize, cause: Cause) -> Self {
        // A place is at most a sheet's length, and no sheet that is looked into is longer than a megabyte.
        let place = u32::try_from(place).unwrap_or(u32::MAX);
        Violation { order, judgement: Judgement { refusal: Refusal { number: cause.number(), place }, cause } }
    }
}

/// The sheet's nodes, or the refusal that docs/RULES.md gives for it.
pub fn judge(bytes: &[u8]) -> Result<Vec<Node>, Judgement> {
    let (nodes, violations) = examine(bytes);
    match violations.iter().min_by_key(|violation| violation.order) {
        Some(least) => Err(least.judgement),
        None => Ok(nodes),
    }
}

/// Every violation of a sheet, in no order. Where lines are at fault there are no nodes to speak of, so the tree's
/// rules say nothing; where `nodes=` is at fault nobody knows which lines there should be, so its violation stands
/// alone.
pub fn violations(bytes: &[u8]) -> Vec<Violation> {
    examine(bytes).1
}

fn examine(bytes: &[u8]) -> (Vec<Node>, Vec<Violation>) {
    if bytes.len() > sheet::MAX_BYTES {
        return (Vec::new(), vec![Violation::new(Order::Length, 0, Cause::TooLong)]);
    }
    match lines::nodes(bytes) {
        Ok(nodes) => {
            let violations = tree::violations(&nodes);
            (nodes, violations)
        }
        Err(violations) => (Vec::new(), violations),
    }
}
