//! The edges of the graph that was searched last on this thread.

use std::cell::RefCell;

thread_local! {
    static EDGES: RefCell<Vec<(usize, usize)>> = const { RefCell::new(Vec::new()) };
}

pub(crate) fn put_edges(edges: &[(usize, usize)]) {
    EDGES.with(|record| *record.borrow_mut() = edges.to_vec());
}

/// The edges that the last search on this thread was given, in the order of adding; the record is empty afterwards.
pub fn take_edges() -> Vec<(usize, usize)> {
    EDGES.with(RefCell::take)
}
