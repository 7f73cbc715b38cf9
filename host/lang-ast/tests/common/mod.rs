//! What several tests use: stores of trees in the oracle's short notation.

#![allow(dead_code, reason = "each test uses a part of it")]

use lang_ast::Store;
use sheet::{short, Node};

/// The nodes of a tree in the short notation of the oracle: `21(11(28(18"x"),18"x"))` is `x: x`.
pub fn nodes(notation: &str) -> Vec<Node> {
    short::parse(notation).unwrap_or_else(|why| panic!("{notation}: {why}"))
}

pub fn sheet(notation: &str) -> Vec<u8> {
    sheet::write(&nodes(notation))
}

pub fn store(notation: &str) -> Store {
    Store::load(&sheet(notation)).unwrap_or_else(|refusal| panic!("{notation}: {refusal}"))
}

/// Runs on a thread with a large stack: the oracle's reading goes through deep sheets by recursion.
pub fn with_big_stack(run: impl FnOnce() + Send + 'static) {
    let thread = std::thread::Builder::new().stack_size(1 << 28).spawn(run).expect("a thread can be started");
    if let Err(panic) = thread.join() {
        std::panic::resume_unwind(panic);
    }
}
