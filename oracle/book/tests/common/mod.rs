//! What the tests share: books of trees in short notation, and a large stack.
#![allow(dead_code)]

use book::Book;
use reading::Plain;

/// Runs on a thread with a large stack, as every caller of the reading should.
pub fn on_large_stack<T: Send + 'static>(work: impl FnOnce() -> T + Send + 'static) -> T {
    let thread = std::thread::Builder::new().stack_size(512 << 20).spawn(work).expect("a thread");
    thread.join().expect("the work ends well")
}

pub fn book(notation: &str) -> Book<Plain> {
    Book::new(Plain::new(&sheet::short::parse(notation).expect("a tree in short notation")))
}

/// The lines of a script's outcomes. What each call moved must be what it may move, and what it told.
pub fn run(book: &mut Book<Plain>, script: &str) -> Vec<String> {
    let calls = book::script::parse(script).expect("a script");
    let line = |call| {
        let before = book.facts();
        let outcome = book.call(call);
        book::locality::check(&before, call, &outcome).expect("a call moves what it may and tells it");
        outcome.to_string()
    };
    calls.iter().map(line).collect()
}
