//! Work that is split over threads by ranges of turns. The ranges do not depend on the number of threads, and what is
//! made of them comes in their order, so that a run tells the same for the same seed on any machine.

use std::collections::BTreeMap;
use std::ops::Range;
use std::sync::atomic::{AtomicBool, AtomicU64, Ordering};
use std::sync::Mutex;
use std::thread;
use tix::with_big_stack;

/// At most so many threads: the tables of docs/PERFORMANCE.md come from machines with so many cores.
const MOST: usize = 2;

/// On how many threads a run is split.
pub fn threads() -> usize {
    thread::available_parallelism().map_or(1, |cores| cores.get().min(MOST))
}

/// What the work makes of every `each` of the turns, in their order. Each thread has a state of its own, on which what
/// is made must not depend: it is there so that memory is used again. All stacks are big enough for the Rust.
pub fn split<S, T: Send>(
    threads: usize,
    turns: u64,
    each: u64,
    state: impl Fn() -> S + Sync,
    work: impl Fn(&mut S, Range<u64>) -> T + Sync,
) -> Vec<T> {
    let (next, broken) = (AtomicU64::new(0), AtomicBool::new(false));
    let parts = Mutex::new(BTreeMap::new());
    let worker = || {
        let _breaks = Breaks(&broken);
        let mut state = state();
        loop {
            let from = next.fetch_add(each, Ordering::Relaxed);
            if from >= turns || broken.load(Ordering::Relaxed) {
                return;
            }
            let part = work(&mut state, from..turns.min(from + each));
            // A thread that panicked while it held the lock ends the run anyway.
            parts.lock().unwrap_or_else(|broken| broken.into_inner()).insert(from, part);
        }
    };
    thread::scope(|scope| {
        for _ in 0..threads.max(1) {
            scope.spawn(|| with_big_stack(worker));
        }
    });
    parts.into_inner().unwrap_or_else(|broken| broken.into_inner()).into_values().collect()
}

/// Tells the other threads when one panics: the run is over then, and they need not go through the rest of it.
struct Breaks<'a>(&'a AtomicBool);

impl Drop for Breaks<'_> {
    fn drop(&mut self) {
        if thread::panicking() {
            self.0.store(true, Ordering::Relaxed);
        }
    }
}

#[cfg(test)]
mod tests {
    use super::*;

    #[test]
    fn parts_are_the_same_on_any_number_of_threads() {
        let parts = |threads, turns, each| split(threads, turns, each, || (), |(), turns| turns);
        assert_eq!(parts(1, 10, 4), [0..4, 4..8, 8..10]);
        assert_eq!(parts(3, 0, 4), []);
        for threads in [1, 2, 5] {
            assert_eq!(parts(threads, 1_000, 7), parts(1, 1_000, 7));
        }
    }

    #[test]
    fn a_panic_ends_the_run() {
        let done = AtomicU64::new(0);
        let run = || {
            split(
                2,
                1_000_000,
                1,
                || (),
                |(), turns| {
                    assert_ne!(turns.start, 10, "as it should");
                    std::thread::sleep(std::time::Duration::from_millis(1));
                    done.fetch_add(1, Ordering::Relaxed)
                },
            )
        };
        assert!(std::panic::catch_unwind(std::panic::AssertUnwindSafe(run)).is_err());
        assert!(done.load(Ordering::Relaxed) < 10_000);
    }
}
