//! Stands in for lang_ty, the crate of types beside lang_ast: the primitive types that narrowing names, and
//! `with_stack`.
//!
//! Different on purpose: the real `with_stack` gives the call more stack when little is left. Here it just calls, and
//! whoever runs lang_ast on a deep tree gives the thread a big stack beforehand. It also counts its calls, so that a
//! prediction of how much a walk costs can be held against the walk.

#[derive(Debug, Clone, Copy, PartialEq, Eq, Hash)]
pub enum PrimitiveTy {
    Null,
    Bool,
    Int,
    Float,
    String,
    Path,
}

pub mod stack {
    use std::cell::Cell;

    thread_local! {
        static CALLS: Cell<u64> = const { Cell::new(0) };
    }

    pub fn with_stack<T>(f: impl FnOnce() -> T) -> T {
        CALLS.with(|calls| calls.set(calls.get().wrapping_add(1)));
        f()
    }

    /// How often `with_stack` was called on this thread since it was last asked.
    pub fn take_calls() -> u64 {
        CALLS.with(|calls| calls.replace(0))
    }
}
