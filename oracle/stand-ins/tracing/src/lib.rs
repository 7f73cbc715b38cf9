//! Stands in for tracing: `#[instrument]`, and spans that nobody listens to.
//!
//! Different on purpose: nothing is recorded and a span's fields are not worked out, as with the real one when nobody
//! listens.

pub use tracing_attributes::instrument;

/// A span that is never recorded.
#[derive(Debug, Clone, Copy)]
pub struct Span;

/// What holds a span open.
#[derive(Debug)]
pub struct EnteredSpan;

impl Span {
    pub fn entered(self) -> EnteredSpan {
        EnteredSpan
    }
}

#[macro_export]
macro_rules! info_span {
    ($($name_and_fields:tt)*) => {
        $crate::Span
    };
}
