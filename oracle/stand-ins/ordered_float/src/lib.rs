//! Stands in for ordered_float: a float with an equality that is an equivalence.
//!
//! As in the real one a NaN equals a NaN and 0.0 equals -0.0; a sheet has neither NaN nor -0.0. Order and arithmetic
//! are left out.

#[derive(Debug, Clone, Copy)]
pub struct OrderedFloat<T>(pub T);

impl PartialEq for OrderedFloat<f64> {
    fn eq(&self, other: &Self) -> bool {
        self.0 == other.0 || (self.0.is_nan() && other.0.is_nan())
    }
}

impl Eq for OrderedFloat<f64> {}
