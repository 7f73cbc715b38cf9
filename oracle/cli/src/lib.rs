//! What the oracle's command line and its tests share.

pub mod against;
pub mod examples;
pub mod refsheet;
pub mod refusals;
pub mod sheets;
pub mod vectors;
