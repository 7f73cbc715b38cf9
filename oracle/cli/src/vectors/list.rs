//! What is in the list.

use super::{calls, named, points, random, Vector};

/// All vectors, in their order: what is told in words first, then what chance gives.
pub fn all() -> Result<Vec<Vector>, String> {
    let groups = [
        named::examples()?,
        named::trees()?,
        named::scripts()?,
        named::limits()?,
        points::trees()?,
        points::sheets()?,
        points::scripts()?,
        calls::refused()?,
        calls::moved()?,
        calls::room()?,
        random::valid(),
        random::damaged()?,
    ];
    Ok(groups.concat())
}
