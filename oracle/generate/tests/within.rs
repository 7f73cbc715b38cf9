//! Sheets as large as so many bytes allow are valid, fit, and are not much smaller than they may be.

use sheet::{Node, MAX_DEPTH};

const BYTES: usize = 65_536;

/// The bytes of a sheet, which is accepted.
fn written(nodes: &[Node], what: &str) -> usize {
    let bytes = sheet::write(nodes);
    assert!(judge::judge(&bytes).is_ok(), "{what} is refused");
    assert!(bytes.len() <= BYTES, "{what} has {} bytes", bytes.len());
    bytes.len()
}

/// The number of nodes from the root to the deepest.
fn depth(nodes: &[Node]) -> usize {
    let mut depths = vec![1; nodes.len()];
    for (own, node) in nodes.iter().enumerate() {
        node.kids.iter().flatten().for_each(|&kid| depths[kid as usize] = depths[own] + 1);
    }
    depths.into_iter().max().unwrap_or(0)
}

#[test]
fn random_ones_come_near_the_limit() {
    let sizes: Vec<usize> = (0..200).map(|seed| written(&generate::within(seed, BYTES), &format!("seed {seed}"))).collect();
    let near = sizes.iter().filter(|&&size| size > BYTES * 9 / 10).count();
    assert!(near > 100, "{near} of {} are near the limit", sizes.len());
}

#[test]
fn the_deepest_are_as_deep_as_they_say() {
    let sheets = generate::deepest(BYTES);
    assert_eq!(sheets.iter().filter(|(what, nodes)| what.starts_with("256 levels") && depth(nodes) == MAX_DEPTH).count(), 35);
    for (what, nodes) in &sheets {
        written(nodes, what);
    }
    // Sets that merge, and sets below paths: either the depth or the bytes are used up.
    for (what, nodes) in sheets.iter().filter(|(what, _)| !what.starts_with("256 levels")) {
        let (deep, bytes) = (depth(nodes), written(nodes, what));
        assert!(deep > 250 || bytes > BYTES - 3_000, "{what}: depth {deep}, {bytes} bytes");
    }
    assert_eq!(sheets.len(), 41);
}
