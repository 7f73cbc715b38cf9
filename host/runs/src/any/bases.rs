//! The stores that calls are made on, before they are damaged: loaded ones, changed ones, sound ones that no load
//! makes, and any bytes.

use crate::calls::changes::{can_change, Changes, Target};
use crate::exported::{self, REPLY};
use crate::nameres;
use crate::store::layout::{BYTES, EXPRS};
use crate::store::model::Size;
use crate::store::runs::{empty_header, filled, small_header};
use crate::store::soil;
use canon::Reading;
use generate::{Preset, Rng};
use sheet::Node;
use tix::Tix;

/// What is in a store, and how many calls are made on it.
pub struct Base {
    pub kind: &'static str,
    pub calls: u64,
}

/// What the store of a seed is.
pub fn base(seed: u64) -> Base {
    let (kind, calls) = match seed % 16 {
        0 | 1 => ("loaded, small", 1_500),
        2 => ("loaded, all about keys", 1_500),
        3 => ("loaded, middling", 1_500),
        4 => ("loaded, Withs", 800),
        5 => ("loaded, large", 500),
        6 => ("loaded, a large scope", 300),
        7 | 8 => ("loaded and changed", 1_500),
        9 | 10 => ("built, small", 1_500),
        11 => ("built, middling", 800),
        12 => ("built, tables at their limits", 100),
        13 => ("any bytes under small counts", 1_500),
        14 => ("any bytes under an empty header", 800),
        _ => ("any bytes", 800),
    };
    Base { kind, calls }
}

/// Fills a store of at least the shortest length.
pub fn fill(store: &mut [u8], seed: u64) {
    let rng = &mut Rng::new(seed);
    soil(&mut store[..BYTES], rng);
    match seed % 16 {
        0 | 1 => load(store, &Preset::Small.sheet(seed)),
        2 => load(store, &Preset::Keys.sheet(seed)),
        3 => load(store, &Preset::Medium.sheet(seed)),
        4 => load(store, &Preset::Withs.sheet(seed)),
        5 => load(store, &Preset::Large.sheet(seed)),
        6 => load(store, &rng.pick(&nameres::sheets::large()).nodes),
        7 | 8 => changed(store, seed),
        9 | 10 => built(store, &Size::about(rng, 60), rng),
        11 => built(store, &Size::about(rng, 1_500), rng),
        12 => built(store, &Size::of_seed(rng, seed % 3), rng),
        13 => small_header(store, rng),
        14 => empty_header(store),
        _ => {}
    }
}

fn load(store: &mut [u8], nodes: &[Node]) {
    exported::load(&sheet::write(nodes), store, &mut [0; REPLY]);
}

/// A small loaded store after so many changes that the room is nearly spent.
fn changed(store: &mut [u8], seed: u64) {
    let nodes = Preset::Small.sheet(seed);
    load(store, &nodes);
    let facts = Tix::new(&nodes).facts();
    let (mut changes, mut moved) = (Changes::new(seed, true), vec![0; 4 * EXPRS.limit]);
    for _ in 0..if can_change(&facts) { 40 } else { 0 } {
        let change = changes.alone(&facts);
        match change.target {
            Target::Name(name) => exported::change_name(store, name, &change.text, &mut moved, &mut [0; REPLY]),
            Target::Reference(e) => exported::change_reference(store, e, &change.text, &mut moved, &mut [0; REPLY]),
        };
    }
}

fn built(store: &mut [u8], size: &Size, rng: &mut Rng) {
    filled(store, size, rng, |_, _| ());
}
