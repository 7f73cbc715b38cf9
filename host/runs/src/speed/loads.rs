//! Microseconds for a whole load from a sheet's bytes, by the compiled code and by the Rust, which reads the bytes with
//! the oracle's checker. Dropping what the Rust made is outside the clock.

use super::{cells, median, micros, rust, time, Pair, Row, FAMILIES, ROUNDS, SHEETS};
use crate::exported::{self, REPLY};
use crate::lower::{sheets, Named};
use crate::nameres;
use crate::nameres::expected::Right;
use crate::progress::{grouped, Progress};
use crate::realistic::SIZES;
use crate::store::Lent;
use canon::Reading;
use generate::Preset;
use sheet::Node;
use std::hint::black_box;
use tix::Tix;

/// The rows of the large shapes: how many of them, in the order of `shapes`, share a row.
const SHAPES: [(usize, &str); 12] = [
    (4, "1,300 keys, sorted; reversed; random; all equal"),
    (4, "4,093 inherited keys, likewise"),
    (4, "paths of 16: static; dynamic without keys; dynamic; in turn"),
    (2, "1,696 sets in one merging state; some 1,700, various keys"),
    (2, "250 nested lets, uses of all of them inside; of none"),
    (1, "a pattern of 1,300 fields, each with another as its default"),
    (1, "a rec set of 1,020 keys, each with another as its value"),
    (1, "a rec set of 4,093 inherited names, their uses outside"),
    (1, "a let of 3,992 inherited names, 100 uses of them"),
    (2, "a let of 2,046 inherited names, 2,046 uses of them; of none of them"),
    (1, "a parameter with 4,091 uses"),
    (1, "253 nested Withs, 3,588 uses inside"),
];

/// How many rows the table has.
pub fn rows() -> usize {
    FAMILIES.len() * SIZES.len() + SHAPES.len()
}

/// Prints a table of sheets of three sizes with the growth between them, and of the large shapes; the ratios at the
/// largest size.
pub fn run(progress: &Progress) -> Result<String, String> {
    progress.tell("| Sheets | Nodes | Bytes | Load | Rust | Load to Rust |");
    progress.tell("|---|---|---|---|---|---|");
    let (mut growth, mut ratios) = (Vec::new(), Vec::new());
    for (name, family) in FAMILIES {
        let of = |nodes: usize| many(progress, &format!("{SHEETS} {name}"), family(nodes));
        let all = SIZES.map(of).into_iter().collect::<Result<Vec<Pair>, _>>()?;
        let (small, large) = (&all[0], &all[SIZES.len() - 1]);
        growth.push(format!("{name}: load {:.1}, Rust {:.1}", large.compiled / small.compiled, large.rust / small.rust));
        ratios.push(format!("{name} {:.2}", large.compiled / large.rust));
    }
    for row in shapes()? {
        shared(progress, &row)?;
    }
    progress.tell(&format!("growth from 512 to 4,096 nodes, as a ratio of medians: {}", growth.join("; ")));
    Ok(ratios.join("; "))
}

/// The large shapes: large sets, merged sets, the deepest paths, and scopes in which finding a name takes long.
pub fn shapes() -> Result<Vec<Row>, String> {
    let sets = sheets::large_sets();
    // In `large_sets` the two sorts of sets take turns.
    let sort = |from: usize| sets.iter().skip(from).step_by(2).cloned();
    let mut all: Vec<Named> = sort(0).chain(sort(1)).collect();
    all.extend(sheets::merged());
    // The seed 0 is the one with the most sets, under five different keys.
    all.push(Named { name: "some 1,700 merged sets, various keys".to_string(), nodes: Preset::Merging.sheet(0) });
    all.extend(nameres::sheets::large());
    super::rows(all, &SHAPES)
}

/// The times for one sheet, and what it has.
struct Measured {
    nodes: usize,
    bytes: usize,
    times: Pair,
}

/// Prints a row of many sheets; the medians of both sides.
fn many(progress: &Progress, name: &str, sheets: Vec<Vec<Node>>) -> Result<Pair, String> {
    let mut lent = Lent::new();
    let all = sheets.iter().map(|nodes| measure(lent.store(), nodes)).collect::<Result<Vec<_>, _>>()?;
    let middle = |part: fn(&Measured) -> usize| grouped(median(all.iter().map(|one| part(one) as f64).collect()) as u64);
    let (nodes, bytes) = (middle(|one| one.nodes), middle(|one| one.bytes));
    let pairs: Vec<&Pair> = all.iter().map(|one| &one.times).collect();
    let times = Pair { compiled: Pair::compiled(&pairs), rust: Pair::rust(&pairs) };
    let ratio = Pair::ratio(&pairs);
    progress.tell(&format!("| {name} | {nodes} | {bytes} | {} | {} | {ratio} |", micros(times.compiled), micros(times.rust)));
    progress.turn();
    Ok(times)
}

/// Prints a row that some sheets share.
fn shared(progress: &Progress, row: &Row) -> Result<(), String> {
    let mut lent = Lent::new();
    let all = row.sheets.iter().map(|sheet| measure(lent.store(), &sheet.nodes)).collect::<Result<Vec<_>, _>>()?;
    let column = |cell: fn(&Measured) -> String| cells(all.iter().map(cell).collect());
    let (nodes, bytes) = (column(|one| grouped(one.nodes as u64)), column(|one| grouped(one.bytes as u64)));
    let (load, rust) = (column(|one| micros(one.times.compiled)), column(|one| micros(one.times.rust)));
    let ratios = column(|one| Pair::ratio(&[&one.times]));
    progress.tell(&format!("| {} | {nodes} | {bytes} | {load} | {rust} | {ratios} |", row.name));
    progress.turn();
    Ok(())
}

/// Round by round both sides in turn, so that other work on the machine meets both.
fn measure(store: &mut [u8], nodes: &[Node]) -> Result<Measured, String> {
    let (bytes, mut reply) = (sheet::write(nodes), [0; REPLY]);
    let (mut compiled, mut rust) = (Vec::new(), Vec::new());
    for _ in 0..ROUNDS {
        compiled.push(time(|| exported::load(black_box(&bytes), black_box(store), &mut reply)));
        rust.push(time(|| rust::from_bytes(black_box(&bytes))));
    }
    let right = Right::loaded(nodes, Tix::new(nodes).facts());
    right.holds(store)?;
    let times = Pair { compiled: median(compiled), rust: median(rust) };
    Ok(Measured { nodes: nodes.len(), bytes: bytes.len(), times })
}
