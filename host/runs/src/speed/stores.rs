//! Nanoseconds for each byte that the check of a store goes through, as an asking that gets no further shows it, beside
//! a plain sum over the same bytes.

use crate::exported;
use crate::progress::{grouped, Progress};
use crate::store::damage::Damager;
use crate::store::model::Size;
use crate::store::runs::filled;
use crate::store::{sound, Lent};
use generate::Rng;
use std::hint::black_box;
use std::time::Instant;

const ROUNDS: usize = 7;
/// How many bytes a round goes through at least, so that the clock's grain does not show.
const ROUND_BYTES: usize = 16 << 20;

/// How many rows the table has.
pub const ROWS: usize = 3;

/// Prints a table of stores of three sizes.
pub fn run(progress: &Progress) -> Result<(), String> {
    progress.tell("| Store | Expressions | Bytes of rows | Ask | The host's check | Plain sum | Ask to sum | Ask, whole |");
    progress.tell("|---|---|---|---|---|---|---|---|");
    let mut rng = Rng::new(1);
    let small = Size { exprs: 40, items: 60, names: 12, scopes: 8, entered: 12, references: 20, ..Size::about(&mut rng, 20) };
    let middle = Size { exprs: 2_000, items: 3_000, names: 500, scopes: 300, entered: 500, references: 800, ..Size::about(&mut rng, 900) };
    for (name, size) in [("small", &small), ("middle", &middle), ("full: every table at its limit", &Size::full())] {
        progress.tell(&measure(name, size)?);
        progress.turn();
    }
    progress.tell("nanoseconds for each byte of rows in use whose table bounds something, and the whole in microseconds;");
    progress.tell(&format!("the least of {ROUNDS} rounds of at least {} MiB", ROUND_BYTES >> 20));
    Ok(())
}

/// The row of a store.
fn measure(name: &str, size: &Size) -> Result<String, String> {
    let mut lent = Lent::new();
    filled(lent.store(), size, &mut Rng::new(2), |_, _| ());
    let store = &*lent.store();
    if exported::condition(store) != 0 || sound::condition(store) != 0 {
        return Err(format!("the {name} store is not sound"));
    }
    let runs = Damager::new(store).runs();
    let bytes: usize = runs.iter().map(|run| run.len()).sum();
    let ask = least(bytes, || u64::from(exported::condition(black_box(store))));
    let page = least(bytes, || u64::from(sound::condition(black_box(store))));
    let sum = least(bytes, || runs.iter().map(|run| plain_sum(&black_box(store)[run.clone()])).sum());
    let whole = ask * bytes as f64 / 1e3;
    let whole = if whole < 10.0 { format!("{whole:.1}") } else { format!("{whole:.0}") };
    let (exprs, bytes) = (grouped(size.exprs as u64), grouped(bytes as u64));
    Ok(format!("| {name} | {exprs} | {bytes} | {ask:.3} | {page:.3} | {sum:.3} | {:.1} | {whole} µs |", ask / sum))
}

/// Nanoseconds for each byte in the quickest round.
fn least(bytes: usize, mut work: impl FnMut() -> u64) -> f64 {
    let turns = ROUND_BYTES.div_ceil(bytes);
    let mut best = f64::INFINITY;
    for _ in 0..ROUNDS {
        let start = Instant::now();
        for _ in 0..turns {
            black_box(work());
        }
        best = best.min(start.elapsed().as_secs_f64());
    }
    best * 1e9 / (turns * bytes) as f64
}

/// The sum of the bytes, in a function of its own, so that its machine code can be looked at.
#[inline(never)]
fn plain_sum(bytes: &[u8]) -> u64 {
    let mut sum = 0;
    for &byte in bytes {
        sum += u64::from(byte);
    }
    sum
}
