//! How much stack a load takes: the stack of a thread is painted below the frame that calls, and afterwards one looks
//! how deep the paint is gone.

use crate::exported::{self, REPLY};
use crate::lower::{sheets, Named};
use crate::nameres::expected::Right;
use crate::progress::{grouped, Progress};
use crate::report::Report;
use crate::speed::rust;
use crate::store::Lent;
use canon::Reading;
use sheet::Node;
use std::thread;
use tix::{with_big_stack, Tix};

/// How much of a stack is painted, and what more a thread has for all that is not painted.
const PAINTED: usize = 64 << 20;
const REST: usize = 1 << 20;
/// The bytes next to the frame that paints, which may be its own.
const NEAR: usize = 4_096;
const PAINT: u64 = 0xc7a5_93e1_5b6d_8f37;

/// Prints the bytes of stack for the deepest sheets of every sort, and which takes the most.
pub fn run() -> Result<Report, String> {
    let all: Vec<Named> = sheets::deep().into_iter().chain(sheets::merged()).collect();
    let progress = Progress::new("stack, sheets", all.len() as u64);
    progress.tell("| Sheet | Nodes | Load | Rust |");
    progress.tell("|---|---|---|---|");
    let mut most = (0, String::new());
    for sheet in all {
        let load = of_load(&sheet.nodes).map_err(|why| format!("{}: {why}", sheet.name))?;
        let rust = used(|| drop(rust::loaded(rnix::Root::of_nodes(&sheet.nodes))))?;
        progress.tell(&format!("| {} | {} | {load} | {rust} |", sheet.name, sheet.nodes.len()));
        progress.turn();
        most = most.max((load, sheet.name));
    }
    progress.tell(&format!("bytes of stack below the caller's frame; the most: {} bytes, {}", most.0, most.1));
    progress.tell("the Rust: lowering, scopes and answers of a tree that is there");
    Ok(Report::measured(format!("{} bytes at most, {}", grouped(most.0 as u64), most.1)))
}

fn of_load(nodes: &[Node]) -> Result<usize, String> {
    let mut lent = Lent::new();
    let (store, sheet, mut reply) = (lent.store(), sheet::write(nodes), [0; REPLY]);
    let used = used(|| {
        exported::load(&sheet, store, &mut reply);
    })?;
    with_big_stack(|| Right::loaded(nodes, Tix::new(nodes).facts()).holds(store))?;
    Ok(used)
}

/// How many bytes of stack the work takes, on a thread of its own.
fn used(work: impl FnOnce() + Send) -> Result<usize, String> {
    let used = thread::scope(|scope| {
        let thread = thread::Builder::new().stack_size(PAINTED + REST).spawn_scoped(scope, || painted(work));
        thread.map_err(|why| why.to_string())?.join().map_err(|_| "the work panicked".to_string())
    })?;
    if used < PAINTED {
        Ok(used)
    } else {
        Err(format!("more than the {PAINTED} painted bytes of stack are used"))
    }
}

#[inline(never)]
fn painted(work: impl FnOnce()) -> usize {
    let mark = 0_u64;
    let here = std::hint::black_box(&raw const mark) as usize;
    let (low, high) = (here - PAINTED, here - NEAR);
    paint(low, high);
    work();
    here - gone(low, high)
}

/// Paints from `low` to `high`, eight bytes at a time. All of it lies in the thread's stack, below every frame.
#[inline(never)]
fn paint(low: usize, high: usize) {
    for at in (low..high).step_by(8) {
        unsafe { (at as *mut u64).write_volatile(PAINT) }
    }
}

/// The lowest place whose paint is gone; `high` where all of it stands.
#[inline(never)]
fn gone(low: usize, high: usize) -> usize {
    let stands = |at: usize| unsafe { (at as *const u64).read_volatile() } == PAINT;
    (low..high).step_by(8).find(|&at| !stands(at)).unwrap_or(high)
}

#[cfg(test)]
mod tests {
    use super::*;

    /// So many calls, each with an array of 1,000 bytes.
    #[inline(never)]
    fn deep(calls: usize) -> usize {
        let room = std::hint::black_box([1_u8; 1_000]);
        if calls == 0 {
            return 0;
        }
        deep(calls - 1) + usize::from(room[calls % 1_000])
    }

    #[test]
    fn use_is_seen() {
        let little = used(|| ()).unwrap();
        assert!(little <= 2 * NEAR, "{little}");
        let much = used(|| assert_eq!(deep(1_000), 1_000)).unwrap();
        assert!((1_000_000..8_000_000).contains(&much), "{much}");
    }
}
