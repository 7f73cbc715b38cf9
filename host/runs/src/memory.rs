//! Bytes: what of the store is in use after a load, table by table, beside what the Rust has allocated for the same
//! sheet, and the most that it had on the way. The allocator of this program counts while it is asked to; what malloc
//! adds to a block is not counted.

use crate::exported;
use crate::lower::sheets;
use crate::progress::{grouped, Progress};
use crate::realistic::{self, SIZES};
use crate::report::Report;
use crate::speed::rust;
use crate::store::layout::{self, get, header, Table};
use crate::store::sites::elements;
use crate::store::Lent;
use sheet::Node;
use std::alloc::{GlobalAlloc, Layout, System};
use std::cell::Cell;
use tix::with_big_stack;

/// The system's allocator, which counts the bytes that are asked for while it is told to.
struct Counting;

#[global_allocator]
static ALLOCATOR: Counting = Counting;

thread_local! {
    /// Of this thread alone: whether it counts, the bytes and the blocks that it has more than at the start, and the
    /// most bytes. They are there from the start and are never dropped, or else the allocator could not use them.
    static COUNTS: Cell<bool> = const { Cell::new(false) };
    static NOW: Cell<Allocated> = const { Cell::new(Allocated { live: 0, peak: 0, blocks: 0 }) };
}

impl Counting {
    /// Outside of a count this is one look at a flag, so that the times of `speed` stay what they are.
    fn count(bytes: i64, blocks: i64) {
        if COUNTS.get() {
            let Allocated { live, peak, blocks: before } = NOW.get();
            NOW.set(Allocated { live: live + bytes, peak: peak.max(live + bytes), blocks: before + blocks });
        }
    }
}

unsafe impl GlobalAlloc for Counting {
    unsafe fn alloc(&self, layout: Layout) -> *mut u8 {
        Counting::count(layout.size() as i64, 1);
        unsafe { System.alloc(layout) }
    }

    unsafe fn alloc_zeroed(&self, layout: Layout) -> *mut u8 {
        Counting::count(layout.size() as i64, 1);
        unsafe { System.alloc_zeroed(layout) }
    }

    unsafe fn dealloc(&self, at: *mut u8, layout: Layout) {
        Counting::count(-(layout.size() as i64), -1);
        unsafe { System.dealloc(at, layout) }
    }

    unsafe fn realloc(&self, at: *mut u8, layout: Layout, size: usize) -> *mut u8 {
        // Both blocks are there while one is copied into the other.
        Counting::count(size as i64, 0);
        let moved = unsafe { System.realloc(at, layout, size) };
        Counting::count(-(layout.size() as i64), 0);
        moved
    }
}

/// What some work allocated.
#[derive(Debug, Clone, Copy, PartialEq, Eq)]
struct Allocated {
    /// Bytes of what it gives.
    live: i64,
    /// The most bytes at one time.
    peak: i64,
    /// Blocks of what it gives.
    blocks: i64,
}

/// What the work allocates on this thread.
fn allocated<T>(work: impl FnOnce() -> T) -> Allocated {
    NOW.set(Allocated { live: 0, peak: 0, blocks: 0 });
    COUNTS.set(true);
    let made = std::hint::black_box(work());
    COUNTS.set(false);
    drop(made);
    NOW.get()
}

/// The bytes of one sheet.
struct Bytes {
    name: String,
    sheet: usize,
    /// By the table of the store.
    tables: Vec<(&'static str, usize)>,
    rust: Allocated,
}

/// Prints a table: the parts of the store and the Rust's bytes by rows, the sheets by columns.
pub fn run() -> Result<Report, String> {
    let progress = Progress::new("memory, sheets", 2 * SIZES.len() as u64);
    let all = with_big_stack(|| {
        let random = SIZES.map(|nodes| ("random", sheets::exactly(0, nodes, false)));
        let like = SIZES.map(|nodes| (realistic::NAME, realistic::sheet(0, nodes)));
        let bytes = random.into_iter().chain(like).map(|(name, nodes)| {
            progress.turn();
            Bytes::of(name, &nodes)
        });
        bytes.collect::<Result<Vec<Bytes>, String>>()
    })?;
    drop(progress);
    print(&all);
    let last = &all[all.len() - 1];
    let (used, live, peak) = (last.in_use() as u64, last.rust.live as u64, last.rust.peak as u64);
    let (used, live, peak) = (grouped(used), grouped(live), grouped(peak));
    Ok(Report::measured(format!("{}: {used} bytes of the store in use; the Rust {live} after a load, {peak} at most", last.name)))
}

impl Bytes {
    fn of(name: &str, nodes: &[Node]) -> Result<Self, String> {
        let (mut lent, bytes) = (Lent::new(), sheet::write(nodes));
        exported::loaded(&bytes, lent.store())?;
        let tables = in_use(lent.store());
        let rust = allocated(|| rust::from_bytes(&bytes));
        Ok(Bytes { name: format!("{name}, {} nodes", grouped(nodes.len() as u64)), sheet: bytes.len(), tables, rust })
    }

    fn in_use(&self) -> usize {
        self.tables.iter().map(|(_, bytes)| bytes).sum()
    }
}

/// The bytes in use of each table of a sound store, by docs/STORE.md. The work room is in use during a call only.
fn in_use(store: &[u8]) -> Vec<(&'static str, usize)> {
    let count = |at| get(store, at) as usize;
    let (exprs, names, scopes) = (count(header::EXPRS), count(header::NAMES), count(header::SCOPES));
    let rows = |table: Table, rows: usize| rows * table.row;
    // Of the row after the last one the first word is in use, where the rows have lists.
    let lists = |table: Table, rows: usize| rows * table.row + 4;
    vec![
        ("header", header::END),
        ("expressions", lists(layout::EXPRS, exprs)),
        ("pointers of expressions", rows(layout::EXPR_POINTERS, exprs)),
        ("items", rows(layout::ITEMS, elements(store, layout::EXPRS, exprs))),
        ("names", rows(layout::NAMES, names)),
        ("pointers of names", rows(layout::NAME_POINTERS, names)),
        ("diagnostics", rows(layout::DIAGNOSTICS, count(header::DIAGNOSTICS))),
        ("lost list", rows(layout::LOST, count(header::LOST))),
        ("uses", rows(layout::USES, exprs)),
        ("scopes", lists(layout::SCOPES, scopes)),
        ("names in the order of entering", rows(layout::ENTERED, elements(store, layout::SCOPES, scopes))),
        ("reference lists", lists(layout::REFERENCES, names)),
        ("kept references", rows(layout::KEPT, elements(store, layout::REFERENCES, names))),
        ("texts", count(header::TEXTS)),
    ]
}

fn print(all: &[Bytes]) {
    let row = |name: &str, cell: &dyn Fn(&Bytes) -> String| {
        println!("| {name} | {} |", all.iter().map(cell).collect::<Vec<_>>().join(" | "));
    };
    row("Bytes", &|one| one.name.clone());
    println!("|---|{}", "---|".repeat(all.len()));
    row("the sheet", &|one| grouped(one.sheet as u64));
    for (table, (name, _)) in all[0].tables.iter().enumerate() {
        row(name, &|one| grouped(one.tables[table].1 as u64));
    }
    row("all of the store in use", &|one| grouped(one.in_use() as u64));
    row("the Rust, after a load", &|one| grouped(one.rust.live as u64));
    row("the Rust, the most during a load", &|one| grouped(one.rust.peak as u64));
    row("blocks of the Rust, after a load", &|one| grouped(one.rust.blocks as u64));
    row("store in use to the Rust after a load", &|one| format!("{:.2}", one.in_use() as f64 / one.rust.live as f64));
    println!(
        "the store is {} bytes whatever the sheet, of which a load and a call touch what is in use and the work room;",
        grouped(layout::BYTES as u64)
    );
    println!(
        "the Rust: bytes asked of the allocator, over the oracle's stand-ins; after a load its module, source map, scopes and answers,"
    );
    println!("the most: with the sheet's nodes and the tree");
}

#[cfg(test)]
mod tests {
    use super::*;

    #[test]
    fn what_is_allocated_is_counted() {
        let counted = allocated(|| {
            drop(vec![1_u8; 1 << 24]);
            let mut kept = vec![1_u8; 1_000];
            kept.reserve_exact(1_000);
            (kept, Box::new(0_u64))
        });
        assert_eq!(counted, Allocated { live: 2_008, peak: 1 << 24, blocks: 2 });
    }

    #[test]
    fn the_tables_in_use_are_in_the_store() {
        let nodes = realistic::sheet(0, 512);
        let bytes = with_big_stack(|| Bytes::of("test", &nodes)).unwrap();
        let texts: usize = nodes.iter().map(|node| 4 + node.text.len()).sum();
        assert_eq!(bytes.tables[13], ("texts", texts));
        assert!(bytes.in_use() > texts + header::END && bytes.in_use() < layout::BYTES);
    }
}
