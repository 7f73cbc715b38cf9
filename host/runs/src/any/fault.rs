//! What is printed when a call touches what it was not lent, or does not end: which call it was. The process ends with
//! it.

use std::cell::Cell;
use std::ffi::{c_int, c_void};
use std::sync::atomic::{AtomicU64, AtomicUsize, Ordering::Relaxed};
use std::sync::OnceLock;
use std::time::Instant;

extern "C" {
    fn signal(number: c_int, handler: extern "C" fn(c_int)) -> *mut c_void;
    fn alarm(seconds: u32) -> u32;
    fn write(file: c_int, bytes: *const u8, length: usize) -> isize;
    fn _exit(code: c_int) -> !;
}

const SIGBUS: c_int = 7;
const SIGSEGV: c_int = 11;
const SIGALRM: c_int = 14;

/// A family of calls on one store takes less than this; a call that takes longer is taken for one without end.
const SECONDS: u32 = 300;

/// What the calls of a thread are about.
struct Slot {
    base: AtomicU64,
    call: AtomicU64,
    /// One more than the second in which the calls on that store began; 0 between stores.
    begun: AtomicU64,
}

/// Threads beyond so many share the slots, and then a message may name another thread's call.
const SLOTS: usize = 16;
static SLOT: [Slot; SLOTS] = [const { Slot { base: AtomicU64::new(0), call: AtomicU64::new(0), begun: AtomicU64::new(0) } }; SLOTS];
static THREADS: AtomicUsize = AtomicUsize::new(0);

thread_local! {
    /// The thread's slot. It is there from the start, so that the handler of a fault can read it.
    static OWN: Cell<usize> = const { Cell::new(usize::MAX) };
}

/// From now on a fault is printed.
pub fn watch() {
    for number in [SIGBUS, SIGSEGV, SIGALRM] {
        unsafe { signal(number, ended) };
    }
}

fn own() -> &'static Slot {
    if OWN.get() == usize::MAX {
        OWN.set(THREADS.fetch_add(1, Relaxed) % SLOTS);
    }
    &SLOT[OWN.get()]
}

/// Seconds since the first call of this.
fn seconds() -> u64 {
    static START: OnceLock<Instant> = OnceLock::new();
    START.get_or_init(Instant::now).elapsed().as_secs()
}

/// The calls on the store of a seed begin, and are to end in time.
pub fn begin(seed: u64) {
    let (slot, now) = (own(), seconds());
    slot.base.store(seed, Relaxed);
    slot.call.store(0, Relaxed);
    slot.begun.store(now + 1, Relaxed);
    // The alarm of a thread that does not come to an end is put off by the others, so they look whether it is late.
    if let Some(slot) = SLOT.iter().find(|slot| late(slot.begun.load(Relaxed), now)) {
        end_with(UNENDED, slot);
    }
    unsafe { alarm(SECONDS) };
}

/// Whether calls that begun so, if there are any, are not at their end in this second although they should be.
fn late(begun: u64, now: u64) -> bool {
    begun != 0 && begun + u64::from(SECONDS) < now + 1
}

/// The calls on a store are made.
pub fn rest() {
    own().begun.store(0, Relaxed);
}

/// All calls are made.
pub fn end() {
    unsafe { alarm(0) };
}

/// The next call on that store.
pub fn call(number: u64) {
    own().call.store(number, Relaxed);
}

const UNENDED: &[u8] = b"A CALL DID NOT END";

extern "C" fn ended(number: c_int) {
    if number == SIGALRM {
        // Any thread may be stopped by the alarm. It comes when none has begun a store for so long, so every one that
        // is at a store is late.
        let at_work = SLOT.iter().find(|slot| slot.begun.load(Relaxed) != 0);
        end_with(UNENDED, at_work.unwrap_or(&SLOT[0]));
    }
    end_with(b"A CALL TOUCHED WHAT IT WAS NOT LENT", &SLOT[OWN.get() % SLOTS]);
}

fn end_with(what: &[u8], slot: &Slot) -> ! {
    print(what);
    print(b": store of seed ");
    print_number(slot.base.load(Relaxed));
    print(b", call ");
    print_number(slot.call.load(Relaxed));
    print(b"\n");
    unsafe { _exit(1) }
}

/// Writes without any lock or memory, since the process may have been stopped anywhere.
fn print(bytes: &[u8]) {
    unsafe { write(1, bytes.as_ptr(), bytes.len()) };
}

fn print_number(number: u64) {
    if number >= 10 {
        print_number(number / 10);
    }
    print(&[b'0' + (number % 10) as u8]);
}

#[cfg(test)]
mod tests {
    use super::*;
    use crate::any::guard::{Access, Guarded, Side};
    use std::process::Command;

    #[test]
    fn late_after_the_time_that_is_given() {
        let given = u64::from(SECONDS);
        assert!(!late(0, 1_000_000) && !late(1, 0) && !late(1, given) && late(1, given + 1) && !late(8, given + 7));
    }

    /// What the test below has run in a process of its own, since it ends it.
    #[test]
    #[ignore = "it ends the process"]
    fn touches_what_is_not_lent() {
        watch();
        begin(41);
        call(7);
        let guarded = Guarded::new(10).unwrap();
        let lent = guarded.lent(10, Side::Begin, Access::Read);
        std::hint::black_box(unsafe { lent.as_ptr().sub(1).read_volatile() });
    }

    #[test]
    fn a_touch_is_told_with_its_call() {
        let this = "any::fault::tests::touches_what_is_not_lent";
        let run = Command::new(std::env::current_exe().unwrap()).args(["--ignored", "--exact", "--nocapture", this]).output().unwrap();
        let told = String::from_utf8_lossy(&run.stdout);
        assert!(told.contains("A CALL TOUCHED WHAT IT WAS NOT LENT: store of seed 41, call 7"), "{told}");
        assert_eq!(run.status.code(), Some(1));
    }
}
