//! How far a run has come, on standard error: what, how many of how many, and the differences so far. On a terminal the
//! line is rewritten about once a second; anywhere else there is a new one every ten seconds at most. Runs of less than
//! two seconds have none.

use std::io::{stderr, IsTerminal, Write};
use std::sync::atomic::{AtomicBool, AtomicU64, Ordering::Relaxed};
use std::time::Instant;

/// Milliseconds to the first line, and from one line to the next on a terminal and elsewhere.
const FIRST: u64 = 2_000;
const TERMINAL: u64 = 1_000;
const PLAIN: u64 = 10_000;

/// The clock is looked at about so many times in all, and at least after so many turns: it costs little, but turns may
/// cost less.
const LOOKS: u64 = 2_000;
const MOST_TURNS: u64 = 64;

/// The progress of one run, which the threads of the run share.
pub struct Progress {
    what: String,
    of: u64,
    done: AtomicU64,
    differences: AtomicU64,
    start: Instant,
    /// After so many turns the clock is looked at.
    every: u64,
    /// When the next line is to be written, in milliseconds from the start.
    due: AtomicU64,
    terminal: bool,
    /// Whether a line stands on the terminal.
    shown: AtomicBool,
}

impl Progress {
    /// Of a run of so many turns; `what` says what they are.
    pub fn new(what: impl Into<String>, of: u64) -> Self {
        Progress {
            what: what.into(),
            of,
            done: AtomicU64::new(0),
            differences: AtomicU64::new(0),
            start: Instant::now(),
            every: (of / LOOKS).clamp(1, MOST_TURNS),
            due: AtomicU64::new(FIRST),
            terminal: stderr().is_terminal(),
            shown: AtomicBool::new(false),
        }
    }

    /// One more turn is done.
    pub fn turn(&self) {
        self.turns(1);
    }

    /// So many more turns are done.
    pub fn turns(&self, count: u64) {
        let before = self.done.fetch_add(count, Relaxed);
        if before / self.every != (before + count) / self.every {
            self.look();
        }
    }

    /// One more difference.
    pub fn differs(&self) {
        self.differences.fetch_add(1, Relaxed);
    }

    /// Prints a line on standard output, which is often the same terminal.
    pub fn tell(&self, line: &str) {
        self.wipe();
        println!("{line}");
    }

    /// Writes the line if it is due. Of several threads that one writes which moves the time of the next line.
    fn look(&self) {
        let now = self.start.elapsed().as_millis() as u64;
        let due = self.due.load(Relaxed);
        let next = now + if self.terminal { TERMINAL } else { PLAIN };
        if now >= due && self.due.compare_exchange(due, next, Relaxed, Relaxed).is_ok() {
            self.write();
        }
    }

    fn write(&self) {
        let line = line(&self.what, self.done.load(Relaxed), self.of, self.differences.load(Relaxed));
        // Nobody need read it: where it can't be written the run goes on.
        let _ = if self.terminal { write!(stderr(), "\r{line}\x1b[K") } else { writeln!(stderr(), "{line}") };
        let _ = stderr().flush();
        self.shown.store(self.terminal, Relaxed);
    }

    fn wipe(&self) {
        if self.shown.swap(false, Relaxed) {
            wipe();
        }
    }
}

/// Takes away the line that this process, or one that it started, may have on the terminal.
pub fn wipe() {
    if stderr().is_terminal() {
        let _ = write!(stderr(), "\r\x1b[K");
    }
}

impl Drop for Progress {
    fn drop(&mut self) {
        self.wipe();
    }
}

fn line(what: &str, done: u64, of: u64, differences: u64) -> String {
    let percent = (100 * u128::from(done) / u128::from(of.max(1))).min(100);
    format!("{what}: {} of {} ({percent}%), {} differences", grouped(done), grouped(of), grouped(differences))
}

/// A number with a comma before every three digits.
pub fn grouped(number: u64) -> String {
    let digits = number.to_string();
    let mut text = String::new();
    for (i, digit) in digits.chars().enumerate() {
        if i > 0 && (digits.len() - i).is_multiple_of(3) {
            text.push(',');
        }
        text.push(digit);
    }
    text
}

#[cfg(test)]
mod tests {
    use super::*;

    #[test]
    fn numbers_are_grouped() {
        let told: Vec<String> = [0, 7, 999, 1_000, 12_345, 999_999, 1_000_000, u64::MAX].map(grouped).to_vec();
        assert_eq!(told, ["0", "7", "999", "1,000", "12,345", "999,999", "1,000,000", "18,446,744,073,709,551,615"]);
    }

    #[test]
    fn the_line() {
        assert_eq!(line("loads, random sheets", 12_345, 1_000_000, 0), "loads, random sheets: 12,345 of 1,000,000 (1%), 0 differences");
        assert_eq!(line("any", 0, 0, 1), "any: 0 of 0 (0%), 1 differences");
        // More than was thought is still no more than all.
        assert_eq!(line("any", 3, 2, 0), "any: 3 of 2 (100%), 0 differences");
        assert_eq!(line("any", u64::MAX, u64::MAX, 0).split(' ').nth(4), Some("(100%),"));
    }

    #[test]
    fn turns_of_all_threads_count() {
        let progress = Progress::new("test", 1_000_000);
        assert_eq!(progress.every, 64);
        std::thread::scope(|scope| {
            for _ in 0..2 {
                scope.spawn(|| (0..1_000).for_each(|_| progress.turn()));
            }
        });
        progress.differs();
        assert_eq!((progress.done.load(Relaxed), progress.differences.load(Relaxed)), (2_000, 1));
        assert_eq!([0, 1, 2_000, 10_000].map(|of| Progress::new("test", of).every), [1, 1, 1, 5]);
    }
}
