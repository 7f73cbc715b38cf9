//! What the calls of a run met, so that a run says what it saw, and fails if it did not see all.

use super::changes::text_of;
use super::draw::target;
use super::Loaded;
use crate::making::{kind, lengths, KINDS};
use crate::progress::grouped;
use book::{Call, Outcome, ROOM_BYTES};
use canon::Facts;

/// A text of at least so many bytes is counted as a long one.
const LONG: usize = 200;

/// The refusals that a call on a loaded store can meet, after 0 for none.
const NUMBERS: [u32; 8] = [0, 8, 21, 24, 25, 26, 27, 34];
/// Refusals that a kind of call can't meet, by the columns.
const NEVER: [&[u32]; 4] = [&[8, 27, 34], &[8, 25, 27, 34], &[26], &[25, 26]];

/// Accepted changes are counted by how many answers they move: up to each of these, and more.
const MOST_MOVED: [usize; 5] = [0, 1, 9, 99, usize::MAX];
const MOVED: [&str; 5] = ["none", "1", "2 to 9", "10 to 99", "100 and more"];

#[derive(Default)]
pub struct Seen {
    pub calls: u64,
    loads: u64,
    names: u64,
    references: u64,
    /// By the kind of call and the number returned.
    numbers: [[u64; 8]; 4],
    /// Accepted askings by the answer 0 to 3.
    answers: [u64; 4],
    /// References told for names.
    told: u64,
    equal: u64,
    equal_over: u64,
    equal_spent: u64,
    empty: u64,
    long: u64,
    back: u64,
    /// Accepted changes with another text, by `MOST_MOVED`.
    moving: [u64; 5],
    moved: u64,
    /// Accepted changes that moved something and had four bytes for each number, and no more.
    exact: u64,
    /// Changes refused with 34, by whether they were lent no byte, or some that were too few.
    unlent: u64,
    too_few: u64,
    spent: u64,
}

impl Seen {
    /// Adds a call, before what it changed is in the facts.
    pub fn add(&mut self, loaded: &Loaded, call: &Call, outcome: &Outcome) {
        self.calls += 1;
        if let Some(column) = NUMBERS.iter().position(|&number| number == outcome.refused) {
            self.numbers[kind(call)][column] += 1;
        }
        if let Some(answer) = &outcome.answer {
            self.answers[answer.number() as usize] += 1;
        } else if outcome.changed.is_none() {
            self.told += outcome.list.len() as u64;
        }
        self.add_moved(call, outcome);
        if let (Some((target, text)), Some(changed)) = (target(call), outcome.changed) {
            self.equal += u64::from(!changed);
            self.equal_spent += u64::from(!changed && loaded.right.spent() + text.len() > ROOM_BYTES);
            self.empty += u64::from(changed && text.is_empty());
            self.long += u64::from(changed && text.len() >= LONG);
            self.back += u64::from(changed && text_of(&loaded.first, target) == text);
        }
        self.equal_over +=
            u64::from(outcome.refused == 8 && target(call).is_some_and(|(at, text)| text_of(&loaded.right.facts, at) == text));
    }

    fn add_moved(&mut self, call: &Call, outcome: &Outcome) {
        let (moved, (buffer, _)) = (outcome.moved.len(), lengths(call));
        self.moved += moved as u64;
        if outcome.changed == Some(true) {
            let class = MOST_MOVED.iter().position(|&most| moved <= most).unwrap_or(0);
            self.moving[class] += 1;
            self.exact += u64::from(moved > 0 && buffer == 4 * moved);
        }
        self.unlent += u64::from(outcome.refused == 34 && buffer == 0);
        self.too_few += u64::from(outcome.refused == 34 && buffer > 0);
    }

    /// Adds what a load had, when its calls are made.
    pub fn end(&mut self, first: &Facts, spent: usize) {
        self.loads += 1;
        self.names += first.module.names.len() as u64;
        self.references += first.resolution.answers.len() as u64;
        self.spent += u64::from(spent == ROOM_BYTES);
    }

    /// Adds what a later part of the run met.
    pub fn merge(&mut self, later: &Seen) {
        let add = |sums: &mut [u64], counts: &[u64]| sums.iter_mut().zip(counts).for_each(|(sum, count)| *sum += count);
        self.numbers.iter_mut().zip(&later.numbers).for_each(|(sums, counts)| add(sums, counts));
        add(&mut self.answers, &later.answers);
        self.calls += later.calls;
        self.loads += later.loads;
        self.names += later.names;
        self.references += later.references;
        self.told += later.told;
        self.equal += later.equal;
        self.equal_over += later.equal_over;
        self.equal_spent += later.equal_spent;
        self.empty += later.empty;
        self.long += later.long;
        self.back += later.back;
        add(&mut self.moving, &later.moving);
        self.moved += later.moved;
        self.exact += later.exact;
        self.unlent += later.unlent;
        self.too_few += later.too_few;
        self.spent += later.spent;
    }

    pub fn met(&self) -> String {
        let numbers = (0..NUMBERS.len()).map(|column| {
            let count = grouped(self.numbers.iter().map(|kind| kind[column]).sum());
            if column == 0 {
                format!("accepted {count}")
            } else {
                format!("{}: {count}", NUMBERS[column])
            }
        });
        let numbers: Vec<String> = numbers.collect();
        let (loads, moved, spent) = (grouped(self.loads), grouped(self.moved), grouped(self.spent));
        format!("{loads} loads; {}; {moved} answers moved; the room spent in {spent} loads", numbers.join(", "))
    }

    /// Whether every refusal and every answer came up where it can, and what docs/RULES.md says of equal texts too.
    pub fn complete(&self) -> bool {
        let mut complete = true;
        for (kind, numbers) in self.numbers.iter().enumerate() {
            for (&number, &count) in NUMBERS.iter().zip(numbers) {
                if count == 0 && !NEVER[kind].contains(&number) {
                    println!("NEVER CAME UP: {} with {number}", KINDS[kind]);
                    complete = false;
                }
            }
        }
        let others = [self.told, self.equal, self.equal_over, self.equal_spent, self.empty, self.long, self.spent];
        let moving = [self.moved, self.moving[0], self.exact, self.unlent, self.too_few];
        if self.answers.contains(&0) || others.contains(&0) || moving.contains(&0) {
            println!("NEVER CAME UP: an answer, a kind of text or of buffer above");
            complete = false;
        }
        complete
    }

    pub fn print(&self) {
        println!("{} loads with {} names and {} References, {} calls", self.loads, self.names, self.references, self.calls);
        let row =
            |name: &str, cells: Vec<String>| println!("{name:<18}{}", cells.iter().map(|cell| format!(" {cell:>8}")).collect::<String>());
        row("refused with", NUMBERS.iter().map(u32::to_string).collect());
        KINDS.iter().zip(self.numbers).for_each(|(kind, counts)| row(kind, counts.iter().map(u64::to_string).collect()));
        let [none, definitions, builtins, withs] = self.answers;
        println!("answers told: nothing {none}, a definition {definitions}, a builtin {builtins}, Withs {withs}");
        println!("References told for names: {}", self.told);
        println!("changes with an equal text: {}, in which it did not fit the room: {}", self.equal, self.equal_spent);
        println!("changes refused with 8 although the text was equal: {}", self.equal_over);
        let (empty, long, back) = (self.empty, self.long, self.back);
        println!("changes to the empty text: {empty}, to {LONG} bytes or more: {long}, back to the text as loaded: {back}");
        let moving: Vec<String> = MOVED.iter().zip(self.moving).map(|(most, count)| format!("{most}: {count}")).collect();
        println!("changes by the answers that they moved, {} in all: {}", self.moved, moving.join(", "));
        let (exact, unlent, too_few) = (self.exact, self.unlent, self.too_few);
        println!("changes in a buffer that is just long enough: {exact}; refused with 34 in none: {unlent}, in some bytes: {too_few}");
        println!("loads whose change room was spent to its last byte: {}", self.spent);
    }
}
