//! What an accepted change leaves in any sound store, as docs/STORE.md says it: the new text behind those in use; where
//! an answer moved, other answers and references, and words in the table of items that wait; and nothing else. What is
//! resolved again has the answer that the rule of docs/RULES.md gives over the store's scopes; what no load makes may
//! hold other answers, and those stay.

use crate::store::asked::text_of;
use crate::store::layout::{get, header, KEPT, REFERENCES, TEXTS, USES, WAITING};
use crate::store::module::{Answer, Expr, Module};
use crate::store::moves::{self, Moves, Place};
use crate::store::{page, sound};
use std::ops::Range;

/// Where the words for names begin in the table of items that wait.
const LINKS: usize = 2_654_308;

/// Whether the store is as a change leaves it that set the text of a place, whose number stands at `at`.
pub fn change(before: &[u8], now: &[u8], at: usize, place: Place, text: &[u8]) -> Result<(), String> {
    let length = text.len() as u32;
    let placed = if text.is_empty() { 0 } else { 4 + length };
    let (used, spent) = (get(before, header::TEXTS), get(before, header::SPENT));
    if (get(now, header::TEXTS), get(now, header::SPENT)) != (used + placed, spent + length) {
        return Err("the bytes in use or spent are wrong".to_string());
    }
    if text_of(now, get(now, at)) != text {
        return Err("the text is not the new one".to_string());
    }
    let moves = moves::by(&page::read(before)?, place, text);
    let mut runs = vec![header::SPENT..header::TEXTS + 4, at..at + 4, TEXTS + used as usize..TEXTS + (used + placed) as usize];
    if !moves.moved.is_empty() {
        runs.extend(writable_where_moved(before));
    }
    if let Some(byte) = written_outside(before, now, &mut runs) {
        return Err(format!("byte {byte} of the store was written; {} answers moved", moves.moved.len()));
    }
    match sound::condition(now) {
        0 if moves.moved.is_empty() => Ok(()),
        0 => answers(&page::read(now)?, &moves),
        number => Err(format!("the store that a change left is {number}")),
    }
}

/// Whether answers and references are as a change leaves them that moved some.
fn answers(now: &Module, moves: &Moves) -> Result<(), String> {
    let mut kept = vec![Vec::new(); now.names.len()];
    for ((e, placed), &right) in now.exprs.iter().enumerate().zip(&moves.answers) {
        if placed.answer != right {
            return Err(format!("the answer of e{e} is {:?} and not {right:?}", placed.answer));
        }
        if let (Answer::Definition(name), Expr::Reference(_)) = (right, &placed.expr) {
            kept[name as usize].push(e as u32);
        }
    }
    let reference = |e: &u32| matches!(now.exprs[*e as usize].expr, Expr::Reference(_));
    for (name, right) in now.names.iter().zip(kept) {
        // What is no Reference may have an answer too, which means nothing.
        let told: Vec<u32> = name.references.iter().copied().filter(reference).collect();
        if told != right {
            return Err(format!("references {told:?} and not {right:?} are kept of a name"));
        }
    }
    Ok(())
}

/// What a change may write beside the text and the room: answers, and the references that are listed from them anew.
fn writable_where_moved(before: &[u8]) -> Vec<Range<usize>> {
    let (exprs, names) = (get(before, header::EXPRS) as usize, get(before, header::NAMES) as usize);
    let mut all: Vec<Range<usize>> = (0..exprs).map(|e| USES.word(e, 1)..USES.word(e, 2)).collect();
    all.extend([
        REFERENCES.word(0, 0)..REFERENCES.word(names + 1, 0),
        KEPT.word(0, 0)..KEPT.word(KEPT.limit, 0),
        WAITING.at..WAITING.at + 4 * exprs,
        LINKS..LINKS + 4 * names,
    ]);
    all
}

/// The first byte that was written outside these runs.
fn written_outside(before: &[u8], now: &[u8], writable: &mut [Range<usize>]) -> Option<usize> {
    writable.sort_by_key(|run| run.start);
    let ends = writable.iter().map(|run| run.end);
    let starts = writable.iter().map(|run| run.start).skip(1).chain([before.len()]);
    let gaps = std::iter::once((0, writable[0].start)).chain(ends.zip(starts));
    let differs = |(from, to): (usize, usize)| from < to && before[from..to] != now[from..to];
    gaps.into_iter().find(|&gap| differs(gap)).map(|(from, to)| (from..to).find(|&at| before[at] != now[at]).unwrap_or(from))
}
