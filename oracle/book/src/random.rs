//! Random calls on a module, for tests and for scripts.

use canon::{Expr, Facts, Reading};
use generate::Rng;

use crate::{Book, Call, REPLY_BYTES};

/// A call that hits and misses: numbers mostly in range, texts of the module, builtins and new ones, buffers around the
/// length needed. A greedy script spends the change room quickly.
pub fn call<R: Reading + Clone>(rng: &mut Rng, book: &Book<R>, greedy: bool) -> Call {
    let facts = book.facts();
    let reply = if rng.chance(4) { rng.below(REPLY_BYTES) } else { REPLY_BYTES + rng.below(3) };
    let buffer = if rng.chance(30) { rng.below(16) } else { ample(&facts) };
    let references: Vec<u32> = facts.resolution.answers.keys().copied().collect();
    let reference =
        if references.is_empty() || rng.chance(10) { rng.below(facts.module.exprs.len() + 3) as u32 } else { rng.pick(&references) };
    let name = rng.below(facts.module.names.len() + 2) as u32;
    match rng.below(5) {
        0 => Call::AskReference { number: reference, buffer, reply },
        1 => Call::AskName { number: name, buffer, reply },
        2 => {
            let text = text(rng, &facts, greedy);
            let moved = moved(book, Call::ChangeReference { number: reference, text: text.clone(), buffer: ample(&facts), reply });
            Call::ChangeReference { number: reference, text, buffer: about(rng, moved, ample(&facts)), reply }
        }
        _ => {
            let text = text(rng, &facts, greedy);
            let moved = moved(book, Call::ChangeName { number: name, text: text.clone(), buffer: ample(&facts), reply });
            Call::ChangeName { number: name, text, buffer: about(rng, moved, ample(&facts)), reply }
        }
    }
}

/// A buffer that no list of the module is too long for.
fn ample(facts: &Facts) -> usize {
    4 * facts.module.exprs.len()
}

/// How many answers a change would move.
fn moved<R: Reading + Clone>(book: &Book<R>, change: Call) -> usize {
    book.clone().call(&change).list.len()
}

/// The bytes of a buffer for so many numbers: exact, one number too short, one byte too short, none, or ample.
fn about(rng: &mut Rng, numbers: usize, ample: usize) -> usize {
    let exact = 4 * numbers;
    rng.pick(&[exact, exact, exact, exact.saturating_sub(4), exact.saturating_sub(1), 0, ample, ample])
}

fn text(rng: &mut Rng, facts: &Facts, greedy: bool) -> Vec<u8> {
    if greedy && rng.chance(80) {
        return vec![rng.pick(b"abcdefgh"); 250 + rng.below(6)];
    }
    let mut texts: Vec<Vec<u8>> = facts.module.names.iter().map(|name| name.text.clone()).collect();
    texts.extend(facts.module.exprs.iter().filter_map(|e| if let Expr::Reference(text) = e { Some(text.clone()) } else { None }));
    texts.extend([b"map".to_vec(), b"new".to_vec(), Vec::new()]);
    match rng.below(12) {
        0 => vec![b'l'; 255 + rng.below(2)],
        _ => rng.pick(&texts),
    }
}
