//! Microseconds for one asking and for one change of a text, the check of the store included, beside the Rust, which
//! has no changes and works everything out again.

use super::{cells, median, micros, rust, time, Pair, Row, FAMILIES, ROUNDS, SHEETS};
use crate::calls::changes::{text_of, Target};
use crate::exported::{self, REPLY};
use crate::nameres::sheets;
use crate::progress::{grouped, Progress};
use crate::realistic::SIZES;
use crate::store::layout::{get, header, put, EXPRS};
use crate::store::Lent;
use canon::{Answer, Facts, Reading};
use lang_ast::classify;
use sheet::Node;
use std::hint::black_box;
use tix::Tix;

/// A text that no name and no Reference has.
const FRESH: &[u8] = b"renamed";
/// How many uses are a few.
const FEW: usize = 3;

/// What is asked about and changed, and which name or Reference that is in a module; none where there is no such one.
type Choice = (&'static str, fn(&Facts) -> Option<Target>);

const CHOICES: [Choice; 4] = [
    ("the name that is used most", |facts| used_most(facts).map(Target::Name)),
    ("a name that is used a few times", |facts| used_little(facts).map(Target::Name)),
    ("a name that is never used", |facts| never_used(facts).map(Target::Name)),
    ("a Reference to a definition", |facts| defined(facts).map(Target::Reference)),
];

/// For a sheet without names.
const FIRST: Choice = ("the first Reference", |facts| facts.resolution.answers.keys().next().copied().map(Target::Reference));

/// The rows of the large shapes: how many of them share a row.
const SHAPES: [(usize, &str); 6] = [
    (2, "250 nested lets, uses of all of them; of none"),
    (2, "a pattern of 1,300 fields; a rec set of 1,020 keys"),
    (2, "a rec set of 4,093 inherited names; a let of 3,992"),
    (2, "a let of 2,046 inherited names, used; not used"),
    (1, "a parameter with 4,091 uses"),
    (1, "253 nested Withs"),
];

/// The families that are asked about and changed: those all about keys are like the random ones.
const ASKED: [usize; 2] = [0, 2];

/// How many rows the table has.
pub fn rows() -> usize {
    ASKED.len() * SIZES.len() * CHOICES.len() + SHAPES.len()
}

pub fn shapes() -> Result<Vec<Row>, String> {
    super::rows(sheets::large(), &SHAPES)
}

/// Prints a table of sheets of three sizes, and of large ones.
pub fn run(progress: &Progress) -> Result<(), String> {
    progress.tell("| Sheets | One call about | Answers moved | Ask | Change | Rust: scopes, answers | Change to Rust | Rust: all |");
    progress.tell("|---|---|---|---|---|---|---|---|");
    for (name, family) in ASKED.map(|number| FAMILIES[number]) {
        for nodes in SIZES {
            let sheets = family(nodes);
            let name = format!("{SHEETS} {name} of {} nodes", grouped(nodes as u64));
            CHOICES.iter().try_for_each(|choice| many(progress, &name, choice, &sheets))?;
        }
    }
    shapes()?.iter().try_for_each(|row| shared(progress, row))?;
    progress.tell("a change to a text that nothing bears, and back, of which the mean is taken; moved: how many answers that moves;");
    progress.tell("the Rust has no changes and works everything out again: scopes and answers, or all from the sheet's bytes");
    Ok(())
}

fn used_most(facts: &Facts) -> Option<u32> {
    let references = &facts.resolution.references;
    (0..references.len() as u32).max_by_key(|&name| references[name as usize].len())
}

/// Of the names that answer some References, the one that answers nearest to three.
fn used_little(facts: &Facts) -> Option<u32> {
    let references = &facts.resolution.references;
    let used = (0..references.len() as u32).filter(|&name| !references[name as usize].is_empty());
    used.min_by_key(|&name| references[name as usize].len().abs_diff(FEW))
}

/// Of the names that nothing is answered with, the one whose text the fewest References bear.
fn never_used(facts: &Facts) -> Option<u32> {
    let bearers = |name: u32| {
        let text = text_of(facts, Target::Name(name));
        facts.resolution.answers.keys().filter(|&&e| text_of(facts, Target::Reference(e)) == text).count()
    };
    let unused = (0..facts.module.names.len() as u32).filter(|&name| facts.resolution.references[name as usize].is_empty());
    unused.min_by_key(|&name| bearers(name))
}

/// The Reference in the middle of those that are answered with a definition.
fn defined(facts: &Facts) -> Option<u32> {
    let defined: Vec<u32> =
        facts.resolution.answers.iter().filter(|(_, answer)| matches!(answer, Answer::Definition(_))).map(|(&e, _)| e).collect();
    defined.get(defined.len() / 2).copied()
}

/// The times for one sheet.
struct Measured {
    moved: usize,
    ask: f64,
    again: Pair,
    /// Of the Rust, for all from the sheet's bytes.
    whole: f64,
}

/// Prints a row of many sheets, those that have what is asked about.
fn many(progress: &Progress, name: &str, (what, choice): &Choice, sheets: &[Vec<Node>]) -> Result<(), String> {
    let mut lent = Lent::new();
    let mut all = Vec::new();
    for sheet in sheets {
        all.extend(measure(lent.store(), sheet, *choice)?);
    }
    progress.turn();
    if all.is_empty() {
        return Ok(());
    }
    let middle = |part: fn(&Measured) -> f64| median(all.iter().map(part).collect());
    let (moved, ask, whole) = (middle(|one| one.moved as f64), middle(|one| one.ask), middle(|one| one.whole));
    let again: Vec<&Pair> = all.iter().map(|one| &one.again).collect();
    let (change, rust) = (micros(Pair::compiled(&again)), micros(Pair::rust(&again)));
    let (moved, ask, ratio, whole) = (grouped(moved as u64), micros(ask), Pair::ratio(&again), micros(whole));
    progress.tell(&format!("| {name} | {what} | {moved} | {ask} | {change} | {rust} | {ratio} | {whole} |"));
    Ok(())
}

/// Prints a row that some sheets share, about the name that each uses most, or the first Reference where there are no
/// names.
fn shared(progress: &Progress, row: &Row) -> Result<(), String> {
    let mut lent = Lent::new();
    let (mut whats, mut all) = (Vec::new(), Vec::new());
    for sheet in &row.sheets {
        let nameless = Tix::new(&sheet.nodes).facts().module.names.is_empty();
        let (what, choice) = if nameless { FIRST } else { CHOICES[0] };
        whats.push(what.to_string());
        all.extend(measure(lent.store(), &sheet.nodes, choice)?);
    }
    let column = |cell: fn(&Measured) -> String| cells(all.iter().map(cell).collect());
    let (what, moved, ask) = (cells(whats), column(|one| grouped(one.moved as u64)), column(|one| micros(one.ask)));
    let (change, rust) = (column(|one| micros(one.again.compiled)), column(|one| micros(one.again.rust)));
    let (ratio, whole) = (column(|one| Pair::ratio(&[&one.again])), column(|one| micros(one.whole)));
    progress.tell(&format!("| {} | {what} | {moved} | {ask} | {change} | {rust} | {ratio} | {whole} |", row.name));
    progress.turn();
    Ok(())
}

/// Round by round both sides in turn; none where the sheet has nothing to ask about.
fn measure(store: &mut [u8], nodes: &[Node], choice: fn(&Facts) -> Option<Target>) -> Result<Option<Measured>, String> {
    let bytes = sheet::write(nodes);
    exported::loaded(&bytes, store)?;
    let facts = Tix::new(nodes).facts();
    let Some(target) = choice(&facts) else { return Ok(None) };
    let old = text_of(&facts, target);
    let (module, _) = classify::lower(rnix::Root::of_nodes(nodes));
    // Long enough for any list.
    let mut buffer = vec![0; 4 * EXPRS.limit];
    let mut times = [(); 4].map(|()| Vec::new());
    for _ in 0..ROUNDS {
        times[0].push(time(|| ask(black_box(store), target, &mut buffer)));
        let there = time(|| change(black_box(store), target, FRESH, &mut buffer));
        let back = time(|| change(black_box(store), target, old, &mut buffer));
        times[1].push((there + back) / 2.0);
        times[2].push(time(|| rust::resolved(black_box(&module))));
        times[3].push(time(|| rust::from_bytes(black_box(&bytes))));
        // So that the room lasts for all rounds; a store may have more texts in use than its changes account for.
        put(store, header::SPENT, 0);
    }
    let moved = same(store, target, &mut buffer, &facts)?;
    let [ask, compiled, again, whole] = times.map(median);
    Ok(Some(Measured { moved, ask, again: Pair { compiled, rust: again }, whole }))
}

/// Asks; the number and the words that were told.
fn ask(store: &[u8], target: Target, buffer: &mut [u8]) -> (u32, [u8; REPLY]) {
    let mut reply = [0; REPLY];
    let number = match target {
        Target::Name(name) => exported::ask_name(store, name, buffer, &mut reply),
        Target::Reference(e) => exported::ask_reference(store, e, buffer, &mut reply),
    };
    (number, reply)
}

/// Changes a text; the number and the words that were told.
fn change(store: &mut [u8], target: Target, text: &[u8], moved: &mut [u8]) -> (u32, [u8; REPLY]) {
    let mut reply = [0; REPLY];
    let number = match target {
        Target::Name(name) => exported::change_name(store, name, text, moved, &mut reply),
        Target::Reference(e) => exported::change_reference(store, e, text, moved, &mut reply),
    };
    (number, reply)
}

/// The length of the list that a reply tells.
fn length(reply: &[u8; REPLY]) -> usize {
    get(reply, 16) as usize
}

/// Whether all changes were made and taken back: the last asking is told what it was told first. Gives how many answers
/// a change moves.
fn same(store: &mut [u8], target: Target, buffer: &mut [u8], facts: &Facts) -> Result<usize, String> {
    let (number, reply) = ask(store, target, buffer);
    let told = length(&reply);
    let right = match target {
        Target::Name(name) => facts.resolution.references[name as usize].len(),
        Target::Reference(e) => match facts.resolution.answers.get(&e) {
            Some(Answer::Withs(list)) => list.len(),
            _ => 0,
        },
    };
    match change(store, target, FRESH, buffer) {
        (0, moved) if (number, told) == (0, right) => Ok(length(&moved)),
        _ => Err(format!("after the changes an asking about {target:?} is told {number}, with {told} numbers and not {right}")),
    }
}
