//! Stores that are sound and built to be slow, and sheets that are: every Reference bears the text that changes, and is
//! searched through all names and scopes. How long one call takes then.

use crate::exported::{self, REPLY};
use crate::lower::sheets::tree;
use crate::nameres::sheets::inheriting_let_of;
use crate::progress::{grouped, Progress};
use crate::report::Report;
use crate::speed::{median, rust, time};
use crate::store::asked::text_of;
use crate::store::build::{build, Texts};
use crate::store::layout::{get, header, put, EXPRS, NAMES, SCOPES};
use crate::store::module::*;
use crate::store::{sound, Lent};
use generate::Rng;
use tix::with_big_stack;

/// How often each call is made, unless that takes long; the median counts.
const ROUNDS: usize = 5;
/// Microseconds after which a store's calls are not made again.
const LONG: f64 = 1e6;
/// How many sheets there are beside the stores.
const SHEETS: u64 = 2;

/// How a store is built: so many References in the innermost scope, and so many names before them.
struct Slow {
    name: &'static str,
    references: usize,
    names: usize,
    /// Whether each name has a scope of its own, one inside the other; else all are in one.
    nested: bool,
    /// So many scopes for Withs inside that.
    withs: usize,
    /// The length of all texts, which differ in the last byte only.
    text: usize,
}

const POINTER: Pointer = Pointer { kind: 18, from: 0, to: 1 };

const FULL: Slow = Slow { name: "", references: EXPRS.limit, names: NAMES.limit, nested: false, withs: 0, text: 1 };

const STORES: [Slow; 8] = [
    Slow { name: "one scope, texts of 1 byte", ..FULL },
    Slow { name: "one scope, texts of 16 bytes", text: 16, ..FULL },
    Slow { name: "one scope, texts of 255 bytes", text: 255, ..FULL },
    Slow { name: "scopes one inside the other, texts of 1 byte", names: SCOPES.limit - 1, nested: true, ..FULL },
    Slow { name: "scopes one inside the other, texts of 255 bytes", names: SCOPES.limit - 1, nested: true, text: 255, ..FULL },
    Slow { name: "one name and 4,094 Withs inside", names: 1, withs: SCOPES.limit - 2, ..FULL },
    Slow { name: "one scope, texts of 10,000 bytes, few References", references: 64, text: 10_000, ..FULL },
    Slow { name: "one scope, texts of 370,000 bytes, one Reference", references: 1, text: 370_000, ..FULL },
];

/// Prints a table of stores, and one of sheets.
pub fn run() -> Result<Report, String> {
    let progress = Progress::new("slow, rows", STORES.len() as u64 + SHEETS);
    progress.tell("| Store | References | Names | Ask Reference | Ask name | Change Reference | Change name away | Change name back |");
    progress.tell("|---|---|---|---|---|---|---|---|");
    let mut lent = Lent::new();
    let (mut last, mut longest) = (0.0, 0.0_f64);
    for slow in &STORES {
        slow.build(lent.store());
        last = print(&progress, slow.name, lent.store(), slow.references as u32 - 1, slow.references, slow.names)?;
        longest = longest.max(last);
    }
    progress.tell(&format!(
        "milliseconds, the median of up to {ROUNDS}; texts differ in their last byte, and the name that changes is the last looked at;"
    ));
    progress.tell(&format!("a change's time grows with References times names times the length of a text: {} References", EXPRS.limit));
    progress.tell(&format!("instead of the last row's one would take some {:.1} hours", last * EXPRS.limit as f64 / 3.6e6));
    progress.tell("");
    with_big_stack(|| sheets(&progress, lent.store()))?;
    Ok(Report::measured(format!("the longest change of a name {} ms", grouped(longest.round() as u64))))
}

impl Slow {
    fn build(&self, store: &mut [u8]) {
        let (borne, other) = (self.ending(b'r'), self.ending(b'n'));
        let module = Module {
            exprs: (0..self.references).map(|_| self.reference(&borne)).collect(),
            names: (0..self.names).map(|name| self.name(name, if name == 0 { &borne } else { &other })).collect(),
            entry: Some(0),
            scopes: self.scopes(),
            ..Module::default()
        };
        build(store, &module, Texts::new(2 * (4 + self.text)), &mut Rng::new(1));
    }

    fn ending(&self, last: u8) -> Vec<u8> {
        let mut text = vec![b'a'; self.text];
        text[self.text - 1] = last;
        text
    }

    fn reference<'a>(&self, text: &'a [u8]) -> Placed<'a> {
        let innermost = if self.nested { self.names } else { 1 } + self.withs;
        Placed { expr: Expr::Reference(text), pointer: Some(POINTER), scope: Some(innermost as u32), answer: Answer::Definition(0) }
    }

    fn name<'a>(&self, name: usize, text: &'a [u8]) -> Name<'a> {
        let references = if name == 0 { (0..self.references as u32).collect() } else { Vec::new() };
        Name { text, kind: 0, pointer: POINTER, references }
    }

    /// The root, the scopes of the names, and those of the Withs, each inside the one before.
    fn scopes(&self) -> Vec<Scope> {
        let names = 0..self.names as u32;
        let mut all = vec![Scoped::Definitions(Vec::new())];
        match self.nested {
            true => all.extend(names.map(|name| Scoped::Definitions(vec![name]))),
            false => all.push(Scoped::Definitions(names.collect())),
        }
        all.extend((0..self.withs).map(|_| Scoped::With(0)));
        (0..).zip(all).map(|(number, what): (u32, _)| Scope { parent: number.checked_sub(1), what }).collect()
    }
}

/// A row for calls about the Reference e, which means name 0; the milliseconds for changing that name.
fn print(progress: &Progress, name: &str, store: &mut [u8], e: u32, references: usize, names: usize) -> Result<f64, String> {
    if sound::condition(store) != 0 {
        return Err(format!("{name}: the store is not sound"));
    }
    let mut times = [(); 5].map(|()| Vec::new());
    let mut taken = 0.0;
    while times[0].len() < ROUNDS && taken < LONG {
        let round = round(store, e).map_err(|why| format!("{name}: {why}"))?;
        taken += round.iter().sum::<f64>();
        times.iter_mut().zip(round).for_each(|(times, time)| times.push(time / 1e3));
    }
    let [ask, ask_name, reference, away, back] = times.map(median);
    progress.tell(&format!("| {name} | {references} | {names} | {ask:.2} | {ask_name:.2} | {reference:.2} | {away:.2} | {back:.2} |"));
    progress.turn();
    Ok(away)
}

/// Asks about the Reference and name 0, changes both away and back; microseconds of each.
fn round(store: &mut [u8], e: u32) -> Result<[f64; 5], String> {
    let (mut buffer, mut reply) = (vec![0; 4 * EXPRS.limit], [0; REPLY]);
    let kept = [get(store, NAMES.word(0, 0)), get(store, EXPRS.word(e as usize, 2)), get(store, header::TEXTS)];
    let mut numbers = Vec::new();
    let mut asked = [0.0; 2];
    let ask_name = time(|| numbers.push(exported::ask_name(store, 0, &mut buffer, &mut reply)));
    asked[0] = time(|| numbers.push(exported::ask_reference(store, e, &mut buffer, &mut reply)));
    let reference = time(|| numbers.push(exported::change_reference(store, e, b"z", &mut buffer, &mut reply)));
    put_back(store, EXPRS.word(e as usize, 2), kept[1], kept[2]);
    let away = time(|| numbers.push(exported::change_name(store, 0, b"y", &mut buffer, &mut reply)));
    // Now the answer may be a list of Withs.
    asked[1] = time(|| numbers.push(exported::ask_reference(store, e, &mut buffer, &mut reply)));
    let answer = get(&reply, 8);
    // A text of more than 255 bytes can't be set again, so that one goes to another text.
    let old = text_of(store, kept[0]).to_vec();
    let text = if old.len() <= book::TEXT_BYTES { old } else { b"x".to_vec() };
    let back = time(|| numbers.push(exported::change_name(store, 0, &text, &mut buffer, &mut reply)));
    put_back(store, NAMES.word(0, 0), kept[0], kept[2]);
    match numbers.iter().find(|&&number| number != 0) {
        None if answer != 1 => Ok([asked[0].max(asked[1]), ask_name, reference, away, back]),
        None => Err("the changed name still answers".to_string()),
        Some(number) => Err(format!("a call is refused with {number}")),
    }
}

/// The text and the room as they were.
fn put_back(store: &mut [u8], at: usize, text: u32, used: u32) {
    put(store, at, text);
    put(store, header::TEXTS, used);
    put(store, header::SPENT, 0);
}

/// Sheets of as many names as uses, all with texts that differ at their end, which are as long as a sheet can hold.
fn sheets(progress: &Progress, store: &mut [u8]) -> Result<(), String> {
    progress.tell("| A let of 2,046 inherited names of 96 bytes | Bytes | Load | The Rust's | Ask name | Change name |");
    progress.tell("|---|---|---|---|---|---|");
    progress.tell(&sheet(store, "2,046 uses of them", |use_| (37 * use_ + 11) % 2_046)?);
    progress.turn();
    progress.tell(&sheet(store, "2,046 uses of none of them", |use_| 2_046 + use_)?);
    progress.turn();
    progress.tell(&format!("milliseconds, the median of {ROUNDS}"));
    Ok(())
}

/// The row of a sheet.
fn sheet(store: &mut [u8], what: &str, used: impl Fn(usize) -> usize) -> Result<String, String> {
    let text = |number: usize| format!("{}{number:04}", "k".repeat(92)).into_bytes();
    let bytes = sheet::write(&tree(what, inheriting_let_of(2_046, &text, used)).nodes);
    let (mut buffer, mut reply) = (vec![0; 4 * EXPRS.limit], [0; REPLY]);
    let mut numbers = Vec::new();
    let mut times = [(); 4].map(|()| Vec::new());
    for _ in 0..ROUNDS {
        times[0].push(time(|| numbers.push(exported::load(&bytes, store, &mut reply))) / 1e3);
        times[1].push(time(|| rust::from_bytes(&bytes)) / 1e3);
        times[2].push(time(|| numbers.push(exported::ask_name(store, 0, &mut buffer, &mut reply))) / 1e3);
        times[3].push(time(|| numbers.push(exported::change_name(store, 0, &text(1), &mut buffer, &mut reply))) / 1e3);
    }
    if let Some(number) = numbers.iter().find(|&&number| number != 0) {
        return Err(format!("{what}: a call is refused with {number}"));
    }
    let [load, rust, ask, change] = times.map(median);
    Ok(format!("| {what} | {} | {load:.2} | {rust:.2} | {ask:.2} | {change:.2} |", bytes.len()))
}
