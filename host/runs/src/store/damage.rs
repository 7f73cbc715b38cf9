//! Damage to a sound store: a few words changed, or the store cut. Where it is plain from the page what must come of
//! it, the damage says so; the rest is left to the two checks.

use super::layout::{self, get, header, put};
use super::sites::{sites, Lists, Rows, Site, Sites};
use super::sound::{Field, SORTS, TAGS};
use generate::Rng;

#[derive(Debug, Clone, Copy, PartialEq, Eq)]
pub enum Must {
    /// As sound as it was.
    Stay,
    /// 22.
    Break,
    /// 21.
    Short,
    Either,
}

#[derive(Debug, Clone)]
pub struct Damage {
    pub kind: &'static str,
    /// Offset and word. Offsets need not be multiples of four.
    pub words: Vec<(usize, u32)>,
    /// How many bytes of the store are left.
    pub length: Option<usize>,
    pub must: Must,
}

/// Every kind of damage.
pub const KINDS: &[&str] = &[
    "child of an expression",
    "name of an expression",
    "operator",
    "child of an item",
    "name of an item",
    "kind of a name",
    "parent of a scope",
    "With of a scope",
    "entered name",
    "scope of an expression",
    "answer of a Reference",
    "answer of no Reference",
    "kept reference",
    "text of an expression",
    "text of an item",
    "text of a name",
    "key of a diagnostic",
    "length of a text",
    "literal",
    "sort",
    "tag",
    "sort over a list",
    "tag in a list",
    "count of expressions",
    "count of names",
    "count of diagnostics",
    "length of the lost list",
    "count of scopes",
    "entry",
    "spent bytes",
    "bytes of texts",
    "first item",
    "first entered name",
    "first reference",
    "first element without rows",
    "list of a With",
    "word of a pointer",
    "field without a meaning",
    "row past those in use",
    "work room",
    "free word of the header",
    "byte of a text",
    "byte past the texts",
    "byte past the store",
    "random word",
    "random byte",
    "several at once",
    "short store",
];

/// Kinds that are many in one: for each sort or tag, and for each place in its row.
const WIDE: &[&str] = &["child of an expression", "child of an item", "sort over a list", "tag in a list"];

/// One of the kinds, the wide ones more often than the others.
fn kind(rng: &mut Rng) -> &'static str {
    let kinds = if rng.chance(25) { WIDE } else { KINDS };
    rng.pick(kinds)
}

/// Applies the damage for the time of a look.
pub fn damaged<T>(store: &mut [u8], damage: &Damage, look: impl FnOnce(&mut [u8]) -> T) -> T {
    let before: Vec<u32> = damage.words.iter().map(|&(at, word)| exchange(store, at, word)).collect();
    let length = damage.length.unwrap_or(store.len());
    let seen = look(&mut store[..length]);
    // Backwards, since a word may have been changed twice.
    for (&(at, _), &word) in damage.words.iter().zip(&before).rev() {
        put(store, at, word);
    }
    seen
}

fn exchange(store: &mut [u8], at: usize, word: u32) -> u32 {
    let before = get(store, at);
    put(store, at, word);
    before
}

/// So much damage to a sound store, of all kinds.
pub fn drawn(store: &[u8], rng: &mut Rng, damages: u64) -> Vec<Damage> {
    let damager = Damager::new(store);
    // A kind for which the store has no place is drawn anew; some kinds always have one.
    let mut draw = || std::iter::repeat_with(|| damager.draw(kind(rng), rng)).flatten().next();
    (0..damages).filter_map(|_| draw()).collect()
}

/// Draws damage to one sound store.
pub struct Damager<'s> {
    store: &'s [u8],
    sites: Sites,
    /// Where texts that are in use stand, by their numbers.
    texts: Vec<u32>,
}

/// Words and what must come of them.
type Drawn = Option<(Vec<(usize, u32)>, Must)>;

impl<'s> Damager<'s> {
    pub fn new(store: &'s [u8]) -> Self {
        let sites = sites(store);
        let numbers = sites.texts.values().flatten().map(|&at| get(store, at));
        let texts = numbers.filter(|&number| number != layout::NONE).collect();
        Damager { store, sites, texts }
    }

    /// Damage of a kind; none where the store has no place for it.
    fn draw(&self, kind: &'static str, rng: &mut Rng) -> Option<Damage> {
        if kind == "short store" {
            return Some(Damage { kind, words: Vec::new(), length: Some(shorter(rng)), must: Must::Short });
        }
        let (words, must) = self.words(kind, rng)?;
        Some(Damage { kind, words, length: None, must })
    }

    fn words(&self, kind: &str, rng: &mut Rng) -> Drawn {
        if let Some(lists) = self.sites.lists.iter().find(|lists| lists.name == kind) {
            return self.first(lists, rng);
        }
        match kind {
            "length of a text" => self.length(rng),
            "literal" => self.literal(rng),
            "sort" => one(pick(&self.sites.sorts, rng)?, rng.pick(&SORT_WORDS)),
            "tag" => one(pick(&self.sites.tags, rng)?, rng.pick(&TAG_WORDS)),
            "sort over a list" => self.sort_over_list(rng),
            "tag in a list" => self.tag_in_list(rng),
            "count of expressions" => self.count(header::EXPRS, layout::EXPRS.limit, rng),
            "count of names" => self.count(header::NAMES, layout::NAMES.limit, rng),
            "count of diagnostics" => self.count(header::DIAGNOSTICS, layout::DIAGNOSTICS.limit, rng),
            "length of the lost list" => self.lost(rng),
            "count of scopes" => self.count(header::SCOPES, layout::SCOPES.limit, rng),
            "entry" => self.entry(rng),
            "spent bytes" => self.spent(rng),
            "bytes of texts" => self.used(rng),
            "first element without rows" => self.first_of_none(rng),
            "list of a With" => self.with_list(rng),
            "row past those in use" => self.past(rng),
            "work room" => stay(4 * rng.between(layout::WORK.start / 4, layout::WORK.end / 4 - 1), rng),
            "free word of the header" => stay(4 * rng.between(header::WAITING / 4, header::END / 4 - 1), rng),
            "byte of a text" => self.text_byte(rng),
            "byte past the texts" => self.past_texts(rng),
            "byte past the store" => self.past_store(rng),
            "random word" => Some((vec![(self.anywhere(rng) / 4 * 4, any(rng))], Must::Either)),
            "random byte" => self.byte(self.anywhere(rng), rng, Must::Either),
            "several at once" => self.several(rng),
            _ => self.ranged(kind, rng).or_else(|| self.text(kind, rng)).or_else(|| self.anything(kind, rng)),
        }
    }

    /// A number at or about its bounds.
    fn ranged(&self, kind: &str, rng: &mut Rng) -> Drawn {
        let groups: Vec<&Vec<Site>> = self.sites.ranged.get(kind)?.values().collect();
        let group = rng.pick(&groups);
        let site = pick(group, rng)?;
        let above = rng.pick(&[1, 1, 2, u32::MAX - site.high]);
        let word = match rng.below(5) {
            0 => site.low,
            1 => site.high,
            2 => site.low.wrapping_sub(1),
            3 => rng.draw() as u32,
            _ => site.high.saturating_add(above),
        };
        let must = if site.low <= word && word <= site.high { Must::Stay } else { Must::Break };
        Some((vec![(site.at, word)], must))
    }

    /// A text's number at the end of those in use, past it, or where a sum of 32 bits would wrap.
    fn text(&self, kind: &str, rng: &mut Rng) -> Drawn {
        let at = pick(self.sites.texts.get(kind)?, rng)?;
        let used = get(self.store, header::TEXTS);
        let (word, must) = match rng.below(8) {
            0 => (layout::NONE, Must::Stay),
            1 => (pick(&self.texts, rng)?, Must::Stay),
            2 => (used, Must::Break),
            3 => (used.saturating_sub(3), Must::Break),
            4 => (layout::NONE - rng.between(1, 8) as u32, Must::Break),
            5 => return self.empty_text(at, used, rng),
            6 => (pick(&self.texts, rng)?.wrapping_add(rng.between(0, 8) as u32).wrapping_sub(4), Must::Either),
            _ => (rng.below(used as usize + 8) as u32, Must::Either),
        };
        Some((vec![(at, word)], must))
    }

    /// A text at the very end of those in use, with a length of 0 or 1.
    fn empty_text(&self, at: usize, used: u32, rng: &mut Rng) -> Drawn {
        let number = used.checked_sub(4)?;
        let length = rng.below(2) as u32;
        let must = if length > 0 { Must::Break } else { Must::Either };
        Some((vec![(at, number), (layout::TEXTS + number as usize, length)], must))
    }

    /// A text made so long that it ends with those in use, or past them.
    fn length(&self, rng: &mut Rng) -> Drawn {
        let number = pick(&self.texts, rng)?;
        let most = get(self.store, header::TEXTS) - 4 - number;
        let (word, must) = rng.pick(&[(0, Must::Stay), (most, Must::Stay), (most + 1, Must::Break), (u32::MAX, Must::Break)]);
        Some((vec![(layout::TEXTS + number as usize, word)], must))
    }

    fn literal(&self, rng: &mut Rng) -> Drawn {
        let (at, most) = pick(&self.sites.literals, rng)?;
        let value = rng.pick(&[0, most - 1, most, most + 1, most | 0xffff_ffff, (most | 0xffff_ffff) + 1, 1 << 63, u64::MAX]);
        let must = if value <= most { Must::Stay } else { Must::Break };
        Some((vec![(at, (value >> 32) as u32), (at + 4, value as u32)], must))
    }

    /// Another sort, with fields that are right for it, over a list that stays: only its tags decide.
    fn sort_over_list(&self, rng: &mut Rng) -> Drawn {
        let e = pick(&self.sites.listed, rng)?;
        let sort = rng.below(SORTS.len());
        let (fields, tags) = SORTS[sort];
        let items = get(self.store, layout::EXPRS.word(e, 0))..get(self.store, layout::EXPRS.word(e + 1, 0));
        let allowed = items.into_iter().all(|item| tags.contains(&get(self.store, layout::ITEMS.word(item as usize, 0))));
        let at = layout::EXPRS.word(e, 1);
        let mut words = vec![(at, sort as u32)];
        words.extend(self.right(at + 4, &fields, e)?);
        Some((words, if allowed { Must::Stay } else { Must::Break }))
    }

    /// Another tag, with fields that are right for it: only the sort above it decides.
    fn tag_in_list(&self, rng: &mut Rng) -> Drawn {
        let e = pick(&self.sites.listed, rng)?;
        let (first, end) = (get(self.store, layout::EXPRS.word(e, 0)), get(self.store, layout::EXPRS.word(e + 1, 0)));
        let at = layout::ITEMS.word(rng.between(first as usize, end as usize - 1), 0);
        let tag = rng.below(TAGS.len());
        let (_, tags) = SORTS[get(self.store, layout::EXPRS.word(e, 1)) as usize];
        let mut words = vec![(at, tag as u32)];
        words.extend(self.right(at + 4, &TAGS[tag], e)?);
        Some((words, if tags.contains(&(tag as u32)) { Must::Stay } else { Must::Break }))
    }

    /// Numbers that are right for fields of the expression e; none where the store has none.
    fn right(&self, at: usize, fields: &[Field], e: usize) -> Option<Vec<(usize, u32)>> {
        let names = get(self.store, header::NAMES) as usize;
        let right = |field: &Field| match field {
            Field::Anything | Field::Literal(_) => Some(0),
            Field::Child => e.checked_sub(1),
            Field::Name => names.checked_sub(1),
            Field::Text => Some(layout::NONE as usize),
            Field::Operator(_) => Some(1),
        };
        fields.iter().enumerate().map(|(i, field)| Some((at + 4 * i, right(field)? as u32))).collect()
    }

    fn count(&self, at: usize, limit: usize, rng: &mut Rng) -> Drawn {
        let (count, limit) = (get(self.store, at), limit as u32);
        let word = match rng.below(7) {
            0 => count + 1,
            1 => count.wrapping_sub(1),
            2 => 0,
            3 => limit,
            4 => limit + 1,
            5 => u32::MAX,
            _ => rng.below(limit as usize) as u32,
        };
        Some((vec![(at, word)], if word > limit { Must::Break } else { Must::Either }))
    }

    /// The lost list may have any length, since its pointers may be anything.
    fn lost(&self, rng: &mut Rng) -> Drawn {
        let (words, must) = self.count(header::LOST, layout::LOST.limit, rng)?;
        Some((words, if must == Must::Either { Must::Stay } else { must }))
    }

    fn entry(&self, rng: &mut Rng) -> Drawn {
        let exprs = get(self.store, header::EXPRS);
        let word = rng.pick(&[0, exprs.saturating_sub(1), exprs, exprs + 1, u32::MAX]);
        let must = if word < exprs || exprs == 0 { Must::Stay } else { Must::Break };
        Some((vec![(header::ENTRY, word)], must))
    }

    fn spent(&self, rng: &mut Rng) -> Drawn {
        let limit = layout::SPENT_LIMIT as u32;
        let (word, must) =
            rng.pick(&[(limit, Must::Stay), (limit + 1, Must::Break), (u32::MAX, Must::Break), (0, Must::Either), (1, Must::Either)]);
        Some((vec![(header::SPENT, word)], must))
    }

    /// Bytes of texts at their bound, which depends on the spent bytes, or about the end of the last text.
    fn used(&self, rng: &mut Rng) -> Drawn {
        let length = |number: u32| get(self.store, layout::TEXTS + number as usize);
        let end = self.texts.iter().map(|&number| number + 4 + length(number)).max().unwrap_or(0);
        let now = get(self.store, header::SPENT);
        let spent = rng.pick(&[now, now, 8_192, now.max(1) - 1]);
        let bound = layout::TEXTS_UNSPENT as u32 + 5 * spent;
        let (word, must) = match rng.below(6) {
            0 => (bound, Must::Stay),
            1 => (bound + 1, Must::Break),
            2 => (u32::MAX, Must::Break),
            3 => (end.checked_sub(1)?, Must::Break),
            // What is in use may lie between the bounds of the two spent numbers.
            4 if spent >= now => (end, Must::Stay),
            _ => (rng.below(end as usize + 1) as u32, Must::Either),
        };
        let must = if spent < now && must == Must::Stay { Must::Either } else { must };
        Some((vec![(header::SPENT, spent), (header::TEXTS, word)], must))
    }

    /// Where a list begins: at or about the lists beside it, and for the row after the last at or about the limit.
    fn first(&self, lists: &Lists, rng: &mut Rng) -> Drawn {
        if lists.count == 0 {
            return None;
        }
        let row = row(lists.count, rng);
        let at = |row| lists.rows.word(row, 0);
        let low = if row == 0 { 0 } else { get(self.store, at(row - 1)) };
        let last = if row < lists.count { get(self.store, at(row + 1)) } else { lists.elements.limit as u32 };
        let high = if row == 0 { 0 } else { last };
        let here = get(self.store, at(row));
        let word = rng.pick(&[low, low.wrapping_sub(1), high, high + 1, here + 1, here.wrapping_sub(1), u32::MAX]);
        // Items that come to another expression, and elements that come into use, may be wrong there.
        let must = if low <= word && word <= high { Must::Either } else { Must::Break };
        Some((vec![(at(row), word)], must))
    }

    /// Where there are no rows, the row after the last is the first one, and nothing is in use.
    fn first_of_none(&self, rng: &mut Rng) -> Drawn {
        let empty: Vec<Lists> = self.sites.lists.iter().filter(|lists| lists.count == 0).copied().collect();
        let lists = pick(&empty, rng)?;
        let word = rng.pick(&[1, lists.elements.limit as u32, lists.elements.limit as u32 + 1, u32::MAX]);
        Some((vec![(lists.rows.at, word)], Must::Break))
    }

    /// A scope of definitions that becomes one for a With, whose list is not read any more; the names in it are in use
    /// all the same.
    fn with_list(&self, rng: &mut Rng) -> Drawn {
        let (exprs, names) = (get(self.store, header::EXPRS), get(self.store, header::NAMES));
        let scopes = get(self.store, header::SCOPES) as usize;
        let begin = |s| get(self.store, layout::SCOPES.word(s, 0)) as usize;
        let scope = pick(&(0..scopes).filter(|&s| begin(s) < begin(s + 1)).collect::<Vec<_>>(), rng)?;
        let item = rng.between(begin(scope), begin(scope + 1) - 1);
        let (name, must) = rng.pick(&[(names - 1, Must::Stay), (names, Must::Break), (u32::MAX, Must::Break)]);
        let must = if exprs == 0 { Must::Break } else { must };
        Some((vec![(layout::SCOPES.word(scope, 2), 1), (layout::ENTERED.word(item, 0), name)], must))
    }

    fn anything(&self, kind: &str, rng: &mut Rng) -> Drawn {
        stay(pick(self.sites.anything.get(kind)?, rng)?, rng)
    }

    /// A word of a free row. The first word of the row after the last is none where rows have lists.
    fn past(&self, rng: &mut Rng) -> Drawn {
        let rows = pick(&self.sites.rows, rng)?;
        let begin = rows.table.word(rows.used, usize::from(rows.lists));
        let end = rows.table.word(rows.table.limit + usize::from(rows.lists), 0);
        let words = (end - begin) / 4;
        let word = if rng.chance(50) { rng.below(words.min(8)) } else { rng.below(words) };
        if words == 0 {
            return None;
        }
        stay(begin + 4 * word, rng)
    }

    /// Any byte of a text's bytes, not of its length.
    fn text_byte(&self, rng: &mut Rng) -> Drawn {
        let number = pick(&self.texts, rng)? as usize;
        let length = get(self.store, layout::TEXTS + number) as usize;
        if length == 0 {
            return None;
        }
        self.byte(layout::TEXTS + number + 4 + rng.below(length), rng, Must::Stay)
    }

    fn past_texts(&self, rng: &mut Rng) -> Drawn {
        let used = layout::TEXTS + get(self.store, header::TEXTS) as usize;
        let near = (used + 16).min(layout::BYTES);
        let at = if rng.chance(50) { rng.between(used, near) } else { rng.between(used, layout::BYTES) };
        if at >= layout::BYTES {
            return None;
        }
        self.byte(at, rng, Must::Stay)
    }

    fn past_store(&self, rng: &mut Rng) -> Drawn {
        let more = self.store.len().checked_sub(layout::BYTES + 4)?;
        stay(layout::BYTES + rng.below(more + 1), rng)
    }

    /// A byte of the store, as often as not one of a row in use that is not all free.
    fn anywhere(&self, rng: &mut Rng) -> usize {
        let run = rng.pick(&self.runs());
        if run.is_empty() || rng.chance(50) {
            return rng.below(layout::BYTES);
        }
        run.start + rng.below(run.len())
    }

    /// Another byte in this place, as the word that it begins; the other three stay.
    fn byte(&self, at: usize, rng: &mut Rng, must: Must) -> Drawn {
        // Near the end of the store the word ends with the byte instead.
        let (begin, shift) = if at + 4 <= self.store.len() { (at, 0) } else { (at - 3, 24) };
        let drawn = rng.draw() as u8;
        let byte = rng.pick(&[0, 1, 0x7f, 0x80, 0xff, drawn]);
        let word = get(self.store, begin) & !(0xff << shift) | u32::from(byte) << shift;
        Some((vec![(begin, word)], must))
    }

    fn several(&self, rng: &mut Rng) -> Drawn {
        let mut words = Vec::new();
        for _ in 0..rng.between(2, 5) {
            let kind = rng.pick(KINDS);
            if !matches!(kind, "several at once" | "short store") {
                words.extend(self.words(kind, rng).map_or(Vec::new(), |(words, _)| words));
            }
        }
        Some((words, Must::Either))
    }

    /// Bytes of the rows in use of every table in which something is bounded, as runs.
    pub fn runs(&self) -> Vec<std::ops::Range<usize>> {
        let free = [layout::EXPR_POINTERS.at, layout::NAME_POINTERS.at, layout::LOST.at];
        let bounded = self.sites.rows.iter().filter(|rows| !free.contains(&rows.table.at));
        let run = |rows: &Rows| rows.table.at..rows.table.word(rows.used, usize::from(rows.lists));
        std::iter::once(0..header::END).chain(bounded.map(run)).collect()
    }
}

const SORT_WORDS: [(u32, Must); 34] = words_up_to(28);
const TAG_WORDS: [(u32, Must); 15] = words_up_to(9);

/// The numbers up to the last, and five that are above it.
const fn words_up_to<const N: usize>(last: u32) -> [(u32, Must); N] {
    let above = [last + 1, last + 2, 32, 0x100, u32::MAX];
    let mut words = [(0, Must::Either); N];
    let mut i = 0;
    while i < N {
        words[i] = if i as u32 <= last { (i as u32, Must::Either) } else { (above[i - last as usize - 1], Must::Break) };
        i += 1;
    }
    words
}

fn one(at: usize, (word, must): (u32, Must)) -> Drawn {
    Some((vec![(at, word)], must))
}

/// A word that may hold anything.
fn stay(at: usize, rng: &mut Rng) -> Drawn {
    Some((vec![(at, any(rng))], Must::Stay))
}

fn any(rng: &mut Rng) -> u32 {
    let (word, small) = (rng.draw() as u32, rng.below(40) as u32);
    rng.pick(&[0, small, word, u32::MAX])
}

/// One of the places, often the first or the last.
fn pick<T: Copy>(places: &[T], rng: &mut Rng) -> Option<T> {
    match rng.below(4) {
        0 => places.first().copied(),
        1 => places.last().copied(),
        _ => places.get(rng.below(places.len())).copied(),
    }
}

/// A row up to the one after the last, often the first, the last or the one after it.
fn row(count: usize, rng: &mut Rng) -> usize {
    let any = rng.between(0, count);
    rng.pick(&[0, count, count.saturating_sub(1), any, any])
}

fn shorter(rng: &mut Rng) -> usize {
    let any = rng.below(layout::BYTES);
    rng.pick(&[0, 1, 3, 4, 63, 64, layout::BYTES - 1, layout::BYTES - 4, any, any])
}
