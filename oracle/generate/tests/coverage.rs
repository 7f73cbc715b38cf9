//! What the random sheets reach: every cause of refusal, every kind, every place with all that it takes.

mod common;

use common::{slot, slots, takes};
use generate::{damaged, structural, Preset};
use judge::{judge, Cause, Judgement};
use sheet::{kind::*, Node};
use std::collections::{BTreeMap, BTreeSet};

/// The refusals of a wrong value.
const VALUES: [u32; 4] = [3, 31, 32, 33];

/// How often each cause comes up, and the relative place of the nodes that 4 to 7 name: first, in between, last.
struct Tally {
    causes: BTreeMap<Cause, usize>,
    numbers: BTreeMap<u32, usize>,
    damages: BTreeMap<&'static str, BTreeSet<u32>>,
    accepted: usize,
}

fn tally(source: fn(u64) -> (Vec<u8>, &'static str), seeds: u64) -> Tally {
    let mut tally = Tally { causes: BTreeMap::new(), numbers: BTreeMap::new(), damages: BTreeMap::new(), accepted: 0 };
    for (bytes, what) in (0..seeds).map(source) {
        let number = match judge(&bytes) {
            Ok(_) => {
                tally.accepted += 1;
                0
            }
            Err(judgement) => {
                *tally.causes.entry(judgement.cause).or_default() += 1;
                *tally.numbers.entry(judgement.refusal.number).or_default() += 1;
                judgement.refusal.number
            }
        };
        tally.damages.entry(what).or_default().insert(number);
    }
    tally
}

fn missing(tally: &Tally, wanted: impl Iterator<Item = Cause>) -> Vec<Cause> {
    wanted.filter(|cause| !tally.causes.contains_key(cause)).collect()
}

#[test]
fn damage_reaches_every_cause() {
    let tally = tally(damaged, 40_000);
    assert_eq!(missing(&tally, Cause::all().into_iter()), []);
    assert_eq!(tally.numbers.keys().copied().collect::<Vec<_>>(), [1, 2, 3, 4, 5, 6, 7, 31, 32, 33]);
    tally.numbers.values().for_each(|&count| assert!(count >= 100, "{:?}", tally.numbers));
    VALUES.iter().for_each(|number| assert!(tally.numbers[number] >= 2_000, "{number}: {:?}", tally.numbers));
    // So that short runs meet every rule of a flag, a text and a range too.
    let values = tally.causes.iter().filter(|(cause, _)| VALUES.contains(&cause.number()));
    values.for_each(|(cause, &count)| assert!(count >= 100, "{cause:?}: {count}"));
    // Some damage leaves a valid sheet, but no kind of damage always does.
    assert!(tally.accepted < 10_000, "{}", tally.accepted);
    for (what, numbers) in &tally.damages {
        assert!(numbers.iter().any(|&number| number > 0), "{what} is never refused");
    }
}

/// Of two wrong lines the first decides. Each of 2, 3, 31, 32 and 33 stands before each other one.
#[test]
fn wrong_lines_meet_each_other() {
    let mut met = BTreeSet::new();
    for (bytes, _) in (0..10_000).map(damaged) {
        let violations = judge::violations(&bytes);
        let Some(least) = violations.iter().min_by_key(|violation| violation.order) else { continue };
        met.extend(violations.iter().map(|violation| [least, violation].map(|one| one.judgement.refusal.number)));
    }
    for (first, later) in [2, 3, 31, 32, 33].into_iter().flat_map(|first| [2, 3, 31, 32, 33].map(|later| (first, later))) {
        assert!(met.contains(&[first, later]), "{first} before {later}");
    }
}

#[test]
fn damage_to_nodes_reaches_every_wrong_value_and_4_to_7() {
    let tally = tally(structural, 30_000);
    let unreachable = [Cause::KindRange, Cause::FromRange, Cause::ToRange];
    let wanted =
        Cause::all().into_iter().filter(|cause| !matches!(cause, Cause::TooLong | Cause::Trailing) && !unreachable.contains(cause));
    let wanted =
        wanted.filter(|cause| !matches!(cause, Cause::MissingLine(_) | Cause::WrongKey(_) | Cause::BadForm(_) | Cause::NoLineEnd(_)));
    assert_eq!(missing(&tally, wanted), []);
    assert_eq!(tally.numbers.keys().copied().collect::<Vec<_>>(), [3, 4, 5, 6, 7, 31, 32, 33]);
    VALUES.iter().for_each(|number| assert!(tally.numbers[number] >= 1_000, "{number}: {:?}", tally.numbers));
}

/// Where a refusal's place lies: at the first line or node, at the last one, past the end or in between.
fn spot(bytes: &[u8], number: u32, place: usize) -> &'static str {
    let whole = bytes.len().saturating_sub(1);
    let last_line = bytes[..whole].iter().rposition(|&byte| byte == b'\n').map_or(0, |at| at + 1);
    let last_node = (bytes.split(|&byte| byte == b'\n').count() / 6).saturating_sub(1);
    let (last, end) = if (4..=7).contains(&number) { (last_node, last_node + 1) } else { (last_line, bytes.len()) };
    match place {
        0 => "first",
        place if place == last => "last",
        place if place >= end => "end",
        _ => "between",
    }
}

#[test]
fn damage_strikes_everywhere() {
    let mut spots = BTreeSet::new();
    for (bytes, _) in (0..10_000).map(damaged) {
        if let Err(Judgement { refusal, .. }) = judge(&bytes) {
            spots.insert((refusal.number, spot(&bytes, refusal.number, refusal.place as usize)));
        }
    }
    for number in [2, 4, 5] {
        ["first", "between", "last"].iter().for_each(|&spot| assert!(spots.contains(&(number, spot)), "{number} {spot}"));
    }
    let lines = [(2, "end"), (3, "first"), (3, "between"), (31, "between"), (32, "between"), (32, "last"), (33, "between")];
    for wanted in lines.into_iter().chain([(6, "between"), (7, "between"), (7, "last")]) {
        assert!(spots.contains(&wanted), "{wanted:?}");
    }
}

/// Lines are read forward: with 2 or a wrong value nothing behind the line that decides matters.
#[test]
fn what_follows_the_deciding_line_does_not_matter() {
    let mut compared = 0;
    for seed in 0..15_000 {
        let (bytes, what) = damaged(seed);
        let Err(judgement) = judge(&bytes) else { continue };
        if bytes.len() > 1_000_000 {
            continue;
        }
        let place = judgement.refusal.place as usize;
        let end = bytes[place..].iter().position(|&byte| byte == b'\n').map(|length| place + length + 1);
        let Some(end) = end.filter(|_| judgement.refusal.number == 2 || VALUES.contains(&judgement.refusal.number)) else {
            continue;
        };
        for follows in [&b""[..], b"\n", b"kind=", b"\0\xff", b"nodes=1\nkind=21\n"] {
            let other = [&bytes[..end], follows].concat();
            assert_eq!(judge(&other).err(), Some(judgement), "{seed}: {what}");
        }
        compared += 1;
    }
    assert!(compared > 5_000, "{compared}");
}

/// One more node at the end is met by nobody: 4, 5 and 6 stay as they are, and a valid sheet is refused with 7.
#[test]
fn a_node_more_does_not_matter_to_the_walk() {
    for seed in 0..10_000 {
        let (bytes, what) = structural(seed);
        let first = bytes.iter().position(|&byte| byte == b'\n').unwrap_or(0);
        let count = String::from_utf8_lossy(&bytes[6..first]).parse::<usize>().unwrap_or(0);
        if count >= sheet::MAX_NODES {
            continue;
        }
        let head = format!("nodes={}", count + 1).into_bytes();
        let more = [&head, &bytes[first..], b"kind=20\nfrom=0\nto=0\nflag=0\nkids=\ntext=\n"].concat();
        let after = judge(&more).map_err(|judgement| (judgement.refusal.number, judgement.refusal.place));
        match judge(&bytes).map_err(|judgement| (judgement.refusal.number, judgement.refusal.place)) {
            Ok(_) => assert_eq!(after, Err((7, count as u32)), "{seed}: {what}"),
            Err(before) if (4..=7).contains(&before.0) => assert_eq!(after, Err(before), "{seed}: {what}"),
            // A kid that was out of range may be in range now.
            Err(_) => {}
        }
    }
}

fn grown() -> impl Iterator<Item = Vec<Node>> {
    let tiny = (0..3_000).map(|seed| Preset::Tiny.sheet(seed));
    let small = (0..3_000).map(|seed| Preset::Small.sheet(seed));
    tiny.chain(small).chain((0..1_000).map(|seed| Preset::Medium.sheet(seed)))
}

#[test]
fn every_place_is_met_with_all_that_it_takes() {
    let mut met = BTreeSet::new();
    let mut kinds = BTreeSet::new();
    for node in grown().flat_map(|nodes| with_kid_kinds(&nodes)) {
        kinds.insert(node.0);
        for (index, &kid) in node.1.iter().enumerate() {
            met.insert((slot(node.0, index), kid));
        }
    }
    assert_eq!(kinds, (1..=33).collect());
    let mut missing = Vec::new();
    for slot in slots() {
        let absent = (!slot.item).then_some(None);
        let wanted = takes(slot.letter).into_iter().map(Some).chain(absent);
        missing.extend(wanted.filter(|&kid| !met.contains(&(Some(slot), kid))).map(|kid| (slot, kid)));
    }
    assert_eq!(missing, []);
}

/// Each node's kind with the kinds of its kids.
fn with_kid_kinds(nodes: &[Node]) -> Vec<(u8, Vec<Option<u8>>)> {
    let kind = |kid: &Option<u32>| kid.map(|kid| nodes[kid as usize].kind);
    nodes.iter().map(|node| (node.kind, node.kids.iter().map(kind).collect())).collect()
}

/// Flags, lengths, texts and pointers that should come up.
#[test]
fn values_at_their_ends_are_met() {
    let mut flags = BTreeSet::new();
    let mut lengths = BTreeSet::new();
    let mut integers = BTreeSet::new();
    let mut floats = BTreeSet::new();
    let (mut twins, mut ends) = (0, 0);
    for nodes in grown() {
        let mut pointers = BTreeSet::new();
        for node in &nodes {
            flags.insert((node.kind, node.flag));
            lengths.extend((node.kind == ATTRPATH).then_some(node.kids.len()));
            integers.extend((node.kind == INTEGER).then(|| node.text.clone()));
            floats.extend((node.kind == FLOAT).then(|| node.text.clone()));
            twins += usize::from(!pointers.insert((node.kind, node.from, node.to)));
            ends += usize::from(node.to == u32::MAX);
        }
    }
    assert_eq!(lengths, (0..=16).collect());
    for (kind, most) in [(FLOAT, 1), (BIN_OP, 15), (ATTR_SET, 1), (UNARY_OP, 2), (IDENT, 1), (PATTERN, 1)] {
        (0..=most).for_each(|flag| assert!(flags.contains(&(kind, flag)), "{kind} {flag}"));
    }
    for digits in ["9223372036854775807", "9223372036854775808", "0", "00", "18446744073709551616"] {
        assert!(integers.contains(digits.as_bytes()), "{digits}");
    }
    assert!(integers.iter().any(|digits| digits.starts_with(b"00") && digits.ends_with(b"9223372036854775807")));
    assert!(floats.contains(&0x7ff0_0000_0000_0000_u64.to_be_bytes()[..]) && floats.contains(&[][..]));
    assert!(twins > 1_000 && ends > 100, "{twins} {ends}");
}
