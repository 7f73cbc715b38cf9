//! Every sheet of every family is accepted, gives its nodes back and keeps what its family promises.

use generate::tree::Pointers;
use generate::{exactly, exactly_written, nests, over_long, valid, Preset, Rng, Shape};
use judge::{judge, Cause};
use sheet::{kind::*, Node};
use std::collections::BTreeSet;

/// The sheets of a family are accepted and come back as they were.
fn accepted(preset: Preset, seeds: u64) -> Vec<Vec<Node>> {
    let sheets: Vec<_> = (0..seeds).map(|seed| preset.sheet(seed)).collect();
    for (seed, nodes) in sheets.iter().enumerate() {
        let bytes = sheet::write(nodes);
        assert!(bytes.len() <= sheet::MAX_BYTES, "{preset:?} {seed}");
        match judge(&bytes) {
            Ok(back) => assert!(back == *nodes, "{preset:?} {seed} comes back otherwise"),
            Err(judgement) => panic!("{preset:?} {seed}: {judgement:?}"),
        }
    }
    sheets
}

/// The depth of each node; kids come after their parents.
fn depths(nodes: &[Node]) -> Vec<usize> {
    let mut depths = vec![1; nodes.len()];
    for (number, node) in nodes.iter().enumerate() {
        for &kid in node.kids.iter().flatten() {
            depths[kid as usize] = depths[number] + 1;
        }
    }
    depths
}

fn depth(nodes: &[Node]) -> usize {
    depths(nodes).into_iter().max().unwrap_or(0)
}

fn count(nodes: &[Node], kind: u8) -> usize {
    nodes.iter().filter(|node| node.kind == kind).count()
}

#[test]
fn tiny() {
    let sheets = accepted(Preset::Tiny, 3_000);
    assert!(sheets.iter().all(|nodes| nodes.len() <= 12));
    (1..=12).for_each(|size| assert!(sheets.iter().any(|nodes| nodes.len() == size), "{size}"));
}

#[test]
fn small() {
    assert!(accepted(Preset::Small, 2_000).iter().all(|nodes| nodes.len() <= 60));
}

#[test]
fn medium() {
    let sheets = accepted(Preset::Medium, 600);
    let mean = sheets.iter().map(Vec::len).sum::<usize>() / sheets.len();
    assert!(sheets.iter().all(|nodes| nodes.len() <= 400) && mean > 100, "{mean}");
}

#[test]
fn large() {
    let sheets = accepted(Preset::Large, 90);
    let full = sheets.iter().filter(|nodes| nodes.len() == 4_096).count();
    assert!(full >= 30 && sheets.iter().all(|nodes| nodes.len() <= 4_096), "{full}");
}

#[test]
fn keys() {
    assert!(accepted(Preset::Keys, 1_000).iter().all(|nodes| nodes.len() <= 200));
}

#[test]
fn deep() {
    let sheets = accepted(Preset::Deep, 4 * (nests().len() as u64 + 4));
    assert!(sheets.iter().all(|nodes| depth(nodes) == 256));
}

#[test]
fn wide() {
    let sheets = accepted(Preset::Wide, 18);
    let longest = |kind| sheets.iter().flatten().filter(|node| node.kind == kind).map(|node| node.kids.len()).max();
    assert_eq!((longest(INHERIT), longest(LIST), longest(STR)), (Some(4_094), Some(4_094), Some(4_094)));
    let texts: BTreeSet<&Vec<u8>> = sheets[0].iter().filter(|node| node.kind == IDENT).map(|node| &node.text).collect();
    assert_eq!(texts.len(), 4_093);
    assert!(longest(LET_IN) >= Some(1_301) && longest(PATTERN) >= Some(2_000) && longest(ATTR_SET) >= Some(1_300));
}

#[test]
fn the_zoo_has_every_kind() {
    let nodes = sheet::short::parse(generate::ZOO).expect("the notation is in order");
    assert_eq!(judge(&sheet::write(&nodes)), Ok(nodes.clone()));
    (1..=33).for_each(|kind| assert!(count(&nodes, kind) > 0, "{kind}"));
}

#[test]
fn merging() {
    let sheets = accepted(Preset::Merging, 30);
    // Each set but the innermost goes into the nested set of the path before it, which has one level for each attribute
    // but the last.
    let nested = |nodes: &Vec<Node>| {
        nodes.iter().filter(|node| node.kind == ATTRPATH).map(|path| path.kids.len()).filter(|&kids| kids == 15).sum::<usize>()
    };
    let deepest = sheets.iter().map(nested).max();
    assert!(deepest >= Some(1_650), "{deepest:?}");
}

#[test]
fn withs() {
    let sheets = accepted(Preset::Withs, 30);
    assert!(sheets.iter().any(|nodes| count(nodes, WITH) == 253 && nodes.len() == 4_096 && depth(nodes) == 256));
}

#[test]
fn long_text() {
    let sheets = accepted(Preset::LongText, 14);
    let kinds: Vec<u8> = sheets.iter().flatten().filter(|node| node.text.len() > 500_000).map(|node| node.kind).collect();
    [IDENT, LITERAL_PART, PATH, INTEGER].iter().for_each(|kind| assert!(kinds.contains(kind), "{kind}"));
    assert!(sheets.iter().any(|nodes| sheet::write(nodes).len() == sheet::MAX_BYTES));
    for bytes in [200, 201, 65_535, 65_536, 65_537, sheet::MAX_BYTES] {
        assert_eq!(sheet::write(&exactly(bytes)).len(), bytes);
        assert!(sheet::write(&exactly(bytes)) == exactly_written(bytes));
    }
    assert_eq!(judge(&over_long()).map_err(|judgement| (judgement.refusal.number, judgement.cause)), Err((1, Cause::TooLong)));
    assert_eq!(over_long().len(), sheet::MAX_BYTES + 1);
}

#[test]
fn shapes_are_kept_exactly() {
    for seed in 0..3_000 {
        let mut rng = Rng::new(seed);
        let nodes = rng.between(1, 120);
        let shape =
            Shape { nodes, depth: rng.between(3, 30), names: 3, absent: 20, pointers: Pointers::Mixed, exact: true, sets: seed % 4 == 0 };
        let sheet = valid(seed, &shape);
        assert_eq!(sheet.len(), nodes, "{seed}");
        assert!(depth(&sheet) <= shape.depth, "{seed}");
        assert!(judge(&sheet::write(&sheet)).is_ok(), "{seed}");
    }
    for depth in [1, 2] {
        let shape = Shape { nodes: 50, depth, names: 3, absent: 20, pointers: Pointers::Small, exact: true, sets: false };
        assert!((0..200).all(|seed| self::depth(&valid(seed, &shape)) <= depth));
    }
}

/// The same seed gives the same bytes on every machine: a sum over them that is written down here.
#[test]
fn seeds_stay_what_they_are() {
    let sum =
        |bytes: &[u8]| bytes.iter().fold(0xcbf2_9ce4_8422_2325_u64, |sum, &byte| (sum ^ u64::from(byte)).wrapping_mul(0x0100_0000_01b3));
    let presets = [Preset::Tiny, Preset::Small, Preset::Medium, Preset::Large, Preset::Deep, Preset::Wide, Preset::Merging, Preset::Withs];
    let mut bytes: Vec<u8> = presets.iter().flat_map(|preset| sheet::write(&preset.sheet(7))).collect();
    bytes.extend((0..200).flat_map(|seed| generate::structural(seed).0));
    assert_eq!(sum(&bytes), 586_162_342_288_078_775);
    assert_eq!(Preset::Medium.sheet(11), Preset::Medium.sheet(11));
    assert_ne!(Preset::Medium.sheet(11), Preset::Medium.sheet(12));
}
