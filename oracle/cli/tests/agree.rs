//! Two readings of every rule, held against each other on random sheets: `sheet::check` and `judge` on refusals, the
//! Rust and `reading` on what an accepted sheet comes to, and two books on scripts of calls.

use std::collections::{BTreeMap, BTreeSet};

use book::{locality, Book, Outcome};
use canon::{Answer, Facts, Reading};
use generate::{Preset, Rng};
use reading::Plain;
use sheet::Node;
use tix::Tix;

/// Both checkers on one sheet, which must say the same.
fn checked(bytes: &[u8], what: &str) -> Result<Vec<Node>, sheet::Refusal> {
    let forward = sheet::check::check(bytes);
    let least = judge::judge(bytes).map_err(|j| j.refusal);
    assert_eq!(forward, least, "{what}");
    forward
}

fn both_facts(nodes: &[Node], what: &str) -> Facts {
    let rust = Tix::new(nodes).facts();
    let plain = Plain::new(nodes).facts();
    if rust != plain {
        panic!("{what}\nthe Rust:\n{rust}\nthe second reading:\n{plain}");
    }
    rust
}

/// How many sheets of a preset are compared: the large ones cost most.
fn seeds(preset: Preset) -> u64 {
    match preset.name() {
        "tiny" | "small" => 4_000,
        "medium" => 600,
        "long_text" => 4,
        "large" => 25,
        _ => 40,
    }
}

#[test]
fn readings_agree_on_valid_sheets() {
    tix::with_big_stack(|| {
        let mut sorts = BTreeSet::new();
        for preset in Preset::ALL {
            for seed in 0..seeds(preset) {
                let what = format!("{} {seed}", preset.name());
                let bytes = sheet::write(&preset.sheet(seed));
                let nodes = checked(&bytes, &what).unwrap_or_else(|refusal| panic!("{what}: {refusal:?}"));
                let facts = both_facts(&nodes, &what);
                sorts.extend(facts.resolution.answers.values().map(Answer::number));
            }
        }
        assert_eq!(sorts.into_iter().collect::<Vec<_>>(), [0, 1, 2, 3]);
    });
}

#[test]
fn checkers_agree_on_damaged_sheets() {
    let mut numbers: BTreeMap<u32, usize> = BTreeMap::new();
    for seed in 0..20_000 {
        let (bytes, what) = generate::damaged(seed);
        match checked(&bytes, &format!("damaged {seed}: {what}")) {
            Ok(nodes) => {
                both_facts(&nodes, &format!("damaged {seed}: {what}"));
            }
            Err(refusal) => {
                *numbers.entry(refusal.number).or_default() += 1;
            }
        }
    }
    assert_eq!(numbers.keys().copied().collect::<Vec<_>>(), [1, 2, 3, 4, 5, 6, 7, 31, 32, 33]);
    [3, 31, 32, 33].iter().for_each(|number| assert!(numbers[number] >= 1_000, "{number}: {numbers:?}"));
}

#[test]
fn books_agree_on_scripts() {
    tix::with_big_stack(|| {
        let (mut refused, mut moved) = (BTreeSet::new(), 0);
        for seed in 0..600 {
            let preset = [Preset::Small, Preset::Tiny, Preset::Keys][seed as usize % 3];
            let nodes = preset.sheet(seed);
            let loaded = both_facts(&nodes, &format!("script {seed}"));
            let (mut rust, mut plain) = (Book::new(Tix::new(&nodes)), Book::new(Plain::new(&nodes)));
            let mut rng = Rng::new(seed);
            for turn in 0..100 {
                let before = plain.facts();
                let call = book::random::call(&mut rng, &plain, seed % 8 == 1);
                let outcome: Outcome = rust.call(&call);
                assert_eq!(outcome, plain.call(&call), "script {seed}, turn {turn}: {call}");
                assert_eq!(rust.held(), plain.held(), "script {seed}, turn {turn}: {call}");
                locality::check(&before, &call, &outcome).unwrap_or_else(|error| panic!("script {seed}, turn {turn}: {call}: {error}"));
                refused.insert(outcome.refused);
                moved += outcome.moved.len();
            }
            assert_eq!(rust.facts().scopes, loaded.scopes, "scopes stay as loaded");
        }
        assert_eq!(refused.into_iter().collect::<Vec<_>>(), [0, 8, 21, 24, 25, 26, 27, 34]);
        assert!(moved > 2_000, "the scripts moved {moved} answers, too few to show anything");
    });
}
