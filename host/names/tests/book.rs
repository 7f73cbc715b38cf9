//! `names run` against the oracle's plain book, fed the same calls.

mod common;

use book::{Book, Call};
use common::{file, printed, root};
use generate::{Preset, Rng};
use tix::Tix;

/// What the book says of each call. It also says whether a change's text was another, which the host is not told.
fn said(book: &mut Book<Tix>, calls: &[Call]) -> String {
    let line = |call| match book.call(call) {
        outcome if outcome.changed.is_some() => format!("{outcome}\n").replace("changed=0", "accepted").replace("changed=1", "accepted"),
        outcome => format!("{outcome}\n"),
    };
    calls.iter().map(line).collect()
}

#[test]
fn line_d_is_answered_as_by_the_book() {
    let (sheet, script) = ("examples/line-d-rename-and-back.sheet", "examples/line-d-rename-and-back.script");
    let nodes = sheet::check::check(&std::fs::read(root().join(sheet)).unwrap()).unwrap();
    let calls = book::script::parse(&std::fs::read_to_string(root().join(script)).unwrap()).unwrap();
    assert_eq!(calls.len(), 17);
    assert_eq!(printed(&["run", sheet, script], b""), said(&mut Book::new(Tix::new(&nodes)), &calls));
}

/// Calls that hit and miss, with short buffers and replies, long texts and a spent room among them.
#[test]
fn random_calls_are_answered_as_by_the_book() {
    for seed in 0..60 {
        let nodes = [Preset::Small, Preset::Keys, Preset::Medium][seed as usize % 3].sheet(seed);
        let mut rng = Rng::new(seed);
        let mut book = Book::new(Tix::new(&nodes));
        let (mut script, mut expected) = (String::new(), String::new());
        for _ in 0..60 {
            let call = book::random::call(&mut rng, &book, seed % 8 == 1);
            script += &format!("{call}\n");
            expected += &said(&mut book, &[call]);
        }
        let path = file("random.script", script.as_bytes());
        assert_eq!(printed(&["run", "-", &path], &sheet::write(&nodes)), expected, "seed {seed}\n{script}");
    }
}
