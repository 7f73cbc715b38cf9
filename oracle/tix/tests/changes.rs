//! Setting texts: the answers follow, the scopes stay as loaded.

mod common;

use canon::{Answer, Expr, Facts, Reading};
use common::{answers, definition, tix};
use generate::{Preset, Rng};
use tix::{with_big_stack, Tix};

/// Few texts, so that many are equal; some are builtins.
const TEXTS: [&[u8]; 7] = [b"a", b"b", b"x", b"", b"\xe9", b"map", b"null"];

#[test]
fn a_changed_name_uncovers_the_hidden_one() {
    let mut tix = tix(r#"21(11(29(30(18"x"),31(18"x",-)),18"x"))"#);
    assert_eq!(tix.resolution().answers[&0], definition(1));
    tix.set_name(1, b"y");
    assert_eq!(tix.resolution().answers[&0], definition(0));
    assert_eq!(tix.resolution().references, [vec![0], vec![]]);
    tix.set_reference(0, b"y");
    assert_eq!(tix.resolution().answers[&0], definition(1));
    tix.set_reference(0, b"map");
    assert_eq!(tix.resolution().answers[&0], Answer::Builtin(14));
}

#[test]
fn a_change_sets_one_text_and_nothing_else() {
    // A plain inherit makes a Reference and a name of one node; each has a text of its own.
    let mut tix = tix(r#"21(12(18"x",26(-,18"x")))"#);
    tix.set_reference(0, b"\xffmap");
    let facts = tix.facts();
    assert_eq!((&facts.module.exprs[0], &facts.module.names[0].text[..]), (&Expr::Reference(b"\xffmap".to_vec()), &b"x"[..]));
    tix.set_name(0, b"q");
    let facts = tix.facts();
    assert_eq!(facts.module.names[0].text, b"q");
    assert_eq!(answers(&facts), [(0, Answer::None), (1, Answer::None)]);
}

#[test]
fn names_keep_the_order_of_entering() {
    // a, then b; renamed to one text, the last entered answers.
    let mut tix = tix(r#"21(12(18"c",25(23(18"b"),-),25(23(18"a"),-)))"#);
    tix.set_name(0, b"c");
    tix.set_name(1, b"c");
    // n0 is b, allocated first, and n1 is a; in key order a is entered before b.
    assert_eq!(tix.resolution().answers[&2], definition(0));
}

/// Sets some texts, and says what facts hold afterwards.
fn changed(tix: &mut Tix, loaded: &Facts, rng: &mut Rng) -> Facts {
    let references: Vec<u32> = loaded.resolution.answers.keys().copied().collect();
    for _ in 0..5 {
        if !loaded.module.names.is_empty() {
            tix.set_name(rng.below(loaded.module.names.len()) as u32, rng.pick(&TEXTS));
        }
        if !references.is_empty() {
            tix.set_reference(rng.pick(&references), rng.pick(&TEXTS));
        }
    }
    tix.facts()
}

#[test]
fn scopes_stay_as_loaded() {
    with_big_stack(|| {
        let mut rng = Rng::new(1);
        for round in 0..2_000 {
            let nodes = Preset::Small.sheet(round);
            let mut tix = Tix::new(&nodes);
            let loaded = tix.facts();
            let after = changed(&mut tix, &loaded, &mut rng);
            assert_eq!(after.scopes, loaded.scopes, "round {round}");
            assert_eq!(after.module.diagnostics, loaded.module.diagnostics, "round {round}");
            assert_eq!(after.module.exprs_by_pointer, loaded.module.exprs_by_pointer, "round {round}");
            assert_eq!(after.resolution, tix.resolution(), "round {round}");
        }
    });
}
