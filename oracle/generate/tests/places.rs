//! Every place with every kind: taken exactly where docs/RULES.md says so, refused with 5 at the parent elsewhere.

mod common;

use common::{in_context, slots, smallest, takes, Slot};
use generate::tree::{Pointers, Tree};
use generate::Rng;
use judge::{judge, Cause};

fn written(tree: &Tree) -> Vec<u8> {
    sheet::write(&tree.nodes(&mut Rng::new(0), Pointers::Nested))
}

/// A node of the slot's kind with this kid in the slot, behind so many right items where it is a list's; in a sheet,
/// with its number.
fn placed(slot: Slot, items_before: usize, kid: Option<Tree>) -> (Vec<u8>, usize) {
    let mut parent = smallest(slot.kind);
    let item = takes(slot.letter)[0];
    if slot.item {
        parent.kids.extend((0..items_before).map(|_| Some(smallest(item))));
        parent.kids.push(kid);
    } else {
        parent.kids[slot.index] = kid;
    }
    let (tree, number) = in_context(parent);
    (written(&tree), number)
}

#[test]
fn every_kind_in_every_place() {
    for slot in slots() {
        for kind in 1..=33 {
            for before in if slot.item { vec![0, 1, 7] } else { vec![0] } {
                let (sheet, number) = placed(slot, before, Some(smallest(kind)));
                match judge(&sheet) {
                    Ok(_) => assert!(takes(slot.letter).contains(&kind), "{slot:?} takes {kind}"),
                    Err(judgement) => {
                        assert!(!takes(slot.letter).contains(&kind), "{slot:?} refuses {kind}");
                        assert_eq!((judgement.refusal.number, judgement.refusal.place as usize), (5, number), "{slot:?} {kind}");
                        assert!(matches!(judgement.cause, Cause::KidKind(_)), "{slot:?} {kind}");
                    }
                }
            }
        }
    }
}

#[test]
fn absent_in_every_place() {
    for slot in slots() {
        let (sheet, number) = placed(slot, 1, None);
        match judge(&sheet) {
            Ok(_) => assert!(!slot.item, "{slot:?}"),
            Err(judgement) => {
                assert_eq!((judgement.refusal.number, judgement.refusal.place as usize), (5, number), "{slot:?}");
                assert!(slot.item && matches!(judgement.cause, Cause::AbsentItem(_)), "{slot:?}");
            }
        }
    }
}

/// One kid fewer than counted and one more than there can be: 4 at the node itself.
#[test]
fn the_number_of_kids_of_every_kind() {
    for kind in 1..=33 {
        let refusal = |tree: Tree| {
            let (tree, number) = in_context(tree);
            judge(&written(&tree))
                .err()
                .map(|judgement| (judgement.refusal.number, judgement.refusal.place as usize == number, judgement.cause))
        };
        assert_eq!(refusal(smallest(kind)), None, "{kind}");
        let mut fewer = smallest(kind);
        if fewer.kids.pop().is_some() {
            assert_eq!(refusal(fewer), Some((4, true, Cause::TooFewKids(kind))), "{kind}");
        }
        let mut more = smallest(kind);
        more.kids.push(None);
        let listed = common::slots_of(kind).last().is_some_and(|slot| slot.item);
        let expected = if listed { 5 } else { 4 };
        assert_eq!(refusal(more).map(|found| (found.0, found.1)), Some((expected, true)), "{kind}");
    }
}
