//! The five calls: every refusal, long lists, and changes that are followed.

mod common;

use common::{sheet, store};
use generate::{Preset, Rng};
use lang_ast::{Answer, Builtin, ExprId, NameId, Reason, Refusal, Store, CHANGE_ROOM, STORE_BYTES, TEXT_LIMIT};

/// `x: x`
const IDENTITY: &str = r#"21(11(28(18"x"),18"x"))"#;

fn refused<T: std::fmt::Debug>(outcome: Result<T, Refusal>) -> (u32, u32) {
    let refusal = outcome.expect_err("this is to be refused");
    assert!(refusal.reason().is_some(), "{refusal}");
    (refusal.number, refusal.place)
}

fn load(bytes: &[u8]) -> (u32, u32) {
    refused(Store::load(bytes))
}

#[test]
fn sheets_are_refused_with_1_to_7_and_31_to_33() {
    let deep = |parens: usize| format!("21({}10{})", "15(".repeat(parens), ")".repeat(parens));
    assert_eq!(load(&vec![b'x'; 1_048_577]), (1, 0));
    assert_eq!(load(b""), (2, 0));
    assert_eq!(load(b"nodes=1\nkind=21\nfrom"), (2, 16));
    assert_eq!(load(b"nodes=1\nkind=20\n"), (3, 8));
    assert_eq!(load(b"nodes=1\nkind=21\nfrom=0\nto=0\nflag=1\n"), (31, 28));
    assert_eq!(load(b"nodes=1\nkind=21\nfrom=0\nto=0\nflag=0\nkids=1\n"), (3, 35));
    assert_eq!(load(b"nodes=1\nkind=21\nfrom=0\nto=0\nflag=0\nkids=-\ntext=78\n"), (32, 42));
    assert_eq!(load(b"nodes=1\nkind=21\nfrom=4294967296\nto=0\n"), (33, 16));
    assert_eq!(load(b"nodes=1\nkind=21\nfrom=1\nto=0\n"), (33, 23));
    assert_eq!(load(b"nodes=1\nkind=21\nfrom=1\nto=4294967296\n"), (33, 23));
    assert_eq!(load(&sheet("21(18!0\"x\")")), (32, 81));
    assert_eq!(load(&sheet("21()")), (4, 0));
    assert_eq!(load(&sheet(r#"21(4(18"a"))"#)), (4, 1));
    assert_eq!(load(&sheet("21(23())")), (5, 0));
    assert_eq!(load(&sheet("21(13(-))")), (5, 1));
    assert!(Store::load(&sheet(&deep(254))).is_ok());
    assert_eq!(load(&sheet(&deep(255))), (6, 255));
    let mut unmet = sheet("21(10)");
    unmet.splice(0..7, *b"nodes=3");
    unmet.extend(b"kind=10\nfrom=0\nto=0\nflag=0\nkids=\ntext=\n");
    assert_eq!(load(&unmet), (7, 2));
}

#[test]
fn texts_are_refused_with_8() {
    let mut store = store(IDENTITY);
    let (longest, too_long) = (vec![b'y'; TEXT_LIMIT], vec![b'y'; TEXT_LIMIT + 1]);
    assert_eq!(refused(store.change_name(NameId(0), &too_long)), (8, 255));
    assert_eq!(refused(store.change_reference(ExprId(0), &too_long)), (8, 255));
    assert_eq!(store.change_name(NameId(0), &longest), Ok(vec![ExprId(0)]));
    assert_eq!(store.change_reference(ExprId(0), &longest), Ok(vec![ExprId(0)]));
}

/// All four calls on a store that they refuse.
fn refusals(store: &mut Store) -> [(u32, u32); 4] {
    [
        refused(store.ask_reference(ExprId(0))),
        refused(store.ask_name(NameId(0))),
        refused(store.change_reference(ExprId(0), b"y")),
        refused(store.change_name(NameId(0), b"y")),
    ]
}

#[test]
fn stores_are_refused_with_21_to_23() {
    let mut short = store(IDENTITY).into_bytes();
    short.truncate(STORE_BYTES - 1);
    assert_eq!(refusals(&mut Store::from_bytes(short.clone())), [(21, 0); 4]);
    assert_eq!(refused(Store::from_bytes(short).reload(&sheet(IDENTITY))), (21, 0));
    assert_eq!(refusals(&mut Store::from_bytes(Vec::new())), [(21, 0); 4]);
    assert_eq!(refusals(&mut Store::from_bytes(vec![255; STORE_BYTES])), [(22, 0); 4]);
    assert_eq!(refusals(&mut Store::empty()), [(23, 0); 4]);
    assert_eq!(Store::default().check(), Err(Refusal { number: 23, place: 0 }));
    assert_eq!(store(IDENTITY).check(), Ok(()));
}

#[test]
fn numbers_are_refused_with_24_and_25() {
    let mut store = store(IDENTITY);
    assert_eq!(refused(store.ask_reference(ExprId(2))), (24, 2));
    assert_eq!(refused(store.ask_name(NameId(1))), (24, 1));
    assert_eq!(refused(store.change_reference(ExprId(u32::MAX), b"y")), (24, u32::MAX));
    assert_eq!(refused(store.change_name(NameId(1), b"y")), (24, 1));
    assert_eq!(refused(store.ask_reference(ExprId(1))), (25, 1));
    assert_eq!(refused(store.change_reference(ExprId(1), b"y")), (25, 1));
}

#[test]
fn the_change_room_is_refused_with_27_and_free_again_after_a_load() {
    let mut store = store(IDENTITY);
    let text = |number: u8, length: u32| vec![number; length as usize];
    for number in 0..32 {
        assert!(store.change_name(NameId(0), &text(number, 255)).is_ok());
    }
    assert_eq!((store.room_spent(), store.room_left()), (32 * 255, CHANGE_ROOM - 32 * 255));
    assert_eq!(refused(store.change_name(NameId(0), &text(99, store.room_left() + 1))), (27, 0));
    assert_eq!(refused(store.change_reference(ExprId(0), &text(99, store.room_left() + 1))), (27, 0));
    assert_eq!(store.change_reference(ExprId(0), &text(98, store.room_left())), Ok(vec![]));
    assert_eq!(store.room_left(), 0);
    assert_eq!(Refusal { number: 27, place: 0 }.reason(), Some(Reason::RoomSpent));
    // An equal text and an empty one take no room.
    assert_eq!(store.change_name(NameId(0), &text(31, 255)), Ok(vec![]));
    assert_eq!(store.change_name(NameId(0), b""), Ok(vec![]));
    assert_eq!(refused(store.change_name(NameId(0), b"y")), (27, 0));
    assert_eq!(store.reload(&sheet(IDENTITY)), Ok(()));
    assert_eq!(store.room_left(), CHANGE_ROOM);
    assert_eq!(store.change_name(NameId(0), b"y"), Ok(vec![ExprId(0)]));
}

#[test]
fn withs_that_no_first_buffer_holds_are_listed() {
    for withs in [1, 31, 32, 33, 60, 200] {
        let notation = format!(r#"21({}18"q"{})"#, r#"4(18"a","#.repeat(withs), ")".repeat(withs));
        let store = store(&notation);
        let (reference, _) = store.references().find(|(_, text)| text == b"q").expect("q is there");
        let Ok(Answer::Withs(list)) = store.ask_reference(reference) else { panic!("{withs} Withs are around q") };
        assert_eq!(list.len(), withs);
        assert!(list.windows(2).all(|pair| pair[0] < pair[1]), "innermost first: {list:?}");
        assert_eq!(store.kept_answer(reference), Some(Answer::Withs(list)));
    }
}

#[test]
fn references_that_no_first_buffer_holds_are_listed() {
    for count in [0, 31, 32, 33, 3_000] {
        let items = vec![r#"18"x""#; count].join(",");
        let store = store(&format!(r#"21(11(28(18"x"),13({items})))"#));
        let listed = store.ask_name(NameId(0)).expect("there is a name");
        assert_eq!(listed, store.references().map(|(expr, _)| expr).collect::<Vec<_>>());
        assert_eq!(listed.len(), count);
        assert_eq!(store.kept_references(NameId(0)), Some(listed));
    }
}

/// What a change moves, whatever the length of its first buffer.
#[test]
fn what_moves_is_listed_where_no_first_buffer_holds_it() {
    for count in [0, 31, 32, 33, 3_000] {
        let items = vec![r#"18"x""#; count].join(",");
        let mut store = store(&format!(r#"21(11(28(18"x"),13({items})))"#));
        let uses: Vec<ExprId> = store.references().map(|(expr, _)| expr).collect();
        let (spent, room) = (store.room_spent(), b"long".len() as u32);
        assert_eq!(store.change_name(NameId(0), b"long"), Ok(uses.clone()));
        // The change that is made again is one change.
        assert_eq!(store.room_spent(), spent + room);
        assert_eq!(store.change_name(NameId(0), b"long"), Ok(vec![]));
        assert_eq!(store.change_name(NameId(0), b"x"), Ok(uses));
    }
}

/// The points of the rule: bearers of both texts in one order, and only where the meaning differs.
#[test]
fn what_moves_is_what_means_something_else() {
    let changed = |notation: &str, name: u32, text: &[u8]| {
        let moved = store(notation).change_name(NameId(name), text).expect("there is room");
        moved.iter().map(|expr| expr.number()).collect::<Vec<_>>()
    };
    assert_eq!(changed(r#"21(11(28(18"a"),13(18"b",18"a",18"b")))"#, 0, b"b"), [0, 1, 2]);
    let fields = r#"21(11(29(-,31(18"x",-),31(18"y",-)),13(18"x",18"y")))"#;
    assert_eq!((changed(fields, 0, b"y"), changed(fields, 1, b"x")), (vec![0], vec![0, 1]));
    let hidden = r#"21(11(29(30(18"x"),31(18"x",-)),18"x"))"#;
    assert_eq!((changed(hidden, 0, b"q"), changed(hidden, 1, b"q")), (vec![], vec![0]));
    let mut with = store(r#"21(4(18"a",18"b"))"#);
    assert_eq!(with.change_reference(ExprId(1), b"c"), Ok(vec![]));
    assert_eq!(with.change_reference(ExprId(1), b"map"), Ok(vec![ExprId(1)]));
    // Replaced, and so never looked up: it spends room and moves nothing.
    let mut replaced = store(r#"21(11(28(18"x"),16(25(23(18"a"),18"x"),25(23(18"a"),9"2"))))"#);
    assert_eq!((replaced.change_reference(ExprId(0), b"map"), replaced.room_spent()), (Ok(vec![]), 3));
}

#[test]
fn builtins_are_answered_by_their_names() {
    for builtin in Builtin::all() {
        let store = store(&format!(r#"21(18"{builtin}")"#));
        assert_eq!(store.ask_reference(ExprId(0)), Ok(Answer::Builtin(builtin)));
        assert_eq!(store.kept_answer(ExprId(0)), Some(Answer::Builtin(builtin)));
    }
}

/// Renamed, renamed back and followed again, with a definition around that shows while the inner one has another name.
#[test]
fn a_name_that_is_renamed_and_back_is_found_again() {
    let mut store = store(r#"21(11(28(18"x"),11(28(18"x"),13(18"x",18"y"))))"#);
    let [x, y] = [0, 1].map(|index| store.references().nth(index).expect("two References").0);
    let found = |store: &Store, reference| store.ask_reference(reference).expect("a Reference").definition();
    let inner = found(&store, x).expect("x is defined");
    let outer = store.names().find(|&name| name != inner).expect("there are two names");
    assert_eq!((found(&store, y), store.ask_name(outer)), (None, Ok(vec![])));

    assert_eq!(store.change_name(inner, b"y"), Ok(vec![x, y]));
    assert_eq!((found(&store, x), found(&store, y)), (Some(outer), Some(inner)));
    assert_eq!((store.ask_name(outer), store.ask_name(inner)), (Ok(vec![x]), Ok(vec![y])));

    assert_eq!(store.change_name(inner, b"x"), Ok(vec![x, y]));
    assert_eq!((found(&store, x), found(&store, y)), (Some(inner), None));
    assert_eq!((store.ask_name(outer), store.ask_name(inner)), (Ok(vec![]), Ok(vec![x])));
    assert_eq!(store.name(inner).map(|name| name.text), Some(b"x".as_slice()));
    assert_eq!(store.room_spent(), 2);
}

#[test]
fn a_clone_is_independent() {
    let mut first = store(IDENTITY);
    let mut second = first.clone();
    first.change_name(NameId(0), b"y").expect("there is room");
    assert_eq!(first.ask_reference(ExprId(0)), Ok(Answer::None));
    assert_eq!(second.ask_reference(ExprId(0)), Ok(Answer::Definition(NameId(0))));
    second.reload(&sheet("21(10)")).expect("a sheet");
    assert_eq!((first.name_count(), second.name_count()), (1, 0));
}

#[test]
fn a_refused_reload_or_change_leaves_every_byte() {
    let mut store = store(IDENTITY);
    store.change_name(NameId(0), b"y").expect("there is room");
    let before = store.as_bytes().to_vec();
    assert_eq!(refused(store.reload(b"nodes=1\n")), (2, 8));
    assert_eq!(refused(store.reload(&sheet("21(13(-))"))), (5, 1));
    assert_eq!(refused(store.change_name(NameId(0), &[b'z'; 256])), (8, 255));
    assert_eq!(refused(store.change_reference(ExprId(1), b"z")), (25, 1));
    assert!(store.as_bytes() == before);
}

/// A sheet of one thread's store is loaded in another with the stack that threads have.
#[test]
fn stores_go_from_thread_to_thread() {
    let deep = sheet(&format!("21({}10{})", "15(".repeat(254), ")".repeat(254)));
    let store = std::thread::spawn(move || Store::load(&deep)).join().expect("no panic").expect("a sheet");
    assert_eq!(store.expr_count(), 1);
    assert!(format!("{store:?}").len() < 100);
}

/// What all names' uses are, and what all References mean.
fn meanings(store: &Store) -> (Vec<Option<Vec<ExprId>>>, Vec<Option<Answer>>) {
    let uses = store.names().map(|name| store.kept_references(name)).collect();
    (uses, store.exprs().map(|expr| store.kept_answer(expr)).collect())
}

/// The References that mean something else.
fn differing(before: &Store, after: &Store) -> Vec<ExprId> {
    before.references().map(|(expr, _)| expr).filter(|&expr| before.kept_answer(expr) != after.kept_answer(expr)).collect()
}

/// The doc of `change_name`: a rename after which every name's uses are what they were left every meaning as it was.
#[test]
fn a_rename_that_leaves_the_uses_leaves_all_meanings() {
    let rng = &mut Rng::new(8);
    let (mut safe, mut unsafe_ones) = (0, 0);
    for seed in 0..400 {
        let before =
            Store::load(&sheet::write(&[Preset::Tiny, Preset::Small, Preset::Keys][seed as usize % 3].sheet(seed))).expect("a sheet");
        let mut texts: Vec<Vec<u8>> = before.references().map(|(_, text)| text.to_vec()).collect();
        texts.extend(before.names().filter_map(|name| Some(before.name(name)?.text.to_vec())));
        texts.extend([b"map".to_vec(), b"nobodys".to_vec()]);
        for name in before.names().take(12) {
            let (text, mut after) = (rng.pick(&texts), before.clone());
            let mut moved = after.change_name(name, &text).expect("there is room");
            assert_eq!(moved, differing(&before, &after), "seed {seed}, {name}");
            for used in before.ask_name(name).expect("a name") {
                moved.extend(after.change_reference(used, &text).expect("there is room"));
            }
            assert!(differing(&before, &after).iter().all(|expr| moved.contains(expr)), "seed {seed}, {name}");
            let ((old_uses, old_answers), (uses, answers)) = (meanings(&before), meanings(&after));
            assert_eq!(old_uses == uses, old_answers == answers, "seed {seed}, {name}");
            *(if old_uses == uses { &mut safe } else { &mut unsafe_ones }) += 1;
        }
    }
    assert!(safe > 300 && unsafe_ones > 50, "{safe} safe, {unsafe_ones} not");
}

/// What the doc of `change_name` says that a rename does not look at: a key that its let then has twice.
#[test]
fn a_rename_does_not_look_for_keys_that_are_there() {
    let of = |key: &str| format!(r#"21(12(-,25(23(18"{key}"),9"1"),25(23(18"y"),9"2")))"#);
    let mut renamed = store(&of("x"));
    let x = renamed.names().find(|&name| renamed.name(name).is_some_and(|name| name.text == b"x")).expect("x is there");
    let before = meanings(&renamed);
    renamed.change_name(x, b"y").expect("there is room");
    assert_eq!((meanings(&renamed), renamed.diagnostics().count()), (before, 0));
    assert_eq!(store(&of("y")).diagnostics().count(), 1);
}

#[test]
fn one_store_is_asked_by_several_threads() {
    let items = vec![r#"18"x""#; 1_000].join(",");
    let store = store(&format!(r#"21(11(28(18"x"),13({items})))"#));
    let uses: Vec<ExprId> = store.references().map(|(expr, _)| expr).collect();
    std::thread::scope(|scope| {
        for first in 0..4 {
            let (store, uses) = (&store, &uses);
            scope.spawn(move || {
                for &used in uses.iter().skip(first).step_by(50) {
                    assert_eq!(store.ask_reference(used), Ok(Answer::Definition(NameId(0))));
                    assert_eq!(store.ask_name(NameId(0)).as_ref(), Ok(uses));
                }
            });
        }
    });
}

/// A long text comes with a sheet, and a new one is refused.
#[test]
fn a_text_of_a_sheet_may_be_longer_than_a_new_one() {
    let long = "y".repeat(TEXT_LIMIT + 1);
    let mut store = store(&format!(r#"21(11(28(18"{long}"),18"{long}"))"#));
    assert_eq!(store.ask_name(NameId(0)), Ok(vec![ExprId(0)]));
    assert_eq!(store.name(NameId(0)).map(|name| name.text), Some(long.as_bytes()));
    assert_eq!(refused(store.change_name(NameId(0), &[b'z'; TEXT_LIMIT + 1])), (8, 255));
}

/// docs/SHEET.md: the newlines before the place of a refusal 2, 3 or 31 to 33, and one, are the number of its line.
#[test]
fn the_place_of_a_refusal_gives_its_line() {
    let line = |bytes: &[u8]| {
        let (number, place) = load(bytes);
        assert!(matches!(number, 2 | 3 | 31..=33), "refused with {number}");
        bytes[..place as usize].iter().filter(|&&byte| byte == b'\n').count() + 1
    };
    let whole = sheet(IDENTITY);
    let lines: Vec<&[u8]> = whole.split_inclusive(|&byte| byte == b'\n').collect();
    for wrong in 0..lines.len() {
        let with = |text: &[u8]| [&lines[..wrong].concat(), text, &lines[wrong + 1..].concat()].concat();
        assert_eq!(line(&with(b"none\n")), wrong + 1);
        assert_eq!(line(&lines[..wrong].concat()), wrong + 1);
        let key = lines[wrong].split_inclusive(|&byte| byte == b'=').next().expect("a key");
        assert_eq!(line(&with(&[key, b"99999999999\n"].concat())), wrong + 1);
    }
    assert_eq!(line(&[&whole, &b"more"[..]].concat()), lines.len() + 1);
}
