//! What a change tells: exactly the References whose answers differ, ascending, in a buffer that has to hold them (34).

mod common;

use book::{Call, REPLY_BYTES, ROOM_BYTES};
use common::{book, run};

/// `a: [ b a b ]`
const MIXED: &str = r#"21(11(28(18"a"),13(18"b",18"a",18"b")))"#;
/// `{x, y}: [x y]`
const FIELDS: &str = r#"21(11(29(-,31(18"x",-),31(18"y",-)),13(18"x",18"y")))"#;
/// `x@{x}: x`
const HIDDEN: &str = r#"21(11(29(30(18"x"),31(18"x",-)),18"x"))"#;

/// The line of one change of a freshly loaded tree, in a buffer that is long enough.
fn moved(notation: &str, change: &str) -> String {
    run(&mut book(notation), &format!("{change} buffer=64 reply=20")).remove(0)
}

#[test]
fn old_and_new_bearers_are_told_in_one_order() {
    assert_eq!(moved(MIXED, "set-name 0 text=62"), "changed=1 length=3 list=0,1,2");
    assert_eq!(moved(MIXED, "set-name 0 text=63"), "changed=1 length=1 list=1");
}

#[test]
fn an_answer_that_stays_the_same_is_not_told() {
    // `with a; b`: e1 has the same With under any text that is no builtin.
    let with = r#"21(4(18"a",18"b"))"#;
    assert_eq!(moved(with, "set-ref 1 text=63"), "changed=1 length=0 list=");
    assert_eq!(moved(with, "set-ref 1 text=6d6170"), "changed=1 length=1 list=1");
}

#[test]
fn the_order_of_entering_decides_what_moves() {
    assert_eq!(moved(FIELDS, "set-name 0 text=79"), "changed=1 length=1 list=0");
    assert_eq!(moved(FIELDS, "set-name 1 text=78"), "changed=1 length=2 list=0,1");
    assert_eq!(moved(HIDDEN, "set-name 0 text=71"), "changed=1 length=0 list=");
    assert_eq!(moved(HIDDEN, "set-name 1 text=71"), "changed=1 length=1 list=0");
}

#[test]
fn a_reference_that_is_not_walked_spends_room_and_never_moves() {
    // `x: { a = x; a = 2; }`: e0 was replaced.
    let mut book = book(r#"21(11(28(18"x"),16(25(23(18"a"),18"x"),25(23(18"a"),9"2"))))"#);
    let lines = run(
        &mut book,
        "set-ref 0 text=6d6170 buffer=0 reply=20\nset-ref 0 text=78 buffer=0 reply=20\nset-name 0 text=79 buffer=0 reply=20",
    );
    assert_eq!(lines, ["changed=1 length=0 list="; 3]);
    assert_eq!(book.held().room_spent, 5);
}

#[test]
fn a_parameter_that_no_scope_holds_moves_none() {
    // The left side of a BinOp without an operator is not walked, and n0 is its parameter.
    let unwalked = r#"21(14(11(28(18"x"),18"x"),-))"#;
    assert_eq!(book::locality::holding_scope(&book(unwalked).facts().scopes, 0), None);
    assert_eq!(moved(unwalked, "set-name 0 text=71"), "changed=1 length=0 list=");
    assert_eq!(moved(unwalked, "set-ref 0 text=71"), "changed=1 length=0 list=");
}

#[test]
fn four_bytes_for_each_number_are_enough_and_one_less_is_34() {
    let mut book = book(MIXED);
    let loaded = book.held();
    let short = "set-name 0 text=62 buffer=0 reply=20\nset-name 0 text=62 buffer=8 reply=20\nset-name 0 text=62 buffer=11 reply=20";
    assert_eq!(run(&mut book, short), ["refused=34 at=3"; 3]);
    assert_eq!(book.held(), loaded);
    assert_eq!(run(&mut book, "set-name 0 text=62 buffer=12 reply=20"), ["changed=1 length=3 list=0,1,2"]);
    assert_eq!(run(&mut book, "set-ref 1 text=62 buffer=3 reply=20"), ["refused=34 at=1"]);
    assert_eq!(book.held().room_spent, 1);
}

#[test]
fn an_equal_text_wants_no_buffer() {
    let mut book = book(MIXED);
    assert_eq!(
        run(&mut book, "set-name 0 text=61 buffer=0 reply=20\nset-ref 0 text=62 buffer=0 reply=20"),
        ["changed=0 length=0 list="; 2]
    );
}

#[test]
fn all_other_refusals_of_a_change_come_before_34() {
    let mut book = book(MIXED);
    let change = |number, text: Vec<u8>| Call::ChangeName { number, text, buffer: 0, reply: REPLY_BYTES };
    // A text that nothing bears moves one answer the first time, and none afterwards.
    for turn in 0..ROOM_BYTES / 255 {
        let call = Call::ChangeName { number: 0, text: vec![turn as u8; 255], buffer: 4, reply: REPLY_BYTES };
        assert_eq!(book.call(&call).refused, 0);
    }
    assert_eq!(book.call(&change(0, vec![b'b'; 256])).refused, 8);
    assert_eq!(book.call(&change(1, vec![b'b'; 256])).refused, 24);
    assert_eq!(book.call(&change(0, b"b".to_vec())).refused, 34);
    // The room is spent but for its last byte: a text of two is 27, one byte still 34.
    let left = ROOM_BYTES - book.held().room_spent;
    assert_eq!(book.call(&change(0, vec![b'q'; left - 1])).refused, 0);
    assert_eq!(book.call(&Call::ChangeReference { number: 1, text: b"bb".to_vec(), buffer: 0, reply: REPLY_BYTES }).refused, 27);
    let refused = book.call(&change(0, b"b".to_vec()));
    assert_eq!((refused.refused, refused.place, refused.list.len(), refused.moved.len()), (34, 2, 0, 0));
    let reference = book.call(&Call::ChangeReference { number: 3, text: b"b".to_vec(), buffer: 0, reply: REPLY_BYTES });
    assert_eq!((reference.refused, reference.place), (25, 3));
}
