//! The book's checks, limits and changes, one after the other, as scripts.

mod common;

use book::{script, Call, REPLY_BYTES, ROOM_BYTES};
use common::{book, run};

/// `x@{x}: x`
const HIDDEN: &str = r#"21(11(29(30(18"x"),31(18"x",-)),18"x"))"#;
/// `let a = 1; b = 2; in a`: e2 is the body, n0 a and n1 b.
const LET: &str = r#"21(12(18"a",25(23(18"a"),9"1"),25(23(18"b"),9"2")))"#;
/// `with a; with b; c`
const WITHS: &str = r#"21(4(18"a",4(18"b",18"c")))"#;

#[test]
fn line_d_rename_rename_back_follow_again() {
    let mut book = book(LET);
    let loaded = book.held();
    let lines = run(
        &mut book,
        "ask-ref 2 buffer=0 reply=20
         set-name 0 text=63 buffer=4 reply=20   # a becomes c
         ask-ref 2 buffer=0 reply=20
         ask-name 0 buffer=0 reply=20
         set-name 1 text=61 buffer=4 reply=20   # b becomes a
         ask-ref 2 buffer=0 reply=20
         set-name 1 text=62 buffer=4 reply=20
         set-name 0 text=61 buffer=4 reply=20   # and back
         ask-ref 2 buffer=0 reply=20
         ask-name 0 buffer=4 reply=20",
    );
    let expected = [
        "answer=1 to=0 length=0 list=",
        "changed=1 length=1 list=2",
        "answer=0 to= length=0 list=",
        "length=0 list=",
        "changed=1 length=1 list=2",
        "answer=1 to=1 length=0 list=",
        "changed=1 length=1 list=2",
        "changed=1 length=1 list=2",
        "answer=1 to=0 length=0 list=",
        "length=1 list=2",
    ];
    assert_eq!(lines, expected);
    let after = book.held();
    assert_eq!((after.resolution, after.name_texts, after.room_spent), (loaded.resolution, loaded.name_texts, 4));
}

#[test]
fn the_hidden_bind_answers_once_the_field_is_changed() {
    let mut book = book(HIDDEN);
    let lines = run(
        &mut book,
        "ask-ref 0 buffer=0 reply=20
         set-name 1 text=79 buffer=4 reply=20
         ask-ref 0 buffer=0 reply=20
         set-name 1 text=78 buffer=4 reply=20
         ask-ref 0 buffer=0 reply=20
         set-name 0 text=79 buffer=4 reply=20   # hidden: moves none",
    );
    let expected = [
        "answer=1 to=1 length=0 list=",
        "changed=1 length=1 list=0",
        "answer=1 to=0 length=0 list=",
        "changed=1 length=1 list=0",
        "answer=1 to=1 length=0 list=",
        "changed=1 length=0 list=",
    ];
    assert_eq!(lines, expected);
}

#[test]
fn a_reference_becomes_a_builtin_and_a_with_list_returns() {
    let mut book = book(WITHS);
    let lines = run(
        &mut book,
        "ask-ref 2 buffer=8 reply=20
         ask-ref 2 buffer=7 reply=20
         set-ref 2 text=6d6170 buffer=4 reply=20
         ask-ref 2 buffer=0 reply=20
         set-ref 2 text=63 buffer=4 reply=20
         ask-ref 2 buffer=9 reply=20
         ask-ref 0 buffer=0 reply=20",
    );
    let expected = [
        "answer=3 to=3,4 length=2 list=3,4",
        "refused=26 at=2",
        "changed=1 length=1 list=2",
        "answer=2 to=14 length=0 list=",
        "changed=1 length=1 list=2",
        "answer=3 to=3,4 length=2 list=3,4",
        "answer=0 to= length=0 list=",
    ];
    assert_eq!(lines, expected);
}

#[test]
fn the_order_of_checks() {
    let mut book = book(LET);
    let long = "61".repeat(256);
    let before = book.held();
    let lines = run(
        &mut book,
        &format!(
            "ask-ref 99 buffer=0 reply=19
             set-name 99 text={long} buffer=0 reply=0
             ask-ref 99 buffer=0 reply=20
             ask-ref 4294967295 buffer=0 reply=20
             ask-ref 0 buffer=0 reply=20
             ask-ref 4 buffer=0 reply=20
             ask-name 2 buffer=0 reply=20
             set-name 2 text={long} buffer=4 reply=20
             set-ref 0 text={long} buffer=4 reply=20
             set-ref 2 text={long} buffer=4 reply=20
             set-name 0 text={long} buffer=4 reply=20
             ask-name 0 buffer=3 reply=20"
        ),
    );
    let expected = [
        "refused=21 at=0",
        "refused=21 at=0",
        "refused=24 at=99",
        "refused=24 at=4294967295",
        "refused=25 at=0",
        "refused=24 at=4",
        "refused=24 at=2",
        "refused=24 at=2",
        "refused=25 at=0",
        "refused=8 at=255",
        "refused=8 at=255",
        "refused=26 at=1",
    ];
    assert_eq!(lines, expected);
    assert_eq!(book.held(), before);
}

fn change(text: Vec<u8>) -> Call {
    Call::ChangeName { number: 0, text, buffer: 4, reply: REPLY_BYTES }
}

#[test]
fn a_text_of_255_bytes_and_of_256() {
    let mut book = book(LET);
    assert_eq!(book.call(&change(vec![b'x'; 255])).refused, 0);
    assert_eq!(book.held().room_spent, 255);
    let refused = book.call(&change(vec![b'x'; 256]));
    assert_eq!((refused.refused, refused.place), (8, 255));
}

#[test]
fn a_loaded_text_of_256_bytes_set_to_itself_is_8() {
    let long = "x".repeat(256);
    let mut book = book(&format!(r#"21(11(28(18"{long}"),18"{long}"))"#));
    assert_eq!(book.call(&Call::AskReference { number: 0, buffer: 0, reply: 20 }).answer, Some(canon::Answer::Definition(0)));
    let name = book.call(&change(long.clone().into_bytes()));
    let reference = book.call(&Call::ChangeReference { number: 0, text: long.into_bytes(), buffer: 0, reply: 20 });
    assert_eq!([name.refused, name.place, reference.refused, reference.place], [8, 255, 8, 255]);
}

/// Spends the room but for 32 bytes, in 32 changes of 255.
fn nearly_spent() -> book::Book<reading::Plain> {
    let mut book = book(LET);
    for i in 0..32 {
        assert_eq!(book.call(&change(vec![i; 255])).changed, Some(true));
    }
    assert_eq!(book.held().room_spent, ROOM_BYTES - 32);
    book
}

#[test]
fn room_of_8192_and_8193() {
    let mut book = nearly_spent();
    let refused = book.call(&change(vec![b'y'; 33]));
    assert_eq!((refused.refused, refused.place, refused.moved.len()), (27, 0, 0));
    assert_eq!(book.held().name_texts[0], vec![31; 255]);
    assert_eq!(book.call(&change(vec![b'y'; 32])).refused, 0);
    assert_eq!(book.held().room_spent, ROOM_BYTES);
    assert_eq!(book.call(&change(vec![b'z'])).refused, 27);
    // References and names spend the same room.
    let reference = |text: &[u8]| Call::ChangeReference { number: 2, text: text.to_vec(), buffer: 4, reply: 20 };
    assert_eq!(book.call(&reference(b"z")).refused, 27);
    assert_eq!(book.call(&reference(b"a")).changed, Some(false));
}

#[test]
fn equal_and_empty_texts_cost_no_room() {
    let mut book = nearly_spent();
    assert_eq!(book.call(&change(vec![b'y'; 32])).refused, 0);
    assert_eq!(book.call(&change(vec![b'y'; 32])).changed, Some(false));
    assert_eq!(book.call(&change(Vec::new())).changed, Some(true));
    assert_eq!(book.call(&change(Vec::new())).changed, Some(false));
    assert_eq!(book.held().room_spent, ROOM_BYTES);
    assert_eq!(book.call(&change(vec![b'y'])).refused, 27);
    // A text longer than all the room that is left is still 8 first.
    assert_eq!(book.call(&change(vec![b'y'; 256])).refused, 8);
}

#[test]
fn a_name_that_no_scope_holds_moves_none() {
    // `x: { a = x; }`: a is n1.
    let mut book = book(r#"21(11(28(18"x"),16(25(23(18"a"),18"x"))))"#);
    assert_eq!(book::locality::holding_scope(&book.facts().scopes, 1), None);
    assert_eq!(
        run(&mut book, "set-name 1 text=78 buffer=4 reply=20\nask-name 1 buffer=0 reply=20"),
        ["changed=1 length=0 list=", "length=0 list="]
    );
}

#[test]
fn what_is_held_follows_the_changes() {
    let mut book = book(HIDDEN);
    run(&mut book, "set-ref 0 text=6d6170 buffer=4 reply=20\nset-name 0 text= buffer=4 reply=20");
    let held = book.held();
    assert_eq!(held.reference_texts.into_iter().collect::<Vec<_>>(), [(0, b"map".to_vec())]);
    assert_eq!(held.name_texts, [b"".to_vec(), b"x".to_vec()]);
    assert_eq!((held.resolution.answers[&0].clone(), held.room_spent), (canon::Answer::Builtin(14), 3));
    assert!(held.resolution.references.iter().all(Vec::is_empty));
}

#[test]
fn scripts_are_read_and_shown() {
    let text =
        "ask-ref 7 buffer=12 reply=20\nask-name 0 buffer=0 reply=0\nset-ref 4294967295 text= buffer=4 reply=20\nset-name 3 text=00ff buffer=4 reply=20";
    let calls = script::parse(&format!("# a comment\n\n  {text} # another\n")).expect("a script");
    assert_eq!(calls.iter().map(Call::to_string).collect::<Vec<_>>().join("\n"), text);
    assert_eq!(script::parse(""), Ok(Vec::new()));
}

#[test]
fn errors_of_scripts_say_where_and_what() {
    let cases = [
        ("ask", "`ask` is no call: ask-ref, ask-name, set-ref or set-name is wanted"),
        ("ask-ref", "the number is missing"),
        ("ask-ref x", "`x` is no number below 4294967296"),
        ("ask-ref 4294967296", "`4294967296` is no number below 4294967296"),
        ("ask-ref +1", "`+1` is no number below 4294967296"),
        ("ask-ref 1", "buffer= is missing"),
        ("ask-ref 1 reply=20", "`reply=20` stands where buffer= is wanted"),
        ("ask-ref 1 buffer= reply=20", "`` is no length in bytes for buffer"),
        ("ask-ref 1 buffer=1 reply=-1", "`-1` is no length in bytes for reply"),
        ("ask-ref 1 buffer=1 reply=99999999999999999999", "`99999999999999999999` is no length in bytes for reply"),
        ("set-name 1 text=6 buffer=4 reply=20", "`6` has an odd number of hex digits"),
        ("set-name 1 text=é reply=20", "`é` is no hex text"),
        ("set-name 1 text=61", "buffer= is missing"),
        ("set-name 1 text=61 buffer=4", "reply= is missing"),
        ("set-name 1 text=61 reply=20", "`reply=20` stands where buffer= is wanted"),
        ("set-name 1 text=61 buffer=4 reply=20 more", "`more` follows a finished call"),
    ];
    for (line, wrong) in cases {
        let error = script::parse(&format!("# first\n{line}")).expect_err(line);
        assert_eq!((error.line, error.wrong.as_str()), (2, wrong));
    }
    assert_eq!(script::parse("x").expect_err("no call").to_string().split(':').next(), Some("line 1"));
}
