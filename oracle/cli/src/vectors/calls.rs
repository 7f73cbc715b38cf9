//! Calls with their refusals, and the change room.

use book::{Call, REPLY_BYTES, ROOM_BYTES, TEXT_BYTES};

use super::{Vector, MOST_LENT, MOST_REPLY};

pub fn ask_reference(number: u32, buffer: usize) -> Call {
    Call::AskReference { number, buffer, reply: REPLY_BYTES }
}

pub fn ask_name(number: u32, buffer: usize) -> Call {
    Call::AskName { number, buffer, reply: REPLY_BYTES }
}

/// A change in a buffer that is long enough wherever the buffer is not the point.
pub fn change_reference(number: u32, text: &[u8]) -> Call {
    change_reference_in(LONG_ENOUGH, number, text)
}

pub fn change_name(number: u32, text: &[u8]) -> Call {
    change_name_in(LONG_ENOUGH, number, text)
}

fn change_reference_in(buffer: usize, number: u32, text: &[u8]) -> Call {
    Call::ChangeReference { number, text: text.to_vec(), buffer, reply: REPLY_BYTES }
}

fn change_name_in(buffer: usize, number: u32, text: &[u8]) -> Call {
    Call::ChangeName { number, text: text.to_vec(), buffer, reply: REPLY_BYTES }
}

const LONG_ENOUGH: usize = 64;

const LAMBDA: &str = r#"21(11(28(18"x"),18"x"))"#;

/// Every refusal of a call, and the call that just escapes it.
pub fn refused() -> Result<Vec<Vector>, String> {
    let two_withs = r#"21(4(18"a",4(18"b",18"c")))"#;
    let many_uses = r#"21(11(28(18"x"),13(18"x",18"x",18"y",18"x")))"#;
    Ok(vec![
        Vector::of_tree("calls: 21, replies of 0 to 32 bytes", LAMBDA)?.with(replies()),
        Vector::of_tree("calls: 24, no such number", LAMBDA)?.with(no_such_number()),
        Vector::of_tree("calls: 24, a sheet without a name", "21(-)")?.with(vec![ask_name(0, 0), change_name(0, b""), ask_reference(1, 0)]),
        Vector::of_tree("calls: 25, no Reference", two_withs)?.with(no_reference()),
        Vector::of_tree("calls: 26, buffers about a list of two Withs", two_withs)?.with(
            [0, 3, 4, 7, 8, 9, 12, MOST_LENT].into_iter().flat_map(|buffer| [ask_reference(2, buffer), ask_reference(1, buffer)]).collect(),
        ),
        Vector::of_tree("calls: 26, buffers about a list of three uses", many_uses)?
            .with([0, 4, 8, 11, 12, 13, MOST_LENT].into_iter().map(|buffer| ask_name(0, buffer)).chain([ask_reference(2, 0)]).collect()),
        Vector::of_tree("calls: 8, texts of 256 bytes and of the most that is lent", LAMBDA)?.with(too_long()),
        Vector::of_tree("calls: texts of any bytes", LAMBDA)?.with(any_bytes()),
    ])
}

/// 21 before all else, and nothing of such a call is done.
fn replies() -> Vec<Call> {
    let too_short = |reply| {
        [
            Call::AskReference { number: 0, buffer: 0, reply },
            Call::AskName { number: 0, buffer: 4, reply },
            Call::ChangeReference { number: 0, text: b"y".to_vec(), buffer: 4, reply },
            Call::ChangeName { number: 0, text: b"y".to_vec(), buffer: 4, reply },
            Call::AskReference { number: u32::MAX, buffer: 0, reply },
            Call::ChangeName { number: 9, text: vec![b'l'; TEXT_BYTES + 1], buffer: 0, reply },
        ]
    };
    [0, 1, REPLY_BYTES - 1, REPLY_BYTES, REPLY_BYTES + 1, MOST_REPLY].into_iter().flat_map(too_short).collect()
}

/// Numbers at and over the counts, and some that are right in their low bits alone; 24 comes before 8.
fn no_such_number() -> Vec<Call> {
    let numbers = [1, 2, 256, 65_536, 1 << 31, u32::MAX - 1, u32::MAX];
    let all = |number| [ask_reference(number, 64), ask_name(number, 64), change_reference(number, b"y"), change_name(number, b"y")];
    let mut calls: Vec<Call> = numbers.into_iter().flat_map(all).collect();
    calls.extend([change_name(1, &[b'l'; TEXT_BYTES + 1]), change_reference(2, &[b'l'; TEXT_BYTES + 1]), ask_name(1, 0)]);
    calls
}

/// The Withs themselves are e3 and e4. 25 comes before 8, and 24 has no name here to refuse.
fn no_reference() -> Vec<Call> {
    let mut calls: Vec<Call> = (0..6).map(|number| ask_reference(number, 64)).collect();
    calls.extend([change_reference(3, b"x"), change_reference(4, &[b'l'; TEXT_BYTES + 1]), change_reference(5, b"x"), change_name(0, b"")]);
    calls
}

fn too_long() -> Vec<Call> {
    vec![
        change_name(0, &[b'l'; TEXT_BYTES + 1]),
        change_name(0, &[b'l'; MOST_LENT]),
        change_reference(0, &[b'l'; TEXT_BYTES + 1]),
        ask_reference(0, 0),
        change_reference(0, &[b'l'; TEXT_BYTES]),
        ask_reference(0, 0),
    ]
}

/// Line ends, zeros and bytes from 128 on are bytes as others are.
fn any_bytes() -> Vec<Call> {
    let texts: [&[u8]; 6] = [b"\n", b"\0", b"\xff\xfe", b"x\n", b"call=0\n", b""];
    texts.into_iter().flat_map(|text| [change_name(0, text), ask_reference(0, 0), change_reference(0, text), ask_name(0, 4)]).collect()
}

/// What a change tells, in buffers of all lengths about the list's.
pub fn moved() -> Result<Vec<Vector>, String> {
    let mixed = r#"21(11(28(18"a"),13(18"b",18"a",18"b")))"#;
    let fields = r#"21(11(29(-,31(18"x",-),31(18"y",-)),13(18"x",18"y")))"#;
    let hidden = r#"21(11(29(30(18"x"),31(18"x",-)),18"x"))"#;
    let replaced = r#"21(11(28(18"x"),16(25(23(18"a"),18"x"),25(23(18"a"),9"2"))))"#;
    let unheld = r#"21(14(11(28(18"x"),18"x"),-))"#;
    let lengths = [0, 3, 4, 8, 11, 12, 13, MOST_LENT];
    let away_and_back = |buffer| [change_name_in(buffer, 0, b"b"), ask_name(0, 64), change_name_in(buffer, 0, b"a"), ask_name(0, 64)];
    let order = [change_name(0, b"y"), change_name(0, b"x"), change_name(1, b"x"), change_name(1, b"y")];
    let long = [b'l'; TEXT_BYTES + 1];
    let last = [change_name_in(0, 1, b"b"), change_reference_in(0, 3, b"b"), change_name_in(0, 0, &long), change_name_in(0, 0, b"b")];
    let unseen = [change_reference_in(0, 0, b"map"), change_name_in(0, 0, b"map"), change_name_in(0, 0, b"x")];
    Ok(vec![
        Vector::of_tree("moved: a: [ b a b ], old and new bearers; 34 in buffers about a list of three", mixed)?
            .with(lengths.into_iter().flat_map(away_and_back).collect()),
        Vector::of_tree("moved: with a; b, only where the answer differs", r#"21(4(18"a",18"b"))"#)?.with(in_no_buffer()),
        Vector::of_tree("moved: {x, y}: [x y], the order of entering decides", fields)?.with(order.to_vec()),
        Vector::of_tree("moved: x@{x}: x, the hidden parameter moves none", hidden)?.with(vec![
            change_name_in(0, 0, b"q"),
            change_name_in(3, 1, b"q"),
            change_name_in(4, 1, b"q"),
            change_name_in(0, 1, b"q"),
        ]),
        Vector::of_tree("moved: x: { a = x; a = 2; }, a Reference that is not walked spends room", replaced)?.with(unseen.to_vec()),
        Vector::of_tree("moved: a parameter that no scope holds", unheld)?.with(unseen.to_vec()),
        Vector::of_tree("moved: 34 after 24, 25 and 8", mixed)?.with(last.to_vec()),
    ])
}

/// The Reference under the With has the same list for every text but a builtin's; equal texts, in no buffer at all.
fn in_no_buffer() -> Vec<Call> {
    let texts: [&[u8]; 6] = [b"c", b"c", b"map", b"", b"", b"b"];
    texts.into_iter().flat_map(|text| [change_reference_in(0, 1, text), change_reference_in(0, 0, text), ask_reference(1, 4)]).collect()
}

/// 32 changes of 255 bytes, the name's and the Reference's in turn, which leave 32 bytes of room.
fn nearly_spent() -> Vec<Call> {
    let text = |turn: usize| [b'a' + (turn / 2 % 26) as u8; TEXT_BYTES];
    let change = |turn| if turn % 2 == 0 { change_name(0, &text(turn)) } else { change_reference(0, &text(turn)) };
    (0..ROOM_BYTES / TEXT_BYTES).map(change).collect()
}

/// 27: the room to its last byte, one byte more, and what costs none.
pub fn room() -> Result<Vec<Vector>, String> {
    let left = ROOM_BYTES % TEXT_BYTES;
    let asked = [ask_reference(0, 0), ask_name(0, 4)];
    let last = vec![b'z'; left];
    let more = vec![b'z'; left + 1];
    let exactly = [change_name(0, &last), change_reference(0, b"q"), change_name(0, b"q"), change_name(0, &last)];
    let free = [change_reference(0, b""), change_name(0, b""), change_name(0, b""), change_name(0, &last), change_name(0, b"q")];
    let long = [change_name(0, &[b'l'; TEXT_BYTES + 1]), change_reference(0, &[b'l'; TEXT_BYTES]), change_name(1, b"q")];
    let spent = [nearly_spent(), exactly.to_vec(), asked.to_vec(), free.to_vec(), long.to_vec(), asked.to_vec()].concat();
    let over = [change_name(0, &more), change_reference(0, &more), ask_reference(0, 0), change_reference(0, &last), change_name(0, &last)];
    // Each change would move the use, so each is too much for no buffer; 27 comes before 34, which spends nothing.
    let unlent = [change_name_in(0, 0, &more), change_name_in(0, 0, &last), change_reference_in(3, 0, &last)];
    let over = [nearly_spent(), unlent.to_vec(), over.to_vec(), asked.to_vec()].concat();
    Ok(vec![
        Vector::of_tree("room 8,192: spent to its last byte, then equal, empty and long texts; D30", LAMBDA)?.with(spent),
        Vector::of_tree("room 8,193: refused, before 34 too, and what still fits is accepted", LAMBDA)?.with(over),
    ])
}
