//! The ends of every range: the last value that is taken and the first that is not.

use judge::{judge, Cause, FlagFamily, TextFault};
use sheet::{short, Node};

fn nodes(notation: &str) -> Vec<Node> {
    short::parse(notation).expect("the notation is in order")
}

fn refused(bytes: &[u8]) -> (u32, u32, Cause) {
    let judgement = judge(bytes).expect_err("the sheet is refused");
    (judgement.refusal.number, judgement.refusal.place, judgement.cause)
}

fn written(notation: &str) -> Vec<u8> {
    sheet::write(&nodes(notation))
}

/// Where a line of a sheet begins, by its number.
fn line_start(bytes: &[u8], line: usize) -> u32 {
    bytes.split_inclusive(|&byte| byte == b'\n').take(line).map(|line| line.len() as u32).sum()
}

/// A list of so many nodes, the list and Root included.
fn list(count: usize) -> Vec<Node> {
    let items = vec!["20"; count - 2].join(",");
    nodes(&format!("21(13({items}))"))
}

fn chain(depth: usize) -> Vec<Node> {
    let parens = "15(".repeat(depth - 2);
    nodes(&format!("21({parens}20{})", ")".repeat(depth - 2)))
}

/// One node's sheet with these lines after `nodes=1`.
fn root(lines: [&str; 6]) -> Vec<u8> {
    let keys = ["kind", "from", "to", "flag", "kids", "text"];
    let lines: String = keys.iter().zip(lines).map(|(key, value)| format!("{key}={value}\n")).collect();
    format!("nodes=1\n{lines}").into_bytes()
}

#[test]
fn the_example_of_document_01() {
    let notation = "21@0..4(11@0..4(28@0..1(18@0..1\"x\"),18@3..4\"x\"))";
    assert_eq!(judge(&written(notation)), Ok(nodes(notation)));
}

#[test]
fn nodes_from_1_to_4096() {
    assert!(judge(&written("21(-)")).is_ok());
    assert!(judge(&sheet::write(&list(4_096))).is_ok());
    assert_eq!(refused(&sheet::write(&list(4_097))), (3, 0, Cause::NodesRange));
    for value in ["0", "4097", "4294967297", "18446744073709551617", "99999999999999999999999999"] {
        assert_eq!(refused(format!("nodes={value}\n").as_bytes()), (3, 0, Cause::NodesRange), "{value}");
    }
}

#[test]
fn depth_to_256() {
    assert!(judge(&sheet::write(&chain(256))).is_ok());
    assert_eq!(refused(&sheet::write(&chain(257))), (6, 255, Cause::Depth));
    assert_eq!(refused(&sheet::write(&chain(900))), (6, 255, Cause::Depth));
}

#[test]
fn attributes_to_16() {
    let path = |count: usize| format!("21(5(-,23({})))", vec!["18"; count].join(","));
    assert!(judge(&written("21(5(-,23))")).is_ok());
    assert!(judge(&written(&path(16))).is_ok());
    assert_eq!(refused(&written(&path(17))), (4, 2, Cause::TooManyKids(23)));
}

#[test]
fn pointers_to_4294967295() {
    let valid = |from, to| judge(&root(["21", from, to, "0", "-", ""])).is_ok();
    assert!(valid("0", "0") && valid("0", "4294967295") && valid("4294967295", "4294967295"));
    let refused = |from, to| refused(&root(["21", from, to, "0", "-", ""]));
    assert_eq!(refused("4294967296", "4294967296"), (33, 16, Cause::FromRange));
    assert_eq!(refused("4294967296", "0"), (33, 16, Cause::FromRange));
    assert_eq!(refused("0", "4294967296"), (33, 23, Cause::ToRange));
    assert_eq!(refused("0", "18446744073709551616"), (33, 23, Cause::ToRange));
    assert_eq!(refused("1", "0"), (33, 23, Cause::FromAboveTo));
    assert_eq!(refused("4294967295", "4294967294"), (33, 32, Cause::FromAboveTo));
}

#[test]
fn floats_to_infinity() {
    let float = |text: &str| written(&format!("21(8!1\"{text}\")"));
    let place = |sheet: &[u8]| line_start(sheet, 12);
    assert!(judge(&float("\\x7f\\xf0\\x00\\x00\\x00\\x00\\x00\\x00")).is_ok());
    assert!(judge(&float("\\x00\\x00\\x00\\x00\\x00\\x00\\x00\\x00")).is_ok());
    let above = [
        "\\x7f\\xf0\\x00\\x00\\x00\\x00\\x00\\x01",
        "\\x80\\x00\\x00\\x00\\x00\\x00\\x00\\x00",
        "\\xff\\xff\\xff\\xff\\xff\\xff\\xff\\xff",
    ];
    for text in above {
        assert_eq!(refused(&float(text)), (32, place(&float(text)), Cause::TextRule(TextFault::FloatBits)), "{text}");
    }
    for text in ["", "\\x00", "1234567", "123456789"] {
        assert_eq!(refused(&float(text)), (32, place(&float(text)), Cause::TextRule(TextFault::FloatLength)), "{text}");
    }
    assert!(judge(&written("21(8)")).is_ok());
    assert_eq!(refused(&written("21(8!0\"12345678\")")).2, Cause::TextRule(TextFault::FloatFlagless));
}

#[test]
fn texts_of_the_other_kinds() {
    for valid in
        ["9\"0\"", "9\"00\"", "9\"99999999999999999999999999\"", "18", "18\"\"", "18\"\\x00\\xff\"", "7", "7\"p\"", "6(32)", "6(32\"a\")"]
    {
        assert!(judge(&written(&format!("21({valid})"))).is_ok(), "{valid}");
    }
    let fault = |notation: &str| refused(&written(&format!("21({notation})"))).2;
    assert_eq!(fault("9"), Cause::TextRule(TextFault::IntegerEmpty));
    for digits in ["-1", "1 ", "a", "1\\x00", "\\xb2", "/", ":"] {
        assert_eq!(fault(&format!("9\"{digits}\"")), Cause::TextRule(TextFault::IntegerNoDigit), "{digits}");
    }
    assert_eq!(fault("18!0\"x\""), Cause::TextRule(TextFault::IdentFlagless));
    for textless in ["10\"x\"", "6\"x\"", "13\"x\"", "20\"x\"", "16\"x\"", "1\"x\"(-,-)"] {
        assert_eq!(fault(textless), Cause::TextRule(TextFault::Textless), "{textless}");
    }
}

#[test]
fn flags_of_every_kind() {
    for kind in 1..=33_u8 {
        let most = match kind {
            14 => 15,
            17 => 2,
            8 | 16 | 18 | 29 => 1,
            _ => 0,
        };
        let flag_line = |flag: &str| {
            let text = if kind == 9 { "30" } else { "" };
            let node = format!("kind={kind}\nfrom=0\nto=0\nflag={flag}\nkids=\ntext={text}\n");
            format!("nodes=2\nkind=21\nfrom=0\nto=0\nflag=0\nkids=-\ntext=\n{node}").into_bytes()
        };
        let place = line_start(&flag_line("0"), 10);
        let is_refused = |flag: &str| {
            let (number, at, cause) = refused(&flag_line(flag));
            (number, at) == (31, place) && matches!(cause, Cause::FlagRule(_))
        };
        (0..=most).for_each(|flag| assert!(!is_refused(&flag.to_string()), "{kind} {flag}"));
        for flag in [most + 1, 16, 255, 256, 257, 4_294_967_296_u64] {
            assert!(is_refused(&flag.to_string()), "{kind} {flag}");
        }
        assert!(is_refused("18446744073709551616"), "{kind}");
    }
    assert_eq!(refused(&written("21(14!16(-,-))")).2, Cause::FlagRule(FlagFamily::BinOp));
    assert_eq!(refused(&written("21(10!1)")).2, Cause::FlagRule(FlagFamily::Flagless));
}

#[test]
fn kinds_from_1_to_33() {
    let kind = |kind: &str| {
        format!("nodes=2\nkind=21\nfrom=0\nto=0\nflag=0\nkids=-\ntext=\nkind={kind}\nfrom=0\nto=0\nflag=0\nkids=\ntext=\n").into_bytes()
    };
    for value in ["0", "34", "255", "256", "257", "18446744073709551617"] {
        assert_eq!(refused(&kind(value)), (3, 48, Cause::KindRange), "{value}");
    }
    for value in (1..=33).filter(|&kind| kind != 9) {
        assert_eq!(refused(&kind(&value.to_string())), (7, 1, Cause::Unmet), "{value}");
    }
    for value in (1..=33).filter(|&kind| kind != 21) {
        assert_eq!(refused(&root([&value.to_string(), "0", "0", "0", "-", ""])), (3, 8, Cause::RootKind), "{value}");
    }
}

/// Numbers that a word's end would make right: 2 to the 32nd and 64th, and ten to the 64th, a multiple of both, above
/// the right value.
#[test]
fn numbers_do_not_wrap() {
    let above =
        |value: u128| [value + (1 << 32), value + (1 << 64)].map(|value| value.to_string()).into_iter().chain([format!("1{value:064}")]);
    let lines = [("21", 3, 8), ("0", 33, 16), ("0", 33, 23), ("0", 31, 28)];
    for (line, (value, refusal, place)) in lines.into_iter().enumerate() {
        for wrapped in above(value.parse().unwrap_or(0)) {
            let mut values = ["21", "0", "0", "0", "-", ""];
            values[line] = &wrapped;
            let (number, at, _) = refused(&root(values));
            assert_eq!((number, at), (refusal, place), "{values:?}");
        }
    }
    for wrapped in above(1) {
        assert_eq!(refused(format!("nodes={wrapped}\n").as_bytes()), (3, 0, Cause::NodesRange), "{wrapped}");
        let ident = "kind=20\nfrom=0\nto=0\nflag=0\nkids=\ntext=\n";
        let sheet = format!("nodes=2\nkind=21\nfrom=0\nto=0\nflag=0\nkids={wrapped}\ntext=\n{ident}");
        assert_eq!(refused(sheet.as_bytes()), (3, 35, Cause::KidRange), "{wrapped}");
    }
}

#[test]
fn kid_numbers_below_nodes() {
    for kids in ["1", "4294967295", "4294967296", "18446744073709551616", "-,1", "0,1", "1,-"] {
        assert_eq!(refused(&root(["21", "0", "0", "0", kids, ""])), (3, 35, Cause::KidRange), "{kids}");
    }
    assert_eq!(refused(&root(["21", "0", "0", "0", "0", ""])), (5, 0, Cause::KidOrder));
    assert_eq!(refused(&root(["21", "0", "0", "0", "", ""])), (4, 0, Cause::TooFewKids(21)));
    assert_eq!(refused(&root(["21", "0", "0", "0", "-,-", ""])), (4, 0, Cause::TooManyKids(21)));
}

#[test]
fn bytes_to_1048576() {
    let ident = |bytes: usize| {
        // Without a text it has 87 bytes; a byte of text takes two, and one more digit evens that out.
        let to = if bytes.is_multiple_of(2) { "10" } else { "9" };
        let text = "78".repeat((bytes - 87) / 2);
        let head = format!("nodes=2\nkind=21\nfrom=0\nto={to}\nflag=0\nkids=1\ntext=\n");
        format!("{head}kind=18\nfrom=0\nto=9\nflag=1\nkids=\ntext={text}\n").into_bytes()
    };
    for (bytes, valid) in [(1_048_575, true), (1_048_576, true), (1_048_577, false), (1_048_578, false)] {
        let sheet = ident(bytes);
        assert_eq!(sheet.len(), bytes);
        assert_eq!(judge(&sheet).is_ok(), valid);
    }
    assert_eq!(refused(&ident(1_048_577)), (1, 0, Cause::TooLong));
    assert_eq!(refused(&vec![b'x'; 1_048_577]), (1, 0, Cause::TooLong));
    assert_eq!(refused(&vec![b'\n'; 1_048_576]), (2, 0, Cause::WrongKey(judge::Line::Nodes)));
}
