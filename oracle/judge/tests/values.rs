//! Values in the right form that are wrong: 31 for a flag, 32 for a text, 33 for `from` and `to`, 3 for the others. By
//! both checkers, which must say the same.

use sheet::{short, Refusal};

/// What both checkers say of a sheet: the refusal's number and place, or none.
fn said(sheet: &[u8]) -> Option<(u32, u32)> {
    let forward = sheet::check::check(sheet);
    assert_eq!(forward, judge::judge(sheet).map_err(|judgement| judgement.refusal));
    forward.err().map(|Refusal { number, place }| (number, place))
}

/// The sheet of a tree with some of its lines replaced, by their numbers: `nodes=` is line 0, and node n has the six
/// from 6n + 1 on. The number of the refusal, and that of the line at whose first byte it is.
fn refused(tree: &str, edits: &[(usize, &str)]) -> (u32, usize) {
    let (number, place, starts) = edited(tree, edits);
    (number, starts.iter().position(|&start| start == place).expect("the place is a line's first byte"))
}

/// The same, where the place is a node.
fn refused_at_node(tree: &str, edits: &[(usize, &str)]) -> (u32, u32) {
    let (number, place, _) = edited(tree, edits);
    (number, place)
}

fn edited(tree: &str, edits: &[(usize, &str)]) -> (u32, u32, Vec<u32>) {
    let written = String::from_utf8(sheet::write(&short::parse(tree).expect(tree))).expect("a sheet is ASCII");
    let mut lines: Vec<&str> = written.lines().collect();
    edits.iter().for_each(|&(line, by)| lines[line] = by);
    let sheet: String = lines.iter().map(|line| format!("{line}\n")).collect();
    let mut starts = vec![0];
    sheet.lines().for_each(|line| starts.push(starts[starts.len() - 1] + line.len() as u32 + 1));
    let (number, place) = said(sheet.as_bytes()).expect("the sheet is refused");
    (number, place, starts)
}

/// `x: x`; the Lambda's lines begin at 7, and those of its body, the last node, at 25.
const LAMBDA: &str = r#"21@0..4(11@0..4(28@0..1(18@0..1"x"),18@3..4"x"))"#;

#[test]
fn each_line_of_a_node_has_its_number() {
    let wrong = [(25, "kind=34", 3), (26, "from=5", 33), (27, "to=2", 33), (28, "flag=2", 31), (29, "kids=5", 3)];
    for (line, by, number) in wrong {
        // A `from` above its `to` counts at the `to` line.
        let at = if line == 26 { 27 } else { line };
        assert_eq!(refused(LAMBDA, &[(line, by)]), (number, at), "{by}");
    }
    assert_eq!(refused(LAMBDA, &[(28, "flag=0")]), (32, 30));
    assert_eq!(refused(LAMBDA, &[(0, "nodes=0")]), (3, 0));
    assert_eq!(refused(LAMBDA, &[(0, "nodes=4097")]), (3, 0));
    assert_eq!(refused(LAMBDA, &[(1, "kind=20")]), (3, 1));
}

#[test]
fn ranges_are_33() {
    for from in ["4294967296", "4294967299", "18446744073709551616", "99999999999999999999"] {
        // Too large by itself, whatever the `to` is: below it, as large, or without its form.
        for to in ["to=4", "to=4294967296", "to=99999999999999999999", "to=04", "t"] {
            assert_eq!(refused(LAMBDA, &[(26, &format!("from={from}")), (27, to)]), (33, 26), "{from} {to}");
        }
    }
    for (from, to) in [("1", "0"), ("5", "4"), ("4294967295", "4294967294"), ("4294967295", "0")] {
        assert_eq!(refused(LAMBDA, &[(26, &format!("from={from}")), (27, &format!("to={to}"))]), (33, 27), "{from} {to}");
    }
    for to in ["4294967296", "4294967300", "18446744073709551620", "99999999999999999999"] {
        assert_eq!(refused(LAMBDA, &[(27, &format!("to={to}"))]), (33, 27), "{to}");
        assert_eq!(refused(LAMBDA, &[(26, "from=4294967295"), (27, &format!("to={to}"))]), (33, 27), "{to}");
    }
    // A needless 0 is no number: 2, and before it the `from` above that `to` is not known.
    assert_eq!(refused(LAMBDA, &[(26, "from=5"), (27, "to=04")]), (2, 27));
    assert_eq!(refused(LAMBDA, &[(26, "from=04294967296")]), (2, 26));
}

#[test]
fn flags_are_31() {
    for flag in ["2", "255", "256", "257", "4294967297", "18446744073709551617", "99999999999999999999"] {
        assert_eq!(refused(LAMBDA, &[(28, &format!("flag={flag}"))]), (31, 28), "{flag}");
    }
    for flag in ["01", "00", "-1", "1x", ""] {
        assert_eq!(refused(LAMBDA, &[(28, &format!("flag={flag}"))]), (2, 28), "{flag}");
    }
    // A kind that has no flag, and those that have one: the first that is too large.
    let highest = [("11(-,-)", 0), ("8", 1), ("14(-,-)", 15), ("16", 1), ("17(-)", 2), ("18", 1), ("9\"1\"", 0), ("10", 0), ("15(-)", 0)];
    for (node, most) in highest {
        assert_eq!(refused(&format!("21({node})"), &[(10, &format!("flag={}", most + 1))]), (31, 10), "{node}");
    }
    assert_eq!(refused("21(-)", &[(4, "flag=1")]), (31, 4));
}

#[test]
fn texts_are_32() {
    // A flag-0 Ident or Float has no text: its flag is right, and the line of the text is the one at fault.
    assert_eq!(refused("21(18!0\"x\")", &[]), (32, 12));
    assert_eq!(refused("21(8!0\"12345678\")", &[]), (32, 12));
    assert_eq!(refused("21(-)", &[(6, "text=00")]), (32, 6));
    for text in ["", "31323334353637", "313233343536373839", "7ff0000000000001", "8000000000000000", "ffffffffffffffff"] {
        assert_eq!(refused("21(8!1\"12345678\")", &[(12, &format!("text={text}"))]), (32, 12), "{text}");
    }
    for text in ["", "78", "2d31", "3120", "2f", "3a", "b2"] {
        assert_eq!(refused("21(9\"1\")", &[(12, &format!("text={text}"))]), (32, 12), "{text}");
    }
    for text in ["7A", "7", "787", "0x78", " 78", "78 "] {
        assert_eq!(refused(LAMBDA, &[(30, &format!("text={text}"))]), (2, 30), "{text}");
        // Nor is there a value to be wrong where the node has no text at all.
        assert_eq!(refused("21(-)", &[(6, &format!("text={text}"))]), (2, 6), "{text}");
    }
}

#[test]
fn kid_numbers_stay_3() {
    for kids in ["5", "5,4", "2,5", "-,5", "4294967295", "4294967296", "18446744073709551616", "99999999999999999999"] {
        assert_eq!(refused(LAMBDA, &[(11, &format!("kids={kids}"))]), (3, 11), "{kids}");
    }
    assert_eq!(refused(LAMBDA, &[(11, "kids=2,05")]), (2, 11));
    assert_eq!(refused(LAMBDA, &[(11, "kids=99,x")]), (2, 11));
}

/// The first line that is wrong decides, in one node and over all of them.
#[test]
fn the_first_wrong_line_decides() {
    let wrong = [
        (7, "kind=34", 3),
        (8, "from=4294967296", 33),
        (9, "to=4294967296", 33),
        (10, "flag=1", 31),
        (11, "kids=9", 3),
        (12, "text=00", 32),
    ];
    for first in 0..wrong.len() {
        for later in first + 1..wrong.len() {
            let edits = [wrong[first], wrong[later]].map(|(line, by, _)| (line, by));
            assert_eq!(refused(LAMBDA, &edits), (wrong[first].2, wrong[first].0), "{edits:?}");
        }
        let all: Vec<_> = wrong[first..].iter().map(|&(line, by, _)| (line, by)).collect();
        assert_eq!(refused(LAMBDA, &all), (wrong[first].2, wrong[first].0), "{all:?}");
    }
    // Several nodes: the lines are read node by node, and a wrong value of a later node does not matter, nor its form.
    let later = [(13, "kind=0"), (14, "from=x"), (22, "flag=7"), (24, "text=7A"), (27, "to=0"), (30, "text")];
    for (line, by, number) in wrong {
        let edits: Vec<_> = [(line, by)].into_iter().chain(later).collect();
        assert_eq!(refused(LAMBDA, &edits), (number, line), "{by}");
    }
    assert_eq!(refused(LAMBDA, &later[2..]), (31, 22));
    assert_eq!(refused(LAMBDA, &later[3..]), (2, 24));
    assert_eq!(refused(LAMBDA, &later[4..]), (33, 27));
    // A flag that the kind does not have, and a text that would be wrong with the right flag too.
    assert_eq!(refused("21(18!2\"x\")", &[]), (31, 10));
    assert_eq!(refused("21(8!2\"1\")", &[]), (31, 10));
}

#[test]
fn bytes_after_the_last_line_come_after_wrong_values() {
    let followed = |edits: &[(usize, &str)]| refused(LAMBDA, &[edits, &[(30, "text=78\nx")]].concat());
    assert_eq!(followed(&[]), (2, 31));
    assert_eq!(followed(&[(27, "to=0")]), (33, 27));
    assert_eq!(followed(&[(28, "flag=2")]), (31, 28));
    assert_eq!(followed(&[(28, "flag=0")]), (32, 30));
}

#[test]
fn wrong_values_come_before_the_walk() {
    // 4: the Root has no place for its kid, or one too many. 5: a kid out of order. 7: all but the Root are not met.
    let walks = [((5, "kids="), 4, 0), ((5, "kids=1,-"), 4, 0), ((5, "kids=2"), 5, 0), ((5, "kids=-"), 7, 1)];
    let wrong = [(26, "from=4294967296", 33), (27, "to=2", 33), (28, "flag=2", 31), (28, "flag=0", 32), (29, "kids=5", 3)];
    for (walk, number, place) in walks {
        assert_eq!(refused_at_node(LAMBDA, &[walk]), (number, place), "{walk:?}");
        for (line, by, number) in wrong {
            let at = if number == 32 { 30 } else { line };
            assert_eq!(refused(LAMBDA, &[walk, (line, by)]), (number, at), "{walk:?} {by}");
        }
    }
    // 6: the kid of the Paren at depth 256.
    let deep = format!("21({}18\"x\"{})", "15(".repeat(255), ")".repeat(255));
    assert_eq!(refused_at_node(&deep, &[]), (6, 255));
    let last = 1 + 6 * 256;
    for (line, by, number) in [(last + 1, "from=4294967296", 33), (last + 3, "flag=2", 31), (last + 3, "flag=0", 32)] {
        let (found, _) = refused_at_node(&deep, &[(line, by)]);
        assert_eq!(found, number, "{by}");
    }
    // A wrong flag and a wrong kid of one node: too few, of another kind, out of range.
    for kids in ["kids=", "kids=4", "kids=0,0", "kids=5,5"] {
        assert_eq!(refused(LAMBDA, &[(10, "flag=1"), (11, kids)]), (31, 10), "{kids}");
    }
}

/// A Paren that nobody has for its kid: its lines count, and its kids do not.
#[test]
fn wrong_values_of_nodes_that_are_not_met() {
    let unmet = "21(15@0..0(-))";
    let alone = (5, "kids=-");
    assert_eq!(refused_at_node(unmet, &[alone]), (7, 1));
    assert_eq!(refused_at_node(unmet, &[alone, (11, "kids=")]), (7, 1));
    assert_eq!(refused(unmet, &[alone, (8, "from=1")]), (33, 9));
    assert_eq!(refused(unmet, &[alone, (8, "from=4294967296")]), (33, 8));
    assert_eq!(refused(unmet, &[alone, (10, "flag=1")]), (31, 10));
    assert_eq!(refused(unmet, &[alone, (10, "flag=1"), (11, "kids=")]), (31, 10));
    assert_eq!(refused(unmet, &[alone, (11, "kids=2")]), (3, 11));
    assert_eq!(refused(unmet, &[alone, (12, "text=78")]), (32, 12));
    // Beside faults of the walk in the nodes that are met.
    let edits = [(5, "kids="), (10, "flag=1")];
    assert_eq!(refused(unmet, &edits), (31, 10));
}
