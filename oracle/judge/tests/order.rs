//! Which of several faults decides, and with what place.

use judge::{judge, violations, Cause, FlagFamily, Line, TextFault};
use sheet::{short, Node};

fn nodes(notation: &str) -> Vec<Node> {
    short::parse(notation).expect("the notation is in order")
}

fn refused(nodes: &[Node]) -> (u32, u32, Cause) {
    refused_bytes(&sheet::write(nodes))
}

fn refused_bytes(bytes: &[u8]) -> (u32, u32, Cause) {
    let judgement = judge(bytes).expect_err("the sheet is refused");
    (judgement.refusal.number, judgement.refusal.place, judgement.cause)
}

/// Root around an Ident, with some lines replaced: by their number, `nodes=` being 0.
fn sheet_with(changes: &[(usize, &str)]) -> (Vec<u8>, Vec<u32>) {
    let text = String::from_utf8(sheet::write(&nodes("21@0..9(18@0..9\"x\")"))).expect("a sheet is ASCII");
    let mut lines: Vec<String> = text.lines().map(String::from).collect();
    changes.iter().for_each(|&(line, by)| lines[line] = by.to_string());
    let mut starts = vec![0];
    for line in &lines {
        starts.push(starts[starts.len() - 1] + line.len() as u32 + 1);
    }
    (lines.iter().map(|line| format!("{line}\n")).collect::<String>().into_bytes(), starts)
}

#[test]
fn on_a_line_2_is_before_a_wrong_value() {
    let cases = [
        (0, "nodes=04097", Line::Nodes),
        (1, "kind=034", Line::Kind),
        (2, "from=04294967296", Line::From),
        (3, "to=4294967296x", Line::To),
    ];
    let more = [(4, "flag=099", Line::Flag), (5, "kids=99,", Line::Kids), (5, "kids=99,01", Line::Kids), (6, "text=616", Line::Text)];
    for (line, by, name) in cases.into_iter().chain(more) {
        let (sheet, starts) = sheet_with(&[(line, by)]);
        assert_eq!(refused_bytes(&sheet), (2, starts[line], Cause::BadForm(name)), "{by}");
    }
    // The line end too: a value out of range on a line that does not end.
    let (sheet, starts) = sheet_with(&[]);
    let cut = [&sheet[..starts[5] as usize], b"kids=99"].concat();
    assert_eq!(refused_bytes(&cut), (2, starts[5], Cause::NoLineEnd(Line::Kids)));
}

#[test]
fn the_first_line_at_fault_decides() {
    let faults =
        [(1, "kind=34"), (2, "from=x"), (3, "to=4294967296"), (4, "flag="), (5, "kids=2"), (6, "text=6"), (7, "kind=0"), (8, "fro=0")];
    for (first, number) in [3, 2, 33, 2, 3, 2, 3, 2].into_iter().enumerate() {
        let (sheet, starts) = sheet_with(&faults[first..]);
        let (found, place, _) = refused_bytes(&sheet);
        assert_eq!((found, place), (number, starts[faults[first].0]), "{first}");
    }
}

#[test]
fn a_refused_nodes_line_decides_at_once() {
    let (sheet, _) = sheet_with(&[(0, "nodes=0"), (1, "kind=34")]);
    assert_eq!(refused_bytes(&sheet), (3, 0, Cause::NodesRange));
    assert_eq!(violations(&sheet).len(), 1);
}

#[test]
fn from_above_to_counts_at_the_to_line() {
    let (sheet, starts) = sheet_with(&[(2, "from=10"), (4, "flag=1")]);
    assert_eq!(refused_bytes(&sheet), (33, starts[3], Cause::FromAboveTo));
    // A `to` without its form is 2 there.
    let (sheet, starts) = sheet_with(&[(2, "from=10"), (3, "to=09")]);
    assert_eq!(refused_bytes(&sheet), (2, starts[3], Cause::BadForm(Line::To)));
}

#[test]
fn flag_and_text_rules_follow_the_kind() {
    let (sheet, starts) = sheet_with(&[(7, "kind=9")]);
    assert_eq!(refused_bytes(&sheet), (31, starts[10], Cause::FlagRule(FlagFamily::Flagless)));
    let (sheet, starts) = sheet_with(&[(7, "kind=9"), (10, "flag=0")]);
    assert_eq!(refused_bytes(&sheet), (32, starts[12], Cause::TextRule(TextFault::IntegerNoDigit)));
}

#[test]
fn one_too_few_and_one_too_many_nodes() {
    let (sheet, starts) = sheet_with(&[(0, "nodes=3")]);
    assert_eq!(refused_bytes(&sheet), (2, starts[13], Cause::MissingLine(Line::Kind)));
    assert_eq!(starts[13] as usize, sheet.len());
    let (sheet, starts) = sheet_with(&[(0, "nodes=1"), (5, "kids=-")]);
    assert_eq!(refused_bytes(&sheet), (2, starts[7], Cause::Trailing));
    // A kid out of range stands before the bytes that are left.
    let (sheet, starts) = sheet_with(&[(0, "nodes=1")]);
    assert_eq!(refused_bytes(&sheet), (3, starts[5], Cause::KidRange));
}

#[test]
fn lines_are_before_the_walk() {
    let mut nodes = nodes("21(1(18\"x\",18\"y\"))");
    nodes[0].kids.clear();
    assert_eq!(refused(&nodes), (4, 0, Cause::TooFewKids(21)));
    nodes[3].flag = 2;
    let (number, _, cause) = refused(&nodes);
    assert!(number == 31 && matches!(cause, Cause::FlagRule(_)));
}

#[test]
fn at_a_node_4_is_before_5() {
    let mut wrong = nodes("21(1(18\"x\",18\"y\"))");
    wrong[1].kids = vec![Some(3)];
    assert_eq!(refused(&wrong), (4, 1, Cause::TooFewKids(1)));
    wrong[1].kids = vec![Some(3), Some(2), None];
    assert_eq!(refused(&wrong), (4, 1, Cause::TooManyKids(1)));
}

#[test]
fn at_a_kid_5_is_before_6_and_6_before_what_lies_inside() {
    let deep = |inner: &str| nodes(&format!("21({}{inner}{})", "15(".repeat(255), ")".repeat(255)));
    assert_eq!(refused(&deep("20")), (6, 255, Cause::Depth));
    assert_eq!(refused(&deep("23")), (5, 255, Cause::KidKind(judge::grammar::Place::Expression)));
    assert_eq!(refused(&deep("15")), (6, 255, Cause::Depth));
    let mut shifted = deep("20");
    shifted[255].kids = vec![Some(255)];
    assert_eq!(refused(&shifted), (5, 255, Cause::KidOrder));
    // An absent kid is at no depth.
    assert!(judge(&sheet::write(&nodes(&format!("21({}-{})", "15(".repeat(255), ")".repeat(255))))).is_ok());
}

#[test]
fn all_inside_a_kid_is_before_the_next_kid() {
    // The second kid has the wrong kind, and the first one has a fault of its own inside.
    let second = Cause::KidKind(judge::grammar::Place::Expression);
    assert_eq!(refused(&nodes("21(1(15(18\"x\"),23))")), (5, 1, second));
    assert_eq!(refused(&nodes("21(1(15,23))")), (4, 2, Cause::TooFewKids(15)));
    assert_eq!(refused(&nodes("21(1(15(25(-,-)),23))")), (5, 2, second));
    let deep = format!("21(1({}20{},23))", "15(".repeat(255), ")".repeat(255));
    assert_eq!(refused(&nodes(&deep)), (6, 255, Cause::Depth));
    // The second kid's number counts from the highest met inside the first.
    let mut skipped = nodes("21(1(15(18\"x\"),18\"y\"))");
    skipped[1].kids = vec![Some(2), Some(3)];
    assert_eq!(refused(&skipped), (5, 1, Cause::KidOrder));
}

#[test]
fn absent_items_stand_in_the_order_of_the_walk() {
    use judge::grammar::Place::*;
    assert_eq!(refused(&nodes("21(13(13(-),-))")), (5, 2, Cause::AbsentItem(Expression)));
    assert_eq!(refused(&nodes("21(13(-,13(-)))")), (5, 1, Cause::AbsentItem(Expression)));
    assert_eq!(refused(&nodes("21(13(15,-))")), (4, 2, Cause::TooFewKids(15)));
    assert_eq!(refused(&nodes("21(16(-))")), (5, 1, Cause::AbsentItem(Entry)));
    assert_eq!(refused(&nodes("21(12(-,-))")), (5, 1, Cause::AbsentItem(Entry)));
    assert_eq!(refused(&nodes("21(16(26(-,-)))")), (5, 2, Cause::AbsentItem(Attribute)));
}

#[test]
fn nodes_not_met_come_last() {
    let unmet = nodes("21(1(-,18\"x\"))");
    let mut first = unmet.clone();
    first[0].kids = vec![None];
    assert_eq!(refused(&first), (7, 1, Cause::Unmet));
    let mut last = unmet.clone();
    last[1].kids = vec![None, None];
    assert_eq!(refused(&last), (7, 2, Cause::Unmet));
    last[1].kids = vec![None];
    assert_eq!(refused(&last), (4, 1, Cause::TooFewKids(1)));
    // What is wrong with an unmet node does not matter.
    first[1].kids = vec![None, Some(0), Some(0)];
    assert_eq!(refused(&first), (7, 1, Cause::Unmet));
}

#[test]
fn a_node_in_a_circle_or_with_two_parents() {
    let mut circle = nodes("21(15(15(-)))");
    circle[2].kids = vec![Some(1)];
    assert_eq!(refused(&circle), (5, 2, Cause::KidOrder));
    circle[2].kids = vec![Some(0)];
    assert_eq!(refused(&circle), (5, 2, Cause::KidOrder));
    let mut twice = nodes("21(1(18\"x\",-))");
    twice[1].kids = vec![Some(2), Some(2)];
    assert_eq!(refused(&twice), (5, 1, Cause::KidOrder));
}

#[test]
fn every_violation_is_collected() {
    let mut many = nodes("21(1(15(23),23))");
    many[0].kids.push(None);
    let found: Vec<_> = violations(&sheet::write(&many)).iter().map(|violation| violation.judgement.refusal.number).collect();
    assert_eq!(found.iter().filter(|&&number| number == 4).count(), 1);
    assert_eq!(found.iter().filter(|&&number| number == 5).count(), 2);
    assert_eq!(refused(&many), (4, 0, Cause::TooManyKids(21)));
}
