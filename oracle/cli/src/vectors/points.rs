//! The points D1 to D33 of docs/DECISIONS.md, each with the inputs that show it. What only a source map or a scope's
//! number would show is here for its counts and answers.

use super::calls::{ask_name, ask_reference, change_name, change_reference};
use super::named::parens;
use super::Vector;

const TREES: [(&str, &str); 60] = [
    ("D1: a Select without a default", "21(3(-,-,-))"),
    ("D1: a pattern entry without a default", r#"21(11(29(-,31(18"x",-)),-))"#),
    ("D2: a flag-0 Ident in the path of a Select", "21(3(-,23(18),-))"),
    ("D2: a flag-0 Ident in the path of a HasAttr", "21(5(-,23(18)))"),
    ("D2: a flag-0 Ident in the path of an entry", "21(16(25(23(18),-)))"),
    ("D3: a Str of two parts is a dynamic key", r#"21(16(25(23(6(32"a",32"b")),-)))"#),
    ("D3: a Str with an interpolation is a dynamic key", r#"21(16(25(23(6(33(18"x"))),-)))"#),
    ("D3: a plain Str in Parens in a Dynamic is static", r#"21(16(25(23(24(15(15(6(32"a"))))),-)))"#),
    ("D3: a Str without parts is the empty key", "21(16(25(23(6),-)))"),
    ("D3: an Ident in a Dynamic is no static key", r#"21(16(25(23(24(18"a")),-)))"#),
    ("D4: x: { inherit x; x = 2; }", r#"21(11(28(18"x"),16(26(-,18"x"),25(23(18"x"),9"2"))))"#),
    ("D4: x: { inherit (x) a; a = 2; }", r#"21(11(28(18"x"),16(26(27(18"x"),18"a"),25(23(18"a"),9"2"))))"#),
    ("D5: an entry without a path", "21(16(25(-,-)))"),
    ("D5: an entry with a path of no attributes", "21(16(25(23,-)))"),
    ("D6: a flag-0 Ident as parameter", r#"21(11(28(18),18""))"#),
    ("D6: an absent Ident as parameter", r#"21(11(28(-),18""))"#),
    ("D6: flag-0 and absent Idents of a pattern", r#"21(11(29(30(18),31(18,-),31(-,-)),18""))"#),
    ("D7: a plain inherit of a flag-0 Ident in a set", "21(16(26(-,18)))"),
    ("D7: a plain inherit of a flag-0 Ident in a let", r#"21(12(18"",26(-,18)))"#),
    ("D8: a Str in a Root in a Dynamic is no static key", r#"21(16(25(23(24(21(6(32"a")))),-)))"#),
    ("D8: a value set merges", r#"21(16(25(23(18"a",18"b"),9"1"),25(23(18"a"),16(25(23(18"c"),9"2")))))"#),
    ("D8: a set in a Paren does not merge", r#"21(16(25(23(18"a",18"b"),9"1"),25(23(18"a"),15(16(25(23(18"c"),9"2"))))))"#),
    ("D8: a set in a Root does not merge", r#"21(16(25(23(18"a",18"b"),9"1"),25(23(18"a"),21(16(25(23(18"c"),9"2"))))))"#),
    ("D9: the left side of a flag-0 BinOp, a builtin", r#"21(14(18"map",-))"#),
    ("D9: the left side of a flag-0 BinOp, a definition", r#"21(11(28(18"x"),14(18"x",18"y")))"#),
    ("D9: a flag-0 UnaryOp", r#"21(17(18"x"))"#),
    ("D10: an inherit-from", r#"21(16(26(27(18"a"),18"b")))"#),
    ("D10: equal pointers", r#"21(16(25(23(18"a"@1..2,18"b"@1..2),18"a"@1..2),26(-,18"c"@1..2)))"#),
    ("D11: { ${k}.b.c = v; d = w; }", r#"21(16(25(23(24(18"k"),18"b",18"c"),18"v"),25(23(18"d"),18"w")))"#),
    ("D11: a let's entries before its body", r#"21(12(18"body",25(23(18"a"),18"value")))"#),
    ("D11: { key = inner: inner; }: the value before its name", r#"21(16(25(23(18"key"),11(28(18"inner"),18"inner"))))"#),
    ("D11: { a.b.c = v: v; }: names but the last before the value", r#"21(16(25(23(18"a",18"b",18"c"),11(28(18"v"),18"v"))))"#),
    ("D11: { inherit (v: v) a b; }: expressions before the name", r#"21(16(26(27(11(28(18"v"),18"v")),18"a",18"b")))"#),
    ("D11: a merged set has no expression of its own", r#"21(16(25(23(18"a",18"b"),9"1"),25(23(18"a"),16!1(25(23(18"c"),18"b")))))"#),
    ("D12: a source without attributes", r#"21(11(28(18"x"),16(26(27(18"x")))))"#),
    ("D12: a from without an expression", "21(16(26(27(-))))"),
    (
        "D13: a With in every place of a let",
        concat!(
            r#"21(12(4(-,18"q"),25(23(24(4(-,18"q"))),4(-,18"q")),26(27(4(-,18"q")),18"c"),"#,
            r#"25(23(18"d"),4(-,18"q")),25(23(18"b"),4(-,18"q")),26(-,18"a")))"#
        ),
    ),
    ("D14: a With without a body", "21(4(-,-))"),
    ("D14: a let with a dynamic and no static", r#"21(12(18"k",25(23(24(18"k")),-)))"#),
    ("D14: a rec set with a dynamic and no static", r#"21(16!1(25(23(24(18"k")),-)))"#),
    ("D14: a rec set with a static", r#"21(16!1(25(23(18"k"),-)))"#),
    ("D15: 4, too few kids", "21(15)"),
    ("D15: 4, too many kids", "21(15(-,-))"),
    ("D17: a Root without its place", "21"),
    ("D17: a LetIn without its place", "21(12)"),
    ("D17: an Inherit without its place", "21(16(26))"),
    ("D17: a Pattern without its place", "21(11(29,-))"),
    ("D17: an Error with a kid", "21(20(-))"),
    ("D17: a LegacyLet with a kid", "21(22(-))"),
    ("D17: a Uri with a kid", "21(10(-))"),
    ("D17: a Float with a kid", "21(8(-))"),
    ("D17: an Integer with a kid", r#"21(9"1"(-))"#),
    ("D17: an Ident with a kid", r#"21(18"x"(-))"#),
    ("D17: a literal part with a kid", r#"21(6(32"a"(-)))"#),
    ("D17: a List of none", "21(13)"),
    ("D17: a List of an absent item", "21(13(-))"),
    ("D18: an Ident of flag 1 and the empty text", r#"21(11(28(18!1),18!1))"#),
    ("D18: an Integer with leading zeros", r#"21(9"000009223372036854775807")"#),
    ("D19: 4 of a kid before 5 of the next", r#"21(13(15,32"x"))"#),
    ("D19: 5 of a kid before 4 of the next", r#"21(13(32"x",15))"#),
];

pub fn trees() -> Result<Vec<Vector>, String> {
    let mut vectors: Vec<Vector> = TREES.iter().map(|(title, tree)| Vector::of_tree(*title, tree)).collect::<Result<_, _>>()?;
    let digits = "9".repeat(400);
    vectors.push(Vector::of_tree("D18: an Integer of many digits", &format!(r#"21(9"{digits}")"#))?);
    vectors.push(Vector::of_tree("D19: 5 before 6", &parens(255, r#"32"x""#))?);
    vectors.push(Vector::of_tree("D26: an absent kid at depth 256", &parens(255, "-"))?);
    Ok(vectors)
}

/// The sheet of `x: x` with some of its lines replaced, by their numbers: 0 is `nodes=`, and node n has the six from 6n
/// + 1 on.
fn edited(title: &str, edits: &[(usize, &str)]) -> Result<Vector, String> {
    let whole = Vector::of_tree(title, r#"21(11(28(18"x"),18"x"))"#)?;
    let mut lines: Vec<&[u8]> = whole.sheet.split_inclusive(|&byte| byte == b'\n').collect();
    for (line, edit) in edits {
        *lines.get_mut(*line).ok_or_else(|| format!("{title}: no line {line}"))? = edit.as_bytes();
    }
    Ok(Vector::of_sheet(title, lines.concat()))
}

/// The same with bytes after the last line.
fn followed(title: &str, edits: &[(usize, &str)], more: &[u8]) -> Result<Vector, String> {
    let mut vector = edited(title, edits)?;
    vector.sheet.extend_from_slice(more);
    Ok(vector)
}

/// Points on refusals that a tree can't show.
pub fn sheets() -> Result<Vec<Vector>, String> {
    Ok([numbers()?, ends()?, unmet()?, values()?].concat())
}

/// A Root with these lines, and an Ident that is its kid or, where `kids` is `-`, hangs nowhere.
fn root_and_ident(title: &str, kids: &str, ident: [&str; 5]) -> Vector {
    let [from, to, flag, own_kids, text] = ident;
    let root = format!("kind=21\nfrom=0\nto=9\nflag=0\nkids={kids}\ntext=\n");
    let ident = format!("kind=18\nfrom={from}\nto={to}\nflag={flag}\nkids={own_kids}\ntext={text}\n");
    Vector::of_sheet(title, format!("nodes=2\n{root}{ident}").into_bytes())
}

/// What is wrong with a value: 3, 31, 32 and 33, and which of them decides.
fn values() -> Result<Vec<Vector>, String> {
    let trees = [
        ("values: 31, a kind without flags", "21(10!1)"),
        ("values: 31, a BinOp of flag 16", "21(14!16(-,-))"),
        ("values: 31, an Ident of flag 2, whatever its text", "21(18!2\"x\")"),
        ("values: 31, a flag too large before kids too few", "21(15!1)"),
        ("values: 32, a flag-0 Ident with a text", "21(18!0\"x\")"),
        ("values: 32, a flag-0 Float with a text", "21(8!0\"12345678\")"),
        ("values: 32, a flag-1 Float without a text", "21(8!1)"),
        ("values: 32, an Integer without digits", "21(9)"),
        ("values: 32, a text where there is none, before a kid too many", "21(10\"x\"(-))"),
    ];
    let mut vectors: Vec<Vector> = trees.iter().map(|(title, tree)| Vector::of_tree(*title, tree)).collect::<Result<_, _>>()?;
    vectors.extend([
        root_and_ident("values: 31, a flag of twenty digits", "1", ["0", "0", "99999999999999999999", "", "78"]),
        root_and_ident("values: 31, before a kid's number too large", "1", ["0", "0", "2", "2", "78"]),
        root_and_ident("values: 31, in a node that is not met", "-", ["0", "0", "2", "-", "78"]),
        root_and_ident("values: 32, in a node that is not met", "-", ["0", "0", "0", "", "78"]),
        root_and_ident("values: 33, from above to", "1", ["4", "3", "1", "", "78"]),
        root_and_ident("values: 33, from above to, before a wrong flag and a wrong text", "1", ["4", "3", "2", "", "7A"]),
        root_and_ident("values: 33, from too large", "1", ["4294967296", "4294967296", "1", "", "78"]),
        root_and_ident("values: 33, to too large", "1", ["0", "4294967296", "1", "", "78"]),
        root_and_ident("values: 33, in a node that is not met", "-", ["1", "0", "1", "", "78"]),
        root_and_ident("values: 3, a kid's number too large, before a wrong text", "1", ["0", "0", "0", "4294967296", "78"]),
        root_and_ident("values: 2, a flag with a needless 0", "1", ["0", "0", "01", "", "78"]),
    ]);
    Ok(vectors)
}

fn numbers() -> Result<Vec<Vector>, String> {
    let large = |key: &str| format!("{key}=1{}\n", "0".repeat(64));
    Ok(vec![
        edited("D16: nodes of many digits", &[(0, &large("nodes"))])?,
        edited("D16: a kind of many digits", &[(7, &large("kind"))])?,
        edited("D16: a from of many digits", &[(8, &large("from"))])?,
        edited("D16: a flag of many digits", &[(10, &large("flag"))])?,
        edited("D16: a kid of many digits", &[(11, &large("kids"))])?,
        edited("D16: a kid of many digits before one without its form", &[(11, &large("kids").replace('\n', ",x\n"))])?,
        edited("D16: a kid with a needless 0", &[(11, "kids=2,04\n")])?,
        edited("D16: a from with a needless 0", &[(8, "from=00\n")])?,
        edited("D22: a from too large, above its to", &[(8, "from=4294967296\n"), (9, "to=0\n")])?,
        edited("D22: a from too large, and a to without its form", &[(8, "from=4294967296\n"), (9, "to=x\n")])?,
        edited("D22: a from above its to", &[(8, "from=5\n"), (9, "to=4\n")])?,
        edited("D22: a to too large", &[(8, "from=4294967295\n"), (9, "to=4294967296\n")])?,
        edited("D22: the largest from and to", &[(8, "from=4294967295\n"), (9, "to=4294967295\n")])?,
        edited("D23: an odd number of digits", &[(30, "text=787\n")])?,
        edited("D23: an upper-case digit", &[(30, "text=7A\n")])?,
        edited("D23: a byte 13 before a line end", &[(30, "text=78\r\n")])?,
        edited("D23: a byte 13 after a number", &[(0, "nodes=5\r\n")])?,
    ])
}

fn ends() -> Result<Vec<Vector>, String> {
    let cut = edited("D20: a last line without its end", &[(30, "text=78")])?;
    let no_nodes = edited("D25: no nodes, and other lines at fault", &[(0, "nodes=0\n"), (1, "kind=x\n")])?;
    let too_many = edited("D25: too many nodes, and lines that are missing", &[(0, "nodes=4097\n")])?;
    Ok(vec![
        Vector::of_sheet("D20: the empty sheet", Vec::new()),
        Vector::of_sheet("D20: a first line without its end", b"nodes=5".to_vec()),
        edited("D20: a whole line is missing", &[(30, "")])?,
        cut,
        followed("D24: bytes after the last line", &[], b"\n")?,
        followed("D24: bytes after the last line, and a 3 before them", &[(10, "flag=1\n")], b"x")?,
        followed("D24: bytes after the last line, and a fault of the walk", &[(5, "kids=2\n")], b"x")?,
        no_nodes,
        edited("D25: nodes without their form", &[(0, "nodes=x\n"), (1, "kind=99\n")])?,
        too_many,
    ])
}

/// Two nodes that hang nowhere: the Root's only kid is absent.
fn unmet() -> Result<Vec<Vector>, String> {
    let sheet = |kids: &str, flag: &str| {
        let root = "kind=21\nfrom=0\nto=0\nflag=0\nkids=-\ntext=\n";
        format!("nodes=2\n{root}kind=15\nfrom=0\nto=0\nflag={flag}\nkids={kids}\ntext=\n").into_bytes()
    };
    Ok(vec![
        Vector::of_sheet("D27: too few kids in a node that is not met", sheet("", "0")),
        Vector::of_sheet("D27: a kid out of order in a node that is not met", sheet("0", "0")),
        Vector::of_sheet("D27: a flag out of range in a node that is not met", sheet("-", "1")),
        Vector::of_sheet("D27: kids without their form in a node that is not met", sheet("-,", "0")),
    ])
}

/// Points that calls show.
pub fn scripts() -> Result<Vec<Vector>, String> {
    Ok([entered()?, texts()?, vec![reply()?]].concat())
}

/// D28 and D29: the buffer, and names in the order in which they were entered.
fn entered() -> Result<Vec<Vector>, String> {
    let (ask, uses) = (|number| ask_reference(number, 64), |number| ask_name(number, 64));
    let buffers = [7, 8].into_iter().flat_map(|buffer| [ask_reference(2, buffer), ask_reference(0, buffer)]);
    // Were the order that of the texts, a renamed to c would come after b.
    let sorted = vec![change_name(0, b"c"), change_name(1, b"c"), ask(2), ask(3), change_reference(2, b"c"), ask(2), uses(0), uses(1)];
    // In the order of entering a, which is n1, comes before b, which is n0.
    let renamed = vec![ask(2), change_name(1, b"b"), ask(2), change_name(0, b"z"), ask(2), uses(0), uses(1)];
    Ok(vec![
        Vector::of_tree("D28: 26 for the Withs alone", r#"21(4(18"a",4(18"b",18"c")))"#)?.with(buffers.collect()),
        Vector::of_tree(
            "D29: let a = 1; b = 2; in [ a b ]: entered in key order as loaded",
            r#"21(12(13(18"a",18"b"),25(23(18"a"),9"1"),25(23(18"b"),9"2")))"#,
        )?
        .with(sorted),
        Vector::of_tree(
            "D29: rec { b = 1; a = 2; c = b; }: entered in key order as loaded",
            r#"21(16!1(25(23(18"b"),9"1"),25(23(18"a"),9"2"),25(23(18"c"),18"b")))"#,
        )?
        .with(renamed),
    ])
}

/// D21 and D30 to D32: what a change says of texts.
fn texts() -> Result<Vec<Vector>, String> {
    let (long, ask) = (vec![b'l'; 1_000], |number| ask_reference(number, 64));
    let loaded = "l".repeat(256);
    let equal = vec![change_name(0, loaded.as_bytes()), change_reference(0, loaded.as_bytes()), ask(0), ask_name(0, 4)];
    let empty = (0..10).flat_map(|_| [change_name(0, b""), change_reference(0, b""), ask(0), change_name(0, b"x"), ask(0)]).collect();
    let own = vec![change_reference(0, b"q"), ask(0), ask(1), change_name(1, b"q"), ask(0), ask(1), change_reference(1, b"q"), ask(1)];
    let (one, other) = ("l".repeat(999) + "a", "l".repeat(999) + "b");
    let differ = format!(r#"21(11(28(18"{one}"),11(28(18"{other}"),13(18"{one}",18"{other}"))))"#);
    Ok(vec![
        Vector::of_tree("D21: a loaded text of 256 bytes set to itself", &format!(r#"21(11(28(18"{loaded}"),18"{loaded}"))"#))?.with(equal),
        Vector::of_tree("D30: changes to the empty text", r#"21(11(28(18"x"),18"x"))"#)?.with(empty),
        Vector::of_tree("D31: texts of 1,000 bytes that differ in the last", &differ)?.with(vec![
            ask(0),
            ask(1),
            change_name(1, b"x"),
            ask(1),
            change_name(1, &long),
            ask_name(0, 4),
        ]),
        Vector::of_tree("D32: x: let inherit x; in x: a text each", r#"21(11(28(18"x"),12(18"x",26(-,18"x"))))"#)?.with(own),
    ])
}

/// D33: a reply of 20 bytes is enough for every sort of answer, and one of 19 for none.
fn reply() -> Result<Vector, String> {
    let ask = |number| [19, 20].map(|reply| book::Call::AskReference { number, buffer: 8, reply });
    Ok(Vector::of_tree("D33: replies of 19 and 20 bytes", r#"21(11(28(18"x"),4(18"a",13(18"x",18"map",18"q"))))"#)?
        .with((0..5).flat_map(ask).collect()))
}
