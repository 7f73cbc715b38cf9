//! The sheet writer against the oracle: trees that it writes, in any order of their nodes, and trees that it refuses.

mod common;

use generate::{structural, Preset, Rng};
use lang_ast::{BinOp, Fault, Kind, NodeId, SheetError, SheetWriter, UnaryOp};
use sheet::check::check;
use sheet::{kind, Node};
use std::collections::BTreeSet;

/// The kind of a node with its flag and text; none where the type of kinds can't say it.
fn typed(node: &Node) -> Option<Kind> {
    let (flag, text) = (u32::from(node.flag), node.text.clone());
    let yes = flag == 1;
    let said = match node.kind {
        kind::PATH => Kind::Path(text),
        kind::FLOAT => Kind::Float(<[u8; 8]>::try_from(text).ok().filter(|_| yes).map(|bits| f64::from_bits(u64::from_be_bytes(bits)))),
        kind::INTEGER => Kind::Integer(text),
        kind::BIN_OP => Kind::BinOp(BinOp::from_number(flag)),
        kind::ATTR_SET => Kind::AttrSet { rec: yes },
        kind::UNARY_OP => Kind::UnaryOp(UnaryOp::from_number(flag)),
        kind::IDENT => Kind::Ident(yes.then_some(text)),
        kind::PATTERN => Kind::Pattern { ellipsis: yes },
        kind::LITERAL_PART => Kind::LiteralPart(text),
        other => plain(other)?,
    };
    // The flag and the text that a sheet of it would have: those of the node, or the type can't say them.
    (written_alone(&said) == (node.kind, node.flag, node.text.clone())).then_some(said)
}

/// The kinds without a flag and a text.
fn plain(number: u8) -> Option<Kind> {
    use Kind::*;
    let kinds = [
        Apply,
        IfElse,
        Select,
        With,
        HasAttr,
        Str,
        Uri,
        Lambda,
        LetIn,
        List,
        Paren,
        Assert,
        Error,
        Root,
        LegacyLet,
        Attrpath,
        Dynamic,
        AttrpathValue,
        Inherit,
        InheritFrom,
        IdentParam,
        PatBind,
        PatEntry,
        Interpolation,
    ];
    kinds.into_iter().find(|kind| kind.number() == u32::from(number))
}

/// Number, flag and text of a kind as the library's own values say them.
fn written_alone(kind: &Kind) -> (u8, u8, Vec<u8>) {
    let (flag, text) = match kind {
        Kind::Path(text) | Kind::Integer(text) | Kind::LiteralPart(text) => (0, text.clone()),
        Kind::Float(value) => (u32::from(value.is_some()), value.map_or(Vec::new(), |value| value.to_bits().to_be_bytes().to_vec())),
        Kind::BinOp(operator) => (operator.map_or(0, BinOp::number), Vec::new()),
        Kind::UnaryOp(operator) => (operator.map_or(0, UnaryOp::number), Vec::new()),
        Kind::AttrSet { rec: yes } | Kind::Pattern { ellipsis: yes } => (u32::from(*yes), Vec::new()),
        Kind::Ident(text) => (u32::from(text.is_some()), text.clone().unwrap_or_default()),
        _ => (0, Vec::new()),
    };
    (kind.number() as u8, flag as u8, text)
}

fn shuffled(rng: &mut Rng, count: usize) -> Vec<usize> {
    let mut order: Vec<usize> = (0..count).collect();
    for i in (1..count).rev() {
        order.swap(i, rng.below(i + 1));
    }
    order
}

/// Feeds the nodes to a writer, added in one random order and linked in another. None where a kind can't be said.
fn fed(rng: &mut Rng, nodes: &[Node]) -> Option<Result<Vec<u8>, SheetError>> {
    let kinds = nodes.iter().map(typed).collect::<Option<Vec<Kind>>>()?;
    let mut writer = SheetWriter::new();
    // A handle of another writer stands for a kid that is no node.
    let mut other = SheetWriter::new();
    let mut handles = vec![None; nodes.len()];
    for own in shuffled(rng, nodes.len()) {
        handles[own] = Some(writer.add(kinds[own].clone(), nodes[own].from, nodes[own].to));
    }
    let stray = (0..=nodes.len()).map(|_| other.add(Kind::Error, 0, 0)).last();
    let handle = |number: usize| -> Option<NodeId> { handles.get(number).copied().unwrap_or(stray) };
    for own in shuffled(rng, nodes.len()) {
        let kids: Vec<Option<NodeId>> = nodes[own].kids.iter().map(|kid| kid.and_then(|kid| handle(kid as usize))).collect();
        let (first, second) = kids.split_at(rng.below(kids.len() + 1));
        writer.link(handle(own)?, first.iter().copied());
        writer.link(handle(own)?, second.iter().copied());
    }
    Some(writer.finish(handle(0)?))
}

#[test]
fn valid_trees_in_any_order_give_the_oracles_sheet() {
    let rng = &mut Rng::new(1);
    for preset in Preset::ALL {
        let count = if matches!(preset, Preset::Tiny | Preset::Small | Preset::Medium | Preset::Keys) { 400 } else { 24 };
        for seed in 0..count {
            let nodes = preset.sheet(seed);
            let written = fed(rng, &nodes).expect("all of a valid tree can be said");
            assert!(written.as_ref() == Ok(&sheet::write(&nodes)), "{} {seed}: {:?}", preset.name(), written.err());
        }
    }
}

/// The nodes of a sheet whose lines are in form, whatever their values.
fn read(sheet: &[u8]) -> Vec<Node> {
    let text = String::from_utf8(sheet.to_vec()).expect("a sheet is ASCII");
    let values: Vec<&str> = text.lines().skip(1).filter_map(|line| line.split_once('=')).map(|line| line.1).collect();
    let number = |digits: &str| digits.parse::<u32>().expect("a number");
    let kids = |list: &str| match list {
        "" => Vec::new(),
        list => list.split(',').map(|kid| if kid == "-" { None } else { Some(number(kid)) }).collect(),
    };
    let bytes = |digits: &str| {
        let pair = |i: usize| u8::from_str_radix(&digits[i..i + 2], 16).expect("hex");
        (0..digits.len()).step_by(2).map(pair).collect()
    };
    let node = |lines: &[&str]| Node {
        kind: number(lines[0]) as u8,
        from: number(lines[1]),
        to: number(lines[2]),
        flag: number(lines[3]) as u8,
        kids: kids(lines[4]),
        text: bytes(lines[5]),
    };
    values.chunks(6).map(node).collect()
}

/// The same nodes numbered as a walk from node 0 meets them first, those that it does not meet behind them.
fn renumbered(nodes: &[Node]) -> Vec<Node> {
    let mut order: Vec<usize> = Vec::new();
    let mut waiting = vec![0];
    while let Some(own) = waiting.pop() {
        if own < nodes.len() && !order.contains(&own) {
            order.push(own);
            waiting.extend(nodes[own].kids.iter().rev().flatten().map(|&kid| kid as usize));
        }
    }
    let met: BTreeSet<usize> = order.iter().copied().collect();
    order.extend((0..nodes.len()).filter(|own| !met.contains(own)));
    let mut numbers = vec![0; nodes.len()];
    order.iter().enumerate().for_each(|(number, &own)| numbers[own] = number as u32);
    let kid = |kid: u32| numbers.get(kid as usize).copied().unwrap_or(kid);
    let node = |&own: &usize| Node { kids: nodes[own].kids.iter().map(|number| number.map(kid)).collect(), ..nodes[own].clone() };
    order.iter().map(node).collect()
}

fn fault_name(error: &SheetError) -> String {
    let said = format!("{:?}", error.fault);
    said.split([' ', '{']).next().unwrap_or_default().to_string()
}

/// A writer numbers the nodes itself, so what it must refuse is what the oracle refuses of the nodes numbered by the
/// walk.
#[test]
fn damaged_trees_are_refused_as_the_oracle_refuses_them() {
    let rng = &mut Rng::new(2);
    let (mut faults, mut accepted, mut unsaid) = (BTreeSet::new(), 0, 0);
    for seed in 0..6_000 {
        let nodes = read(&structural(seed).0);
        if nodes.is_empty() {
            continue;
        }
        let right = sheet::write(&renumbered(&nodes));
        match fed(rng, &nodes) {
            None => unsaid += 1,
            Some(Ok(sheet)) => {
                assert!(check(&sheet).is_ok() && sheet == right, "seed {seed} is written, but not as it should be");
                accepted += 1;
            }
            Some(Err(error)) => {
                assert!(check(&right).is_err(), "seed {seed} is refused without a reason: {error}");
                faults.insert(fault_name(&error));
            }
        }
    }
    assert!(accepted > 300 && unsaid > 100, "{accepted} accepted, {unsaid} that can't be said");
    let all = "AbsentInList FromAboveTo KidCount LinkedTwice NotLinked RootKind TooDeep TooManyNodes Unknown Value WrongKid";
    assert_eq!(faults.into_iter().collect::<Vec<_>>().join(" "), all);
}

/// A Root over an Ident with a text.
fn over(kind: Kind) -> Result<Vec<u8>, SheetError> {
    let mut writer = SheetWriter::new();
    let (root, only) = (writer.add(Kind::Root, 0, 9), writer.add(kind, 0, 9));
    writer.link(root, [only]);
    writer.finish(root)
}

#[test]
fn the_longest_sheet_is_written_and_no_longer_one() {
    let around = over(Kind::ident("")).expect("a sheet").len();
    let half = (1_048_576 - around) / 2;
    assert!(check(&over(Kind::ident(vec![b'x'; half])).expect("a sheet")).is_ok());
    let error = over(Kind::ident(vec![b'x'; half + 1])).expect_err("too long");
    assert!(matches!(error.fault, Fault::TooLong { bytes } if bytes > 1_048_576), "{error}");
}

#[test]
fn a_path_has_at_most_16_attributes() {
    let with_attributes = |count: usize| {
        let mut writer = SheetWriter::new();
        let (root, select, path) = (writer.add(Kind::Root, 0, 9), writer.add(Kind::Select, 0, 9), writer.add(Kind::Attrpath, 0, 9));
        let attributes: Vec<NodeId> = (0..count).map(|_| writer.add(Kind::ident("a"), 0, 9)).collect();
        writer.link(root, [select]);
        writer.link(select, [None, Some(path), None]);
        writer.link(path, attributes);
        writer.finish(root)
    };
    assert!(check(&with_attributes(0).expect("a sheet")).is_ok());
    assert!(check(&with_attributes(16).expect("a sheet")).is_ok());
    let error = with_attributes(17).expect_err("one too many");
    let said = "node 2 (Attrpath, 0 to 9) has 17 kids, and at most 16 are allowed: the kids of an Attrpath are its attributes";
    assert_eq!(error.to_string(), said);
}

#[test]
fn values_are_checked() {
    for value in [0.0, 1.5, f64::MAX, f64::INFINITY] {
        assert!(check(&over(Kind::Float(Some(value))).expect("a sheet")).is_ok());
    }
    for value in [-0.0, -1.0, f64::NAN, -f64::NAN, f64::NEG_INFINITY] {
        assert_eq!(over(Kind::Float(Some(value))).expect_err("no value").fault, Fault::Value);
    }
    assert!(over(Kind::integer("007")).is_ok());
    for digits in ["", "-1", "1.0", "x"] {
        assert_eq!(over(Kind::integer(digits)).expect_err("no digits").fault, Fault::Value);
    }
}

#[test]
fn errors_say_what_and_where() {
    let mut writer = SheetWriter::new();
    let (root, lambda) = (writer.add(Kind::Root, 0, 9), writer.add(Kind::Lambda, 2, 9));
    writer.link(root, [lambda]);
    let said = |writer: &SheetWriter, root| writer.finish(root).expect_err("an error").to_string();
    let its_kids = "the kids of a Lambda are its parameter and its body";
    let too_few = format!("node 1 (Lambda, 2 to 9) has 0 kids in place of 2: {its_kids}, and an absent one is linked as None");
    assert_eq!(said(&writer, root), too_few);
    assert_eq!(said(&writer, lambda), "node 1 (Lambda, 2 to 9) can't be the root: that is a Root");
    writer.link(lambda, [Some(root), None]);
    let wrong = "node 1 (Lambda, 2 to 9) has Root as kid 0, where an IdentParam or a Pattern is wanted, or None";
    assert_eq!(said(&writer, root), format!("{wrong}: {its_kids}"));
    let mut other = SheetWriter::new();
    let stray = (0..9).map(|_| other.add(Kind::Error, 0, 0)).last().expect("nine nodes");
    assert_eq!(said(&writer, stray), "node 8 is of no node that this writer gave out");
    writer.link(stray, [root]);
    assert_eq!(said(&writer, root), "node 8 is of no node that this writer gave out");
}

/// What is said of a node below a Root that has these kids.
fn said_of(kind: Kind, kids: &[Option<Kind>]) -> String {
    let mut writer = SheetWriter::new();
    let (root, node) = (writer.add(Kind::Root, 0, 21), writer.add(kind, 0, 21));
    writer.link(root, [node]);
    let kids: Vec<Option<NodeId>> = kids.iter().map(|kid| kid.as_ref().map(|kid| writer.add(kid.clone(), 2, 3))).collect();
    writer.link(node, kids);
    let error = writer.finish(root).expect_err("an error");
    let shown = format!("SheetError {{ fault: {:?}, node: {:?}, says: {:?} }}", error.fault, error.node, error.to_string());
    assert_eq!(format!("{error:?}"), shown);
    error.to_string()
}

#[test]
fn errors_say_which_kids_there_are() {
    let (x, entry) = (Some(Kind::ident("x")), Some(Kind::AttrpathValue));
    let let_in = "the kids of a LetIn are its body, then its entries";
    let in_text_order = format!("node 1 (LetIn, 0 to 21) has AttrpathValue as kid 0, where an expression is wanted, or None: {let_in}");
    assert_eq!(said_of(Kind::LetIn, &[entry.clone(), x.clone()]), in_text_order);
    let no_kids = format!("node 1 (LetIn, 0 to 21) has 0 kids, and at least 1 is wanted: {let_in}, and an absent one is linked as None");
    assert_eq!(said_of(Kind::LetIn, &[]), no_kids);
    let no_entry = format!("node 1 (LetIn, 0 to 21) has no kid 1, which is an item of a list and can't be absent: {let_in}");
    assert_eq!(said_of(Kind::LetIn, &[x.clone(), None]), no_entry);
    let no_list = format!("node 1 (LetIn, 0 to 21) has Ident as kid 1, where an AttrpathValue or an Inherit is wanted: {let_in}");
    assert_eq!(said_of(Kind::LetIn, &[None, x.clone()]), no_list);
    let apply = "the kids of an Apply are its function and its argument";
    let one = format!("node 1 (Apply, 0 to 21) has 1 kid in place of 2: {apply}, and an absent one is linked as None");
    assert_eq!(said_of(Kind::Apply, std::slice::from_ref(&x)), one);
    let three = format!("node 1 (Apply, 0 to 21) has 3 kids in place of 2: {apply}");
    assert_eq!(said_of(Kind::Apply, &[x.clone(), x.clone(), None]), three);
    assert_eq!(said_of(Kind::Uri, std::slice::from_ref(&x)), "node 1 (Uri, 0 to 21) has 1 kid in place of 0: a Uri has no kids");
    let paren =
        "node 1 (Paren, 0 to 21) has AttrpathValue as kid 0, where an expression is wanted, or None: the kid of a Paren is its expression";
    assert_eq!(said_of(Kind::Paren, &[entry]), paren);
    let pattern = "the kids of a Pattern are its PatBind, then its PatEntries";
    let no_bind = format!("node 2 (Pattern, 2 to 3) has PatEntry as kid 0, where a PatBind is wanted, or None: {pattern}");
    assert_eq!(said_of_pattern(&[]), no_bind);
    let field = "the kids of a PatEntry are its Ident and its default";
    let no_default = format!("node 3 (PatEntry, 2 to 3) has 1 kid in place of 2: {field}, and an absent one is linked as None");
    assert_eq!(said_of_pattern(&[None]), no_default);
}

/// What is said of a function of the field x, whose default is not linked, if these kids stand before the field.
fn said_of_pattern(before: &[Option<NodeId>]) -> String {
    let mut writer = SheetWriter::new();
    let kinds = [Kind::Root, Kind::Lambda, Kind::Pattern { ellipsis: false }, Kind::PatEntry, Kind::ident("x")];
    let [root, lambda, pattern, field, ident] = kinds.map(|kind| writer.add(kind, 2, 3));
    writer.link(root, [lambda]);
    writer.link(lambda, [Some(pattern), None]);
    writer.link(pattern, before.iter().copied());
    writer.link(pattern, [field]);
    writer.link(field, [ident]);
    writer.finish(root).expect_err("an error").to_string()
}
