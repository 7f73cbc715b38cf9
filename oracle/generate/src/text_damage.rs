//! Damage to a sheet's bytes.

use crate::base::{any_flag, any_kind, any_text, node_of_kind, spot, valid};
use crate::rng::Rng;
use crate::{extreme, node_damage, wrong};
use sheet::kind::{FLOAT, IDENT, INTEGER};
use sheet::{MAX_BYTES, MAX_NODES};

/// A sheet as it is damaged: its lines, each with its line end.
type Lines = Vec<Vec<u8>>;
/// One way to damage a sheet, and what it does.
type Damage = (&'static str, fn(&mut Rng, &mut Lines));

/// The keys of a node's six lines.
const KEYS: [&str; 6] = ["kind=", "from=", "to=", "flag=", "kids=", "text="];
/// These lines by their number in a node.
const KIND: usize = 0;
const FROM: usize = 1;
const TO: usize = 2;
const FLAG: usize = 3;
const KIDS: usize = 4;
const TEXT: usize = 5;
const ALL: [usize; 6] = [KIND, FROM, TO, FLAG, KIDS, TEXT];

const DAMAGES: [Damage; 43] = [
    ("a bit is flipped", |rng, lines| change_byte(rng, lines, |rng, byte| byte ^ (1 << rng.below(8)))),
    ("a byte is changed", |rng, lines| change_byte(rng, lines, |rng, _| rng.draw() as u8)),
    ("a byte becomes NUL", |rng, lines| change_byte(rng, lines, |_, _| 0)),
    ("a byte becomes a line end", |rng, lines| change_byte(rng, lines, |_, _| b'\n')),
    ("a byte is inserted", insert_byte),
    ("a byte is removed", remove_byte),
    ("cut off anywhere", cut_anywhere),
    ("cut off after a line", |rng, lines| lines.truncate(spot(rng, lines.len()))),
    ("cut off before a line's end", cut_line_end),
    ("no line end at the end", |_, lines| drop_last_byte(lines)),
    ("bytes after the last line", trail),
    ("a line is removed", |rng, lines| drop(lines.remove(spot(rng, lines.len())))),
    ("a line is doubled", double_line),
    ("two lines are exchanged", exchange_lines),
    ("a key is damaged", damage_key),
    ("another line's key", other_key),
    ("an empty line", |rng, lines| lines.insert(spot(rng, lines.len() + 1), b"\n".to_vec())),
    ("CR before a line end", |rng, lines| {
        let line = spot(rng, lines.len());
        end_with(&mut lines[line], b"\r\n");
    }),
    ("CR before every line end", |_, lines| lines.iter_mut().for_each(|line| end_with(line, b"\r\n"))),
    ("a number without its form", bad_number),
    ("a number out of every range", huge_number),
    ("a number that is right but for whole words", wrap_number),
    ("kids without their form", bad_kids),
    ("a text without its form", bad_text),
    ("nodes out of range", |rng, lines| {
        set_nodes(lines, rng.pick(&["0", "4097", "4294967297", "18446744073709551617", "99999999999999999999"]))
    }),
    ("one node more or fewer is promised", other_count),
    ("a kind out of range", |rng, lines| set(rng, lines, 0, &["0", "34", "255", "256", "257", "277", "4294967317"])),
    ("Root is of another kind", |rng, lines| set_line(lines, 0, 0, &rng.between(1, 33).to_string())),
    ("from or to out of range", |rng, lines| {
        let field = rng.between(1, 2);
        set(rng, lines, field, &["4294967295", "4294967296", "18446744073709551616"]);
    }),
    ("from against to", |rng, lines| {
        let field = rng.between(1, 2);
        set(rng, lines, field, &["0", "1", "2", "4294967294", "4294967295"]);
    }),
    ("another flag", |rng, lines| on_kind(rng, lines, 3, |rng| rng.pick(&["256", "257", "16", "2", "3", "1", "0"]).to_string())),
    ("another flag for a kind", |rng, lines| on_kind(rng, lines, 3, |rng| any_flag(rng).to_string())),
    ("another text for a kind", |rng, lines| on_kind(rng, lines, 5, |rng| hex(&any_text(rng)))),
    ("another kid", other_kid),
    ("a flag against its kind's rule", |rng, lines| at_one(rng, lines, &[FLAG])),
    ("a text against its kind's rule", |rng, lines| at_one(rng, lines, &[TEXT])),
    ("a flag and a text that do not go together", flag_against_text),
    ("a from or a to against its rule", |rng, lines| at_one(rng, lines, &[FROM, TO])),
    ("wrong values in one node", |rng, lines| {
        let node = one(rng, lines);
        (0..rng.between(2, 4)).for_each(|_| wrong_value(rng, lines, node, &ALL));
    }),
    ("wrong values in many nodes", |rng, lines| {
        for _ in 0..rng.between(2, 4) {
            let node = spot(rng, count(lines));
            wrong_value(rng, lines, node, &ALL);
        }
    }),
    ("a wrong value in a node that nobody has", wrong_unmet),
    ("no sheet but other bytes", other_bytes),
    ("at or over the longest", longest),
];

/// A sheet with damage to it, and what the damage is. Now and then a second damage hides the first, and some are still
/// valid.
pub fn damaged(seed: u64) -> (Vec<u8>, &'static str) {
    let mut rng = Rng::new(seed ^ 0xda3a_6ed0_0000_0000);
    if rng.chance(35) {
        return node_damage::structural(rng.draw());
    }
    let mut lines = lines(&sheet::write(&valid(&mut rng)));
    let (what, damage) = rng.pick(&DAMAGES);
    damage(&mut rng, &mut lines);
    if rng.chance(20) && !lines.is_empty() {
        rng.pick(&DAMAGES).1(&mut rng, &mut lines);
    }
    (lines.concat(), what)
}

fn lines(bytes: &[u8]) -> Lines {
    bytes.split_inclusive(|&byte| byte == b'\n').map(<[u8]>::to_vec).collect()
}

fn exchange_lines(rng: &mut Rng, lines: &mut Lines) {
    let (one, other) = (spot(rng, lines.len()), spot(rng, lines.len()));
    lines.swap(one, other);
}

fn change_byte(rng: &mut Rng, lines: &mut Lines, change: fn(&mut Rng, u8) -> u8) {
    let line = spot(rng, lines.len());
    let at = spot(rng, lines[line].len());
    if let Some(byte) = lines[line].get_mut(at) {
        *byte = change(rng, *byte);
    }
}

fn insert_byte(rng: &mut Rng, lines: &mut Lines) {
    let line = spot(rng, lines.len());
    let at = spot(rng, lines[line].len());
    let drawn = rng.draw() as u8;
    lines[line].insert(at, rng.pick(&[b'0', b'1', b' ', b'-', b',', b'\n', b'=', b'a', drawn]));
}

fn remove_byte(rng: &mut Rng, lines: &mut Lines) {
    let line = spot(rng, lines.len());
    let at = spot(rng, lines[line].len());
    if at < lines[line].len() {
        lines[line].remove(at);
    }
}

fn cut_anywhere(rng: &mut Rng, lines: &mut Lines) {
    lines.truncate(spot(rng, lines.len()) + 1);
    if let Some(last) = lines.last_mut() {
        last.truncate(rng.below(last.len()));
    }
}

fn drop_last_byte(lines: &mut Lines) {
    if let Some(last) = lines.last_mut() {
        last.pop();
    }
}

fn cut_line_end(rng: &mut Rng, lines: &mut Lines) {
    lines.truncate(spot(rng, lines.len()) + 1);
    drop_last_byte(lines);
}

fn trail(rng: &mut Rng, lines: &mut Lines) {
    let more: [&[u8]; 7] = [b"\n", b"x", b"nodes=1\n", b" ", b"\0", b"kind=9\n", b"kind=9\nfrom=0\nto=0\nflag=0\nkids=\ntext=39\n"];
    lines.push(rng.pick(&more).to_vec());
}

fn double_line(rng: &mut Rng, lines: &mut Lines) {
    let line = spot(rng, lines.len());
    lines.insert(line, lines[line].clone());
}

fn end_with(line: &mut Vec<u8>, end: &[u8]) {
    line.pop();
    line.extend(end);
}

fn damage_key(rng: &mut Rng, lines: &mut Lines) {
    let line = spot(rng, lines.len());
    let line = &mut lines[line];
    match rng.below(5) {
        0 => line.insert(0, b' '),
        1 => line.make_ascii_uppercase(),
        2 => drop(line.drain(..line.len().min(1))),
        3 => line.retain(|&byte| byte != b'='),
        _ => line.iter_mut().filter(|byte| **byte == b'=').for_each(|byte| *byte = b':'),
    }
}

fn other_key(rng: &mut Rng, lines: &mut Lines) {
    let line = spot(rng, lines.len());
    let value = lines[line].iter().position(|&byte| byte == b'=').map_or(0, |at| at + 1);
    let key = if rng.chance(15) { "nodes=" } else { KEYS[rng.below(6)] };
    lines[line].splice(..value, key.bytes());
}

/// The number of nodes that the lines have room for.
fn count(lines: &Lines) -> usize {
    lines.len().saturating_sub(1) / 6
}

/// Writes a value into a node's line. Where the line is not there, there is nothing to damage.
fn set_line(lines: &mut Lines, node: usize, field: usize, value: &str) {
    if let Some(line) = lines.get_mut(1 + 6 * node + field) {
        *line = format!("{}{value}\n", KEYS[field]).into_bytes();
    }
}

fn set(rng: &mut Rng, lines: &mut Lines, field: usize, values: &[&str]) {
    let node = spot(rng, count(lines));
    set_line(lines, node, field, rng.pick(values));
}

fn set_nodes(lines: &mut Lines, value: &str) {
    lines[0] = format!("nodes={value}\n").into_bytes();
}

fn bad_number(rng: &mut Rng, lines: &mut Lines) {
    let forms =
        ["", "01", "00", "007", "+1", "-1", "-", " 1", "1 ", "1a", "0x1", "1.0", "1,2", "\u{ff11}", "1\r", "00000000000000000000000000001"];
    match rng.below(5) {
        0 => set_nodes(lines, rng.pick(&forms)),
        field => set(rng, lines, field - 1, &forms),
    }
}

fn huge_number(rng: &mut Rng, lines: &mut Lines) {
    let digits = "9".repeat(rng.between(20, 400));
    match rng.below(6) {
        0 => set_nodes(lines, &digits),
        field => set(rng, lines, field - 1, &[&digits]),
    }
}

/// Adds a multiple of 2 to the 32nd or 64th to a number, which an arithmetic that drops the carry would not notice.
fn wrap_number(rng: &mut Rng, lines: &mut Lines) {
    let line = spot(rng, lines.len());
    let key = lines[line].iter().position(|&byte| byte == b'=').map_or(0, |at| at + 1);
    let digits: String = lines[line][key..].iter().take_while(|byte| byte.is_ascii_digit()).map(|&byte| char::from(byte)).collect();
    let Ok(value) = digits.parse::<u128>() else { return };
    let wrapped = match rng.below(3) {
        0 => value.saturating_add(1 << 32).to_string(),
        1 => value.saturating_add(1 << 64).to_string(),
        // Ten to the 64th is a multiple of 2 to the 64th.
        _ => format!("1{value:064}"),
    };
    lines[line].splice(key..key + digits.len(), wrapped.bytes());
}

fn bad_kids(rng: &mut Rng, lines: &mut Lines) {
    let forms = [
        "1,",
        ",1",
        ",",
        "1,,2",
        "--",
        "-,",
        ",-",
        "01",
        "1,01",
        "-1",
        "1-",
        "1, 2",
        " ",
        "1;2",
        "1 2",
        "+1",
        "a",
        "1,2,3,",
        "-,-,",
        "00",
        "0,00",
        "1,\u{2d}\u{2d}",
    ];
    set(rng, lines, 4, &forms);
}

fn bad_text(rng: &mut Rng, lines: &mut Lines) {
    let node = spot(rng, count(lines));
    let forms = ["0", "6", "616", "6A", "FF", "6g", "g6", " 61", "61 ", "0x61", "-", "6 1", "61,62", "/0", ":0", "`0", "@0"];
    set_line(lines, node, 5, rng.pick(&forms));
}

fn other_count(rng: &mut Rng, lines: &mut Lines) {
    let count = count(lines);
    let other = rng.pick(&[count + 1, count.saturating_sub(1), 1, 2, MAX_NODES]);
    set_nodes(lines, &other.to_string());
}

/// A node of a kind by chance, those with a flag or a text of their own more often, in the lines of another sheet.
fn other_sheet(rng: &mut Rng, lines: &mut Lines) -> usize {
    let kind = if rng.chance(50) { any_kind(rng) } else { rng.pick(&[8, 9, 14, 16, 17, 18, 29]) };
    sheet_with(rng, lines, kind)
}

/// A node of this kind in the lines of another sheet.
fn sheet_with(rng: &mut Rng, lines: &mut Lines, kind: u8) -> usize {
    let mut nodes = valid(rng);
    let node = node_of_kind(rng, &mut nodes, kind);
    *lines = self::lines(&sheet::write(&nodes));
    node
}

/// Writes a value for a node of a kind by chance.
fn on_kind(rng: &mut Rng, lines: &mut Lines, field: usize, value: fn(&mut Rng) -> String) {
    let node = other_sheet(rng, lines);
    set_line(lines, node, field, &value(rng));
}

/// A node of these lines or of others.
fn one(rng: &mut Rng, lines: &mut Lines) -> usize {
    match rng.chance(30) {
        true => spot(rng, count(lines)),
        false => other_sheet(rng, lines),
    }
}

fn at_one(rng: &mut Rng, lines: &mut Lines, fields: &[usize]) {
    let node = one(rng, lines);
    wrong_value(rng, lines, node, fields);
}

/// The number that a node's line has, where it has one that is small enough.
fn number(lines: &Lines, node: usize, field: usize) -> Option<u32> {
    let line = String::from_utf8_lossy(lines.get(1 + 6 * node + field)?);
    line.strip_prefix(KEYS[field])?.trim_end().parse().ok()
}

/// Writes a value into one of these lines of a node that it must not have there. A text that may be any stays.
fn wrong_value(rng: &mut Rng, lines: &mut Lines, node: usize, fields: &[usize]) {
    let read = |field| number(lines, node, field).unwrap_or(0);
    let (kind, flag) = (read(KIND) as u8, read(FLAG) as u8);
    let field = rng.pick(fields);
    let value = match field {
        KIND => Some(wrong::kind(rng)),
        FROM => Some(wrong::from(rng, read(TO))),
        TO => Some(wrong::to(rng, read(FROM))),
        FLAG => Some(wrong::written_flag(rng, kind)),
        KIDS => Some(wrong::kids(rng, count(lines))),
        _ => wrong::text(rng, kind, flag).map(|text| hex(&text)),
    };
    if let Some(value) = value {
        set_line(lines, node, field, &value);
    }
}

/// A flag that is right by itself, and a text that is not right with it.
fn flag_against_text(rng: &mut Rng, lines: &mut Lines) {
    let ident = [(IDENT, "0", "78"), (IDENT, "0", "00")];
    let float = [(FLOAT, "0", "3ff0000000000000"), (FLOAT, "1", ""), (FLOAT, "1", "7ff0000000000001")];
    let (kind, flag, text) = rng.pick(&[&ident[..], &float[..], &[(INTEGER, "0", "")]].concat());
    let node = sheet_with(rng, lines, kind);
    set_line(lines, node, FLAG, flag);
    set_line(lines, node, TEXT, text);
}

/// One node more, which is no kid of another, and its lines are wrong or its kids.
fn wrong_unmet(rng: &mut Rng, lines: &mut Lines) {
    let node = count(lines);
    let more = rng.pick(&["kind=15\nfrom=0\nto=0\nflag=0\nkids=-\ntext=\n", "kind=18\nfrom=3\nto=4\nflag=0\nkids=\ntext=\n"]);
    lines.truncate(1 + 6 * node);
    lines.extend(self::lines(more.as_bytes()));
    set_nodes(lines, &(node + 1).to_string());
    if rng.chance(30) {
        set_line(lines, node, KIDS, rng.pick(&["", "-,-", "0", "1,-"]));
    }
    wrong_value(rng, lines, node, &[FROM, TO, FLAG, FLAG, TEXT, TEXT]);
}

fn other_kid(rng: &mut Rng, lines: &mut Lines) {
    let count = count(lines);
    let node = spot(rng, count);
    let near = [count, count + 1, count.saturating_sub(1), 0, node, node + 1, 4_096].map(|kid| kid as u64);
    let far = [u64::from(u32::MAX), u64::from(u32::MAX) + 1, u64::MAX];
    let kid = if rng.chance(70) { rng.pick(&near) } else { rng.pick(&far) };
    let kids = match rng.below(4) {
        0 => format!("{kid},{kid}"),
        1 => format!("-,{kid}"),
        2 => format!("{kid},-"),
        _ => kid.to_string(),
    };
    set_line(lines, node, 4, &kids);
}

fn other_bytes(rng: &mut Rng, lines: &mut Lines) {
    let length = rng.below(80);
    let alphabet = b"nodeskindfrmtflagx=0123456789,-\n\n\n";
    let bytes = match rng.below(5) {
        0 => Vec::new(),
        1 => (0..length).map(|_| rng.draw() as u8).collect(),
        2 => (0..length).map(|_| rng.pick(alphabet)).collect(),
        3 => [b"nodes=1\n".to_vec(), (0..length).map(|_| rng.pick(alphabet)).collect()].concat(),
        _ => rng.pick(&["\n", "nodes=", "nodes=1", "nodes=1\n", "\0", "\u{feff}nodes=1\n", "\r\n", "nodes"]).as_bytes().to_vec(),
    };
    *lines = self::lines(&bytes);
}

/// At the longest, and one byte more: in order but for the length, or with something else amiss.
fn longest(rng: &mut Rng, lines: &mut Lines) {
    let length = MAX_BYTES + rng.below(2);
    match rng.below(3) {
        0 => *lines = self::lines(&extreme::exactly_written(length)),
        1 => *lines = vec![vec![b'x'; length]],
        _ => {
            let missing = length.saturating_sub(lines.concat().len());
            lines.push(vec![b'x'; missing]);
        }
    }
}

fn hex(text: &[u8]) -> String {
    text.iter().map(|byte| format!("{byte:02x}")).collect()
}
