//! The list of vectors: a small reader goes through both files, and the numbers in them add up.

use std::collections::BTreeSet;
use std::sync::OnceLock;

use oracle::vectors::{make, MOST_BYTES, MOST_LENT, MOST_REPLY};

/// Both files, made once for all tests, since finding the damaged sheets takes a while.
fn made() -> &'static (Vec<u8>, String) {
    static MADE: OnceLock<(Vec<u8>, String)> = OnceLock::new();
    MADE.get_or_init(|| tix::with_big_stack(|| make().expect("the vectors are made")))
}

/// The bytes that are still to be read.
struct Reader<'a>(&'a [u8]);

impl<'a> Reader<'a> {
    fn bytes(&mut self, length: usize) -> &'a [u8] {
        let (taken, rest) = self.0.split_at(length);
        self.0 = rest;
        taken
    }

    fn line(&mut self) -> &'a str {
        let length = self.0.iter().position(|&byte| byte == b'\n').expect("a line has its end");
        let line = self.bytes(length + 1);
        std::str::from_utf8(&line[..length]).expect("a line is text")
    }

    /// The value of a line with this key.
    fn value(&mut self, key: &str) -> &'a str {
        let line = self.line();
        line.strip_prefix(key).and_then(|rest| rest.strip_prefix('=')).unwrap_or_else(|| panic!("`{line}` where {key}= is wanted"))
    }

    fn number(&mut self, key: &str) -> usize {
        let digits = self.value(key);
        let number: usize = digits.parse().expect("a number");
        assert_eq!(number.to_string(), digits);
        number
    }

    fn is_next(&self, start: &str) -> bool {
        self.0.starts_with(start.as_bytes())
    }
}

/// A vector of the first file: its title, its sheet and the kinds of its calls.
fn vector<'a>(input: &mut Reader<'a>) -> (&'a str, &'a [u8], Vec<usize>) {
    let title = input.line();
    assert!(!title.is_empty() && title.bytes().all(|byte| (b' '..=b'~').contains(&byte)), "{title}");
    let length = input.number("sheet");
    assert!(length < 65_536, "{title}");
    let sheet = input.bytes(length);
    let mut kinds = Vec::new();
    for _ in 0..input.number("calls") {
        kinds.push(input.number("call"));
        assert!(input.number("number") <= u32::MAX as usize, "{title}");
        let lent = input.number("lent");
        let moved = if kinds[kinds.len() - 1] < 2 { 0 } else { input.number("moved") };
        assert!(lent <= MOST_LENT && moved <= MOST_LENT && input.number("reply") <= MOST_REPLY, "{title}");
        match kinds[kinds.len() - 1] {
            0 | 1 => {}
            2 | 3 => assert_eq!(input.bytes(lent + 1)[lent], b'\n', "{title}"),
            kind => panic!("{title}: a call of kind {kind}"),
        }
    }
    (title, sheet, kinds)
}

/// What refsheet prints of an accepted sheet.
fn answers(output: &mut Reader) {
    let [exprs, _, _, _] = ["exprs", "names", "scopes", "dups"].map(|key| output.number(key));
    while output.is_next("ref=") {
        assert!(output.number("ref") < exprs);
        assert!(output.number("answer") <= 3);
        output.value("to");
    }
}

/// What a call comes to; the refusal's number, 0 for none.
fn outcome(output: &mut Reader, kind: usize) -> usize {
    if output.is_next("refused=") {
        let refused = output.number("refused");
        output.number("at");
        return refused;
    }
    match kind {
        0 => {
            output.number("answer");
            output.value("to");
        }
        1 => drop(output.value("list")),
        _ => drop(output.value("moved")),
    }
    0
}

#[test]
fn numbers_add_up() {
    let (input, output) = made();
    assert!(input.len() <= MOST_BYTES, "{}", input.len());
    let (mut input, mut output) = (Reader(input), Reader(output.as_bytes()));
    assert!(input.line().starts_with("# Written by 'oracle vectors INPUT OUTPUT'. "));
    let (mut titles, mut refused, mut kinds_met) = (BTreeSet::new(), BTreeSet::new(), BTreeSet::new());
    while !input.0.is_empty() {
        let (title, sheet, kinds) = vector(&mut input);
        assert_eq!(output.line(), title);
        assert!(titles.insert(title), "{title} comes twice");
        let said = tix::with_big_stack(|| oracle::refsheet::output(sheet));
        assert_eq!(output.bytes(said.len()), said, "{title}");
        if said.starts_with(b"refused=") {
            assert!(kinds.is_empty(), "{title}");
            refused.insert(Reader(&said).number("refused"));
        }
        for &kind in &kinds {
            refused.insert(outcome(&mut output, kind));
            kinds_met.insert(kind);
        }
        if !kinds.is_empty() {
            answers(&mut output);
        }
    }
    assert!(output.0.is_empty());
    assert_eq!(refused.into_iter().collect::<Vec<_>>(), [0, 2, 3, 4, 5, 6, 7, 8, 21, 24, 25, 26, 27, 31, 32, 33, 34]);
    assert_eq!(kinds_met.into_iter().collect::<Vec<_>>(), [0, 1, 2, 3]);
    all_that_should_be(&titles);
}

/// Every marked example, trap, line of the request and point of docs/DECISIONS.md, and every cause of a refusal twice.
fn all_that_should_be(titles: &BTreeSet<&str>) {
    let count = |start: &str| titles.iter().filter(|title| title.starts_with(start)).count();
    assert_eq!(count("example: "), 12);
    assert!(count("trap: ") >= 4);
    ["line A: ", "line B: ", "line C: ", "line D: ", "line E: "].iter().for_each(|line| assert!(count(line) >= 2, "{line}"));
    assert_eq!(count("moved: "), 7);
    (1..=33).for_each(|point| assert!(count(&format!("D{point}: ")) >= 1, "D{point}"));
    [3, 31, 32, 33].iter().for_each(|number| assert!(count(&format!("values: {number}, ")) >= 1, "{number}"));
    let causes = judge::Cause::all();
    for cause in causes.iter().filter(|cause| **cause != judge::Cause::TooLong) {
        assert_eq!(count(&format!("damaged: {cause:?}, seed ")), 2, "{cause:?}");
    }
    assert_eq!(count("random "), 120);
}

#[test]
fn the_same_bytes_every_time() {
    tix::with_big_stack(|| assert!(make().as_ref() == Ok(made())));
}

/// What the program vectors is run on in the gate.
#[test]
fn the_stored_files_are_these() {
    let folder = std::path::Path::new(env!("CARGO_MANIFEST_DIR")).join("../../crates/vectors");
    let stored = |name: &str| std::fs::read(folder.join(name)).expect(name);
    let (input, output) = made();
    assert!(stored("stdin") == *input, "stdin: `oracle vectors` writes it anew");
    assert!(stored("stdout") == output.as_bytes(), "stdout: `oracle vectors` writes it anew");
}
