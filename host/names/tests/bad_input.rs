//! Bad input: one sentence on standard error, nothing on standard output, exit status 1.

mod common;

use common::{file, names_with};

const LAMBDA: &str = "examples/lambda.sheet";

#[track_caller]
fn refused(words: &[&str], input: &[u8], sentence: &str) {
    let ran = names_with(words, input);
    assert_eq!((ran.status, ran.out.as_str(), ran.err), (1, "", format!("names: {sentence}\n")));
}

#[test]
fn words_that_are_no_command() {
    refused(&["shwo", LAMBDA], b"", "`shwo` is no command: `names --help` lists them");
    refused(&["--json"], b"", "a command is missing: `names --help` lists them");
    refused(&["show"], b"", "show takes SHEET [NIX]: `names --help` says more");
    refused(&["show", LAMBDA, "--jsno"], b"", "`--jsno` is no option: `names --help` lists them");
    refused(&["follow", LAMBDA, "one"], b"", "`one` is no BYTE: a number below 4294967296, or LINE:COLUMN, is wanted");
}

#[test]
fn files_that_can_t_be_read() {
    refused(&["show", "examples/nope.sheet"], b"", "examples/nope.sheet: there is no such file");
    refused(&["show", "examples"], b"", "examples: it is a directory");
    refused(&["show", LAMBDA, "nope.nix"], b"", "nope.nix: there is no such file");
    refused(&["run", LAMBDA, "nope.script"], b"", "nope.script: there is no such file");
    refused(&["run", LAMBDA, "examples"], b"", "examples: it is a directory");
    refused(&["show", "-", "-"], b"", "the sheet and the Nix text can't both be standard input");
    refused(&["run", "-"], b"", "the sheet and the script can't both be standard input");
}

#[test]
fn sheets_that_are_refused() {
    let form = |byte: usize, line: usize| {
        format!(
            "standard input: refused (2): at byte {byte} of the sheet a line is missing, or is without its key, its form or the newline at \
             its end, or bytes follow the last line (line {line} of the sheet)"
        )
    };
    refused(&["show", "-"], b"nodes=1\nkind:21\n", &form(8, 2));
    refused(&["follow", "-", "0"], b"", &form(0, 1));
    let flag = "standard input: refused (31): at byte 28 of the sheet a node has a flag that its kind does not have (line 5 of the sheet)";
    refused(&["show", "-"], b"nodes=1\nkind=21\nfrom=0\nto=0\nflag=1\n", flag);
    let kid = b"nodes=1\nkind=21\nfrom=0\nto=0\nflag=0\nkids=\ntext=\n";
    let sentence = "refused (4): node 0 of the sheet has too few or too many kids";
    let path = file("no-kid.sheet", kid);
    refused(&["lines", &path], b"", "lines takes nothing more: `names --help` says more");
    refused(&["run", &path], b"", &format!("{path}: {sentence}"));
    let long = "standard input: refused (1): the sheet has more than 1,048,576 bytes";
    refused(&["show", "-"], &vec![b'n'; 3_000_000], long);
}

#[test]
fn bytes_and_places_outside() {
    refused(&["follow", LAMBDA, "4"], b"", "byte 4 is outside the Nix text, which goes from 0 to 4");
    refused(&["references", LAMBDA, "4294967295"], b"", "byte 4294967295 is outside the Nix text, which goes from 0 to 4");
    refused(&["follow", LAMBDA, "1:4"], b"", "1:4 is a line and a column, for which the Nix text is wanted too");
    refused(&["follow", LAMBDA, "2:1", "-"], b"x: x", "2:1 is outside the Nix text");
    refused(&["follow", LAMBDA, "0:0", "-"], b"x: x", "0:0 is outside the Nix text");
}

#[test]
fn a_text_of_another_sheet() {
    refused(&["show", LAMBDA, "-"], b"y: y", "standard input: not the text of this sheet, which has `x` at 3..4");
    refused(&["show", LAMBDA, "-"], b"", "standard input: not the text of this sheet, which has `x` at 3..4");
}

#[test]
fn lines_that_are_no_calls() {
    let wrong = "standard input: line 2: `ask` is no call: ask-ref, ask-name, set-ref or set-name is wanted";
    let ran = names_with(&["run", LAMBDA], b"ask-ref 0\nask 1\nask-ref 0\n");
    assert_eq!((ran.status, ran.out.as_str(), ran.err), (1, "answer=1 to=0 length=0 list=\n", format!("names: {wrong}\n")));
    refused(&["run", LAMBDA], b"\xff\n", "standard input: line 1: it is not UTF-8");
    refused(&["run", LAMBDA], &[b' '; 70_000], "standard input: line 1: it has more than 65536 bytes");
}

/// Damaged sheets are refused in one sentence, or are sheets after all.
#[test]
fn damaged_sheets_get_a_sentence() {
    for seed in 0..100 {
        let (sheet, what) = generate::damaged(seed);
        let ran = names_with(&["show", "-"], &sheet);
        assert_eq!(ran.status == 0, ran.err.is_empty(), "{what}");
        assert!(ran.status == 0 || ran.err.starts_with("names: standard input: refused ("), "{what}: {}", ran.err);
    }
}
