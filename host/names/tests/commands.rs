//! What each command prints on the examples.

mod common;

use common::{file, names, names_with, printed};

const INHERIT: &str = "examples/line-a-plain-inherit-in-let.sheet";
const INHERIT_NIX: &[u8] = b"base: let inherit base; search = base; in search";

#[test]
fn show_lists_references_in_the_order_of_the_text() {
    let expected = "    text    place   means
e0  base    18..22  parameter base (n0) at 0..4
e1  base    33..37  let base (n1) at 18..22
e2  search  42..48  let search (n2) at 24..30

3 references: 3 mean definitions
5 expressions, 3 names, 3 scopes
no duplicate keys
";
    assert_eq!(printed(&["show", INHERIT], b""), expected);
}

#[test]
fn show_tells_builtins_withs_and_nothing() {
    let out = printed(&["show", "examples/with-in-with.sheet"], b"");
    assert!(out.contains("e0  a     5..6    nothing\n"), "{out}");
    assert!(out.contains("e2  c     16..17  with (e3) at 8..17, else with (e4) at 0..17\n"), "{out}");
    assert!(out.contains("3 references: 2 mean withs, 1 means nothing\n"), "{out}");
    assert!(printed(&["show", "examples/builtin-under-with.sheet"], b"").contains("e1  map   8..11  builtin map\n"));
    assert!(printed(&["show", "examples/replaced-value.sheet"], b"").contains("9..10  nothing: it stands in a value that was replaced"));
}

#[test]
fn show_marks_both_places_of_a_duplicate_key() {
    let expected = "no references
4 expressions, 2 names, 1 scope
1 duplicate key
  base at 2..6 (2:1) and again at 15..19 (3:1)
    2 | base.dn = 1;
      | ^^^^
    3 | base = 2; }
      | ^^^^
";
    assert_eq!(printed(&["show", "examples/line-c-path-and-value.sheet", "-"], b"{\nbase.dn = 1;\nbase = 2; }"), expected);
}

#[test]
fn follow_goes_from_a_use_to_its_definition() {
    let expected = "here   reference base (e1) at 33..37 (1:34)
       1 | base: let inherit base; search = base; in search
         |                                  ^^^^
means  let base (n1) at 18..22 (1:19)
       1 | base: let inherit base; search = base; in search
         |                   ^^^^
";
    for byte in ["33", "36", "1:34"] {
        assert_eq!(printed(&["follow", INHERIT, byte, "-"], INHERIT_NIX), expected);
    }
}

#[test]
fn follow_tells_the_two_sides_of_an_inherit() {
    let expected = "here   reference base (e0) at 18..22
means  parameter base (n0) at 0..4
also   let base (n1) at 18..22, which inherits it
";
    assert_eq!(printed(&["follow", INHERIT, "18"], b""), expected);
}

#[test]
fn follow_tells_names_keys_and_other_expressions() {
    let follow = |sheet, byte| printed(&["follow", sheet, byte], b"");
    assert_eq!(follow(INHERIT, "0"), "here   parameter base (n0) at 0..4, the definition itself\n");
    assert_eq!(follow(INHERIT, "4"), "here   function (e4) at 0..48: no name to follow\n");
    let again = follow("examples/line-c-path-and-value.sheet", "15");
    assert_eq!(again, "here   key base at 15..19, written again\nmeans  set key base (n0) at 2..6\n");
    assert!(follow("examples/line-b-builtin-under-with.sheet", "20").ends_with("means  builtin map\n"));
}

#[test]
fn references_are_those_of_the_definition() {
    let expected = "parameter y (n0) at 0..1: 2 references\n  e0  8..9\n  e1  11..12\n";
    for byte in ["0", "8", "11"] {
        assert_eq!(printed(&["references", "examples/definition-before-with.sheet", byte], b""), expected);
    }
    let marked = printed(&["references", "examples/lambda.sheet", "0", "-"], b"x: x");
    assert_eq!(
        marked,
        "parameter x (n0) at 0..1 (1:1): 1 reference\n    1 | x: x\n      | ^\n  e0  3..4 (1:4)\n    1 | x: x\n      |    ^\n"
    );
    let key = printed(&["references", "examples/line-c-path-and-value.sheet", "7"], b"");
    assert!(key.starts_with("set key dn (n1) at 7..9: no references\nnote: a name alone never means a key"), "{key}");
    let inner = printed(&["references", INHERIT, "18"], b"");
    assert!(inner.starts_with("let base (n1) at 18..22: 1 reference\nnote: the same text is the inherited value too (e0)"), "{inner}");
}

#[test]
fn run_answers_each_line() {
    let script = b"ask-ref 0\n# half a rename\nset-name 0 text=62617365 buffer=3\nset-name 0 text=62617365 buffer=4\n\nask-ref 0\n\
        set-name 0 text=62617365 buffer=0\nask-name 9\nask-name 0 buffer=0 reply=19\n";
    let expected = "answer=1 to=0 length=0 list=\nrefused=34 at=1\naccepted length=1 list=0\nanswer=0 to= length=0 list=\n\
        accepted length=0 list=\nrefused=24 at=9\nrefused=21 at=0\n";
    assert_eq!(printed(&["run", "examples/lambda.sheet"], script), expected);
    assert_eq!(printed(&["run", "examples/lambda.sheet", "-"], script), expected);
    let sheet = std::fs::read(common::root().join("examples/lambda.sheet")).unwrap();
    assert_eq!(printed(&["run", "-", &file("a.script", script)], &sheet), expected);
}

#[test]
fn lines_are_ok() {
    let ran = names(&["lines"]);
    assert_eq!(ran.status, 0);
    assert!(ran.out.ends_with("\nall lines are ok\n") && !ran.out.contains("WRONG"), "{}", ran.out);
    for title in ["A  follow a plain inherit inside a let: ok", "E  paste half an expression: ok"] {
        assert!(ran.out.contains(title), "{title}");
    }
}

#[test]
fn help_is_no_failure_and_nothing_is_one() {
    let help = names(&["--help"]);
    assert_eq!((help.status, help.err.as_str()), (0, ""));
    assert!(help.out.starts_with("usage: names COMMAND"));
    let alone = names(&[]);
    assert_eq!((alone.status, alone.out.as_str(), alone.err), (1, "", help.out));
}

/// A reader that has seen enough is no error.
#[test]
fn a_closed_pipe_ends_quietly() {
    use std::process::{Command, Stdio};
    let sheet = file("withs.sheet", &sheet::write(&generate::Preset::Withs.sheet(3)));
    for words in [["show", sheet.as_str()], ["run", sheet.as_str()]] {
        let mut command = Command::new(env!("CARGO_BIN_EXE_names"));
        let mut child = command.args(words).stdin(Stdio::piped()).stdout(Stdio::piped()).stderr(Stdio::piped()).spawn().unwrap();
        drop(child.stdout.take());
        let _ = std::io::Write::write_all(&mut child.stdin.take().unwrap(), b"ask-ref 0\nask-ref 0\n");
        let output = child.wait_with_output().unwrap();
        assert_eq!((output.status.code(), output.stderr), (Some(0), vec![]), "{words:?}");
    }
}

#[test]
fn a_sheet_may_be_standard_input() {
    let sheet = std::fs::read(common::root().join(INHERIT)).unwrap();
    assert_eq!(names_with(&["show", "-"], &sheet), names(&["show", INHERIT]));
}
