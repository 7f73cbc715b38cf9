//! What `names rename` says: the text afterwards, and what it warns of.

mod common;

use common::{file, names, names_with, printed, sheet_file};

/// A sheet in the oracle's short notation, the Nix text that it is of, and what its file is called.
struct Example {
    name: &'static str,
    nix: &'static str,
    tree: &'static str,
}

const TWO_INHERITED: Example = Example {
    name: "two-inherited",
    nix: "a: b: let inherit a b; in a",
    tree: r#"21@0..27(11@0..27(28@0..1(18"a"@0..1),11@3..27(28@3..4(18"b"@3..4),12@6..27(18"a"@26..27,26@10..22(-,18"a"@18..19,18"b"@20..21)))))"#,
};

const TWO_FROM: Example = Example {
    name: "two-from",
    nix: "s: let inherit (s) a b; in a",
    tree: r#"21@0..28(11@0..28(28@0..1(18"s"@0..1),12@3..28(18"a"@27..28,26@7..23(27@15..18(18"s"@16..17),18"a"@19..20,18"b"@21..22))))"#,
};

const IN_A_SET: Example = Example {
    name: "in-a-set",
    nix: "x: { inherit x; }",
    tree: r#"21@0..17(11@0..17(28@0..1(18"x"@0..1),16@3..17(26@5..15(-,18"x"@13..14))))"#,
};

const IN_A_REC_SET: Example = Example {
    name: "in-a-rec-set",
    nix: "x: rec { inherit x; y = x; }",
    tree: r#"21@0..28(11@0..28(28@0..1(18"x"@0..1),16!1@3..28(26@9..19(-,18"x"@17..18),25@20..26(23@20..21(18"y"@20..21),18"x"@24..25))))"#,
};

/// The text after a rename, of which nothing may be warned.
fn after(example: &Example, byte: &str, new: &str) -> String {
    let out = printed(&["rename", &sheet_file(example.name, example.tree), byte, new, "-"], example.nix.as_bytes());
    assert!(!out.contains("warning"), "{out}");
    assert!(out.contains("would move nothing"), "{out}");
    let lines = out.lines().filter_map(|line| line.strip_prefix("  1 + "));
    lines.collect::<Vec<_>>().join("\n")
}

#[test]
fn an_inherit_is_spelled_out() {
    assert_eq!(after(&IN_A_SET, "0", "z"), "z: { x = z; }");
    assert_eq!(after(&IN_A_SET, "13", "z"), "x: { z = x; }");
    assert_eq!(after(&IN_A_REC_SET, "0", "z"), "z: rec { x = z; y = x; }");
    assert_eq!(after(&IN_A_REC_SET, "24", "z"), "x: rec { z = x; y = z; }");
}

#[test]
fn one_of_several_inherited_goes_behind_the_others() {
    assert_eq!(after(&TWO_INHERITED, "26", "z"), "a: b: let inherit b; z = a; in z");
    assert_eq!(after(&TWO_INHERITED, "20", "z"), "a: b: let inherit a; z = b; in a");
    assert_eq!(after(&TWO_INHERITED, "3", "z"), "a: z: let inherit a; b = z; in a");
}

#[test]
fn what_is_inherited_from_a_source_keeps_its_key_there() {
    assert_eq!(after(&TWO_FROM, "27", "z"), "s: let inherit (s) b; z = (s).a; in z");
    assert_eq!(after(&TWO_FROM, "0", "t"), "t: let inherit (t) a b; in a");
    let one = printed(&["rename", "examples/inherit-from.sheet", "25", "z", "-"], b"x: let inherit (x) x; in x");
    assert!(one.contains("\n  1 + x: let z = (z) .x; in z\n"), "{one}");
    // Without the Nix text there is no source to copy.
    let blind = printed(&["rename", &sheet_file("two-from-blind", TWO_FROM.tree), "27", "z"], b"");
    assert!(blind.contains("note: the inherit of 19..20 is left as it is: to split it, the Nix text is wanted too\n"), "{blind}");
}

#[test]
fn a_key_that_is_written_again_is_renamed_everywhere() {
    let tree = concat!(
        r#"21@0..29(16@0..29(25@2..14(23@2..9(6@2..7(32"a b"@3..6),18"c"@8..9),9"1"@12..13),"#,
        r#"25@15..27(23@15..22(6@15..20(32"a b"@16..19),18"d"@21..22),9"2"@25..26)))"#
    );
    let example = Example { name: "quoted", nix: r#"{ "a b".c = 1; "a b".d = 2; }"#, tree };
    assert_eq!(after(&example, "2", "z"), r#"{ "z".c = 1; "z".d = 2; }"#);
    assert_eq!(after(&example, "16", "z"), r#"{ "z".c = 1; "z".d = 2; }"#);
}

#[test]
fn what_would_be_captured_is_warned_of() {
    let out = printed(&["rename", "examples/line-d-rename-and-back.sheet", "0", "y"], b"");
    let expected = "rename parameter x (n0) at 0..1 to y
warning: reference x (e0) at 6..7 would be captured: renamed too, it would mean parameter y (n1) at 3..4

would write
  0..1  x  -> y
  6..7  x  -> y

would move 1 reference
  reference x (e0) at 6..7
    now   parameter x (n0) at 0..1
    then  parameter y (n1) at 3..4

takes 2 changes, one after the other until renaming is one call; answers in between are those of half a rename
  set-name 0 text=79  # moves e0
  set-ref 0 text=79   # moves e0
";
    assert_eq!(out, expected);
}

#[test]
fn what_would_capture_others_is_warned_of() {
    let out = printed(&["rename", "examples/line-d-rename-and-back.sheet", "3", "x"], b"");
    let warning = "warning: reference x (e0) at 6..7 would be captured by the new name: it means parameter x (n0) at 0..1\n";
    assert!(out.contains(warning), "{out}");
    assert!(out.contains("    then  parameter x (n1) at 3..4\n"), "{out}");
}

/// An inherit looks outside, what it is spelled out as looks inside: no call moves, but the text would.
#[test]
fn a_capture_by_the_text_alone_is_warned_of() {
    for (sheet, new) in [(sheet_file("rec-captured", IN_A_REC_SET.tree), "y"), (TWO_INHERITED.file(), "b")] {
        let out = printed(&["rename", &sheet, "0", new], b"");
        assert!(out.contains("would be captured in the text"), "{out}");
    }
}

impl Example {
    fn file(&self) -> String {
        sheet_file(&format!("{}-file", self.name), self.tree)
    }
}

#[test]
fn other_hazards_are_told() {
    let rename = |byte, new| printed(&["rename", "examples/line-c-path-and-value.sheet", byte, new], b"");
    assert!(rename("2", "let").contains("warning: let is no name that Nix can read\n"));
    assert!(rename("2", "z").contains("note: uses through the set"));
    assert_eq!(rename("2", "base"), "rename set key base (n0) at 2..6 to base: that is its text already, so there is nothing to do\n");
    let line_a = "examples/line-a-plain-inherit-in-let.sheet";
    let twice = printed(&["rename", line_a, "18", "search"], b"");
    assert!(twice.contains("warning: search would be there twice: let search (n2) at 24..30 is of the same"), "{twice}");
    let dead = printed(&["rename", "examples/replaced-value.sheet", "0", "z"], b"");
    assert!(dead.contains("note: reference x (e0) at 9..10 stands in a value that was replaced, and stays as it is\n"), "{dead}");
}

#[test]
fn what_can_t_be_renamed_is_told() {
    let err = |words: &[&str]| {
        let ran = names(words);
        assert_eq!((ran.status, ran.out.as_str()), (1, ""));
        ran.err
    };
    let builtin = err(&["rename", "examples/line-b-builtin-under-with.sheet", "19", "z"]);
    assert_eq!(builtin, "names: reference map (e2) at 19..22 has no definition: it means builtin map\n");
    let number = err(&["rename", "examples/line-b-builtin-under-with.sheet", "13", "z"]);
    assert_eq!(number, "names: no name stands at byte 13, but a number (e0) at 13..14\n");
    let long = err(&["rename", "examples/lambda.sheet", "0", &"z".repeat(256)]);
    assert_eq!(long, "names: the rename is refused (8): the new text has more than 255 bytes\n");
}

/// The changes that a rename lists are a script that `names run` takes, and make it.
#[test]
fn the_listed_changes_can_be_run() {
    let sheet = "examples/line-a-plain-inherit-in-let.sheet";
    let out = printed(&["rename", sheet, "18", "staff"], b"");
    let changes: String = out.lines().filter(|line| line.starts_with("  set-")).map(|line| format!("{line}\n")).collect();
    let script = file("changes.script", (changes + "ask-ref 0\nask-ref 1\nask-name 1\n").as_bytes());
    let expected =
        "accepted length=1 list=1\naccepted length=1 list=1\nanswer=1 to=0 length=0 list=\nanswer=1 to=1 length=0 list=\nlength=1 list=1\n";
    assert_eq!(printed(&["run", sheet, &script], b""), expected);
}

/// Any sheet, any byte, any text: an answer or a sentence.
#[test]
fn no_rename_fails_badly() {
    let mut rng = generate::Rng::new(7);
    for seed in 0..150 {
        let preset = [generate::Preset::Small, generate::Preset::Keys, generate::Preset::Medium][seed as usize % 3];
        let sheet = sheet::write(&preset.sheet(seed));
        let byte = rng.below(200).to_string();
        let new = rng.pick(&["a", "map", "x", "let", "ü", "a b"]);
        for words in [vec!["rename", "-", &byte, new], vec!["follow", "-", &byte], vec!["references", "-", &byte, "--json"]] {
            let ran = names_with(&words, &sheet);
            assert!(matches!(ran.status, 0 | 1) && !ran.err.contains("panicked"), "seed {seed} {words:?}: {}", ran.err);
            assert_eq!(ran.status == 0, ran.err.is_empty());
        }
    }
}
