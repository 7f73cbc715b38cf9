//! The command line: what it prints, and that bad input gets a message and exit status 1.

use std::io::Write;
use std::process::{Command, Output, Stdio};

fn oracle(arguments: &[&str], input: &[u8]) -> Output {
    let mut child = Command::new(env!("CARGO_BIN_EXE_oracle"))
        .args(arguments)
        .stdin(Stdio::piped())
        .stdout(Stdio::piped())
        .stderr(Stdio::piped())
        .spawn()
        .expect("the oracle starts");
    // A command that does not read its input may have closed it already.
    let _ = child.stdin.take().expect("standard input is piped").write_all(input);
    child.wait_with_output().expect("the oracle ends")
}

fn printed(arguments: &[&str], input: &[u8]) -> String {
    let output = oracle(arguments, input);
    assert!(output.status.success(), "{arguments:?}: {}", String::from_utf8_lossy(&output.stderr));
    String::from_utf8(output.stdout).expect("what it prints is text")
}

#[test]
fn a_tree_goes_through_every_command() {
    let sheet = printed(&["tree", r#"21(12(18"a",25(23(18"a"),18"b"),25(23(18"b"),9"1")))"#], b"");
    assert_eq!(printed(&["check"], sheet.as_bytes()), "nodes=11\n");
    assert_eq!(printed(&["edges", "-"], sheet.as_bytes()), "0 1\n");
    assert!(printed(&["dump"], sheet.as_bytes()).contains("\nreferences n1 [0]\n"));
    assert!(printed(&["refsheet"], sheet.as_bytes()).ends_with("ref=0\nanswer=1\nto=1\nref=2\nanswer=1\nto=0\n"));
}

#[test]
fn generated_sheets_are_what_they_say() {
    let valid = printed(&["valid", "medium", "7"], b"");
    assert!(printed(&["check"], valid.as_bytes()).starts_with("nodes="));
    let damaged = oracle(&["damaged", "7"], b"");
    assert!(damaged.status.success() && !damaged.stderr.is_empty());
    let counts = printed(&["refusals", "7", "300"], b"");
    let sum: u64 = counts.lines().filter_map(|line| line.split_once(": ")?.1.parse::<u64>().ok()).sum();
    assert!(sum == 300 && counts.starts_with("accepted: ") && counts.contains("\nrefused 33: "), "{counts}");
}

#[test]
fn a_random_script_is_one_that_the_book_takes() {
    let sheet = include_bytes!("../../../examples/lambda.sheet");
    let script = printed(&["script", "-", "3", "25"], sheet);
    assert_eq!(script.lines().count(), 25);
    assert!(book::script::parse(&script).is_ok());
}

#[test]
fn a_refused_sheet() {
    assert_eq!(printed(&["check"], b""), "refused=2\nat=0\n");
    assert_eq!(printed(&["refsheet"], b"nodes=0\n"), "refused=3\nat=0\n");
    let root = |lines: &str| format!("nodes=1\nkind=21\n{lines}");
    assert_eq!(printed(&["refsheet"], root("from=0\nto=0\nflag=1\n").as_bytes()), "refused=31\nat=28\n");
    assert_eq!(printed(&["refsheet"], root("from=0\nto=0\nflag=0\nkids=-\ntext=78\n").as_bytes()), "refused=32\nat=42\n");
    assert_eq!(printed(&["refsheet"], root("from=1\nto=0\n").as_bytes()), "refused=33\nat=23\n");
    // A sheet that is itself in order, but longer than refsheet reads.
    let long = printed(&["tree", &format!(r#"21(7"{}")"#, "x".repeat(33_000))], b"");
    assert_eq!(printed(&["refsheet"], long.as_bytes()), "refused=1\nat=0\n");
    assert_eq!(printed(&["check"], long.as_bytes()), "nodes=2\n");
}

#[test]
fn a_script_is_kept_in_the_book() {
    let folder = std::env::temp_dir().join(format!("oracle-commands-{}", std::process::id()));
    std::fs::create_dir_all(&folder).expect("a folder for the script");
    let script = folder.join("script");
    let lines = "# rename, rename back, ask again\nset-name 0 text=79 buffer=4 reply=20\nask-ref 0 buffer=0 reply=20\n\
                 set-name 0 text=78 buffer=3 reply=20\nset-name 0 text=78 buffer=4 reply=20\nask-ref 0 buffer=0 reply=20\nask-name 0 buffer=3 reply=20\nask-name 9 buffer=0 reply=20\n";
    std::fs::write(&script, lines).expect("the script is written");
    let outcomes = printed(&["book", "-", script.to_str().expect("a plain path")], include_bytes!("../../../examples/lambda.sheet"));
    std::fs::remove_dir_all(&folder).expect("the folder goes");
    let expected = [
        "changed=1 length=1 list=0",
        "answer=0 to= length=0 list=",
        "refused=34 at=1",
        "changed=1 length=1 list=0",
        "answer=1 to=0 length=0 list=",
        "refused=26 at=1",
        "refused=24 at=9",
    ];
    assert_eq!(outcomes.lines().collect::<Vec<_>>(), expected);
}

#[test]
fn bad_input_gets_a_message_and_status_1() {
    let bad: &[&[&str]] = &[
        &[],
        &["nonsense"],
        &["check", "no/such/file"],
        &["check", "a", "b"],
        &["tree", "21(11(28(18\"x\"),18\"x\")"],
        &["tree", "21(300)"],
        &["tree", "21) and more"],
        &["tree", "21@1-2"],
        &["tree", "18\"x"],
        &["valid", "nonsense", "1"],
        &["valid", "small", "-1"],
        &["damaged", "x"],
        &["refusals", "1"],
        &["refusals", "1", "many"],
        &["script", "-", "1", "many"],
        &["vectors", "no/such/folder/in", "no/such/folder/out"],
        &["examples"],
        &["examples", "Cargo.toml/no-folder"],
        &["against", "no/such/program", "1", "1"],
        &["against", "Cargo.toml", "1", "1"],
        &["against", "Cargo.toml", "one", "1"],
        &["against", "Cargo.toml", "1"],
        &["book", "-", "no/such/script"],
        &["dump"],
        &["edges"],
    ];
    for arguments in bad {
        let output = oracle(arguments, b"nodes=1\n");
        let message = String::from_utf8_lossy(&output.stderr);
        assert_eq!(output.status.code(), Some(1), "{arguments:?}: {message}");
        assert!(message.starts_with("oracle: ") && !message.contains("panicked"), "{arguments:?}: {message}");
        assert!(output.stdout.is_empty(), "{arguments:?}");
    }
}

#[test]
fn a_tree_too_deep_for_the_notation_is_told() {
    let deep = format!("{}18{}", "15(".repeat(5_000), ")".repeat(5_000));
    assert_eq!(oracle(&["tree", &deep], b"").status.code(), Some(1));
}
