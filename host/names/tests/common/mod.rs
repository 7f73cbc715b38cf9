//! Running the program, as a shell would.

#![allow(dead_code, reason = "each test program takes what it needs")]

use std::io::Write;
use std::path::{Path, PathBuf};
use std::process::{Command, Stdio};

/// What a run came to.
#[derive(Debug, PartialEq, Eq)]
pub struct Ran {
    pub status: i32,
    pub out: String,
    pub err: String,
}

/// Where the repository is; the runs are made there, so that `examples/..` is a file.
pub fn root() -> PathBuf {
    Path::new(env!("CARGO_MANIFEST_DIR")).join("../..")
}

/// Runs `names` with some words, and with bytes on its standard input.
pub fn names_with(words: &[&str], input: &[u8]) -> Ran {
    let mut command = Command::new(env!("CARGO_BIN_EXE_names"));
    let piped = command.args(words).current_dir(root()).stdin(Stdio::piped()).stdout(Stdio::piped()).stderr(Stdio::piped());
    let mut child = piped.spawn().unwrap();
    let mut stdin = child.stdin.take().unwrap();
    // A program that ends early, on bad words, does not read its input.
    let _ = stdin.write_all(input);
    drop(stdin);
    let output = child.wait_with_output().unwrap();
    let text = |bytes: Vec<u8>| String::from_utf8(bytes).unwrap();
    Ran { status: output.status.code().unwrap_or(-1), out: text(output.stdout), err: text(output.stderr) }
}

pub fn names(words: &[&str]) -> Ran {
    names_with(words, b"")
}

/// What a run prints that must go well.
pub fn printed(words: &[&str], input: &[u8]) -> String {
    let ran = names_with(words, input);
    assert_eq!((ran.status, ran.err.as_str()), (0, ""), "names {words:?}");
    ran.out
}

/// The file of a sheet in the oracle's short notation.
pub fn sheet_file(name: &str, notation: &str) -> String {
    file(&format!("{name}.sheet"), &sheet::write(&sheet::short::parse(notation).unwrap()))
}

/// A file in the folder for the tests.
pub fn file(name: &str, bytes: &[u8]) -> String {
    let path = Path::new(env!("CARGO_TARGET_TMPDIR")).join(name);
    std::fs::write(&path, bytes).unwrap();
    path.into_os_string().into_string().unwrap()
}
