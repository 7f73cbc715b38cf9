//! `oracle against`: a program that is right, one that is wrong, and one that is ended by a signal. One test, since a
//! script that has just been written can't be run while another thread starts a program.

#![cfg(unix)]

use std::os::unix::fs::PermissionsExt;
use std::path::Path;
use std::process::{Command, Output};

/// Runs the oracle against a shell script, in which `$refsheet` is what prints the right answers.
fn against(folder: &Path, script: &str, seed: &str, count: &str) -> Output {
    let program = folder.join("program");
    let script = format!("#!/bin/sh\nrefsheet='{} refsheet'\n{script}\n", env!("CARGO_BIN_EXE_oracle"));
    std::fs::write(&program, script).expect("the script is written");
    std::fs::set_permissions(&program, std::fs::Permissions::from_mode(0o755)).expect("the script can be run");
    let mut oracle = Command::new(env!("CARGO_BIN_EXE_oracle"));
    // The sheet of a difference goes to the folder for temporary files.
    oracle.env("TMPDIR", folder).arg("against").arg(&program).args([seed, count]).output().expect("the oracle runs")
}

fn message(output: &Output) -> String {
    assert_eq!(output.status.code(), Some(1));
    assert!(output.stdout.is_empty());
    String::from_utf8_lossy(&output.stderr).into_owned()
}

#[test]
fn programs_right_and_wrong() {
    let folder = std::env::temp_dir().join(format!("oracle-against-{}", std::process::id()));
    std::fs::create_dir_all(&folder).expect("a folder for the scripts");
    right(&folder);
    wrong(&folder);
    std::fs::remove_dir_all(&folder).expect("the folder goes");
}

fn right(folder: &Path) {
    let output = against(folder, "exec $refsheet", "1", "60");
    assert!(output.status.success(), "{}", String::from_utf8_lossy(&output.stderr));
    let counts = String::from_utf8_lossy(&output.stdout).into_owned();
    for sort in ["valid sheets: ", "refused 1: 2\n", "refused 2: ", "References answered 0: ", "References answered 3: "] {
        assert!(counts.contains(sort), "{sort}: {counts}");
    }
    assert!(counts.ends_with("another status than 0: 0\n"), "{counts}");
    // A program may end with another status, and may print before it has read.
    let output = against(folder, "$refsheet; exit 3", "1", "0");
    assert!(output.status.success() && !String::from_utf8_lossy(&output.stdout).ends_with(": 0\n"));
}

fn wrong(folder: &Path) {
    // Found on a damaged sheet, and again with the seed that is told.
    let script = "$refsheet | sed s/refused=5/refused=4/";
    let found = message(&against(folder, script, "1", "200"));
    assert!(found.contains("line 1: \"refused=4\\n\" is printed, and \"refused=5\\n\" is wanted"), "{found}");
    let again = found.split("program ").nth(1).and_then(|rest| rest.split_whitespace().next()).expect("the seed is told");
    let (first, second) = (found.lines().next(), message(&against(folder, script, again, "1")));
    assert_eq!(first, second.lines().next());
    // The sheet is kept.
    let path = second.lines().find_map(|line| line.strip_prefix("the sheet is in ")).expect("the sheet's file is told");
    assert!(oracle::refsheet::output(&std::fs::read(path).expect("the sheet")).starts_with(b"refused=5\n"));
    // Too much, too little, much before anything is read, nothing read at all.
    let found = message(&against(folder, "$refsheet; echo more", "1", "0"));
    assert!(found.contains("\"more\\n\" is printed, and nothing more is wanted"), "{found}");
    let found = message(&against(folder, "$refsheet | head -n 3", "1", "0"));
    assert!(found.contains("line 4: nothing more is printed"), "{found}");
    let found = message(&against(folder, "head -c 1000000 /dev/zero; cat", "1", "0"));
    assert!(found.contains("line 1: \"\\0"), "{found}");
    let found = message(&against(folder, "exit 0", "1", "0"));
    assert!(found.contains("line 1: nothing more is printed"), "{found}");
    // A stack that overflows ends a program by a signal.
    let found = message(&against(folder, "kill -SEGV $$", "1", "0"));
    assert!(found.contains("the program was ended (signal: 11"), "{found}");
}
