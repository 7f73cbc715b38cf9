//! What README.md shows is what the program prints.

mod common;

use std::path::Path;
use std::process::Command;

/// Each block of indented lines that begins with `$ `: its command and what follows it.
fn blocks(readme: &str) -> Vec<(String, String)> {
    let mut blocks: Vec<(String, String)> = Vec::new();
    let mut open = false;
    for line in readme.lines() {
        match (line.strip_prefix("    $ "), line.strip_prefix("    ")) {
            (Some(command), _) => blocks.push((command.to_string(), String::new())),
            (None, Some(shown)) if open => {
                if let Some((_, output)) = blocks.last_mut() {
                    *output += &format!("{shown}\n");
                }
            }
            // A blank line inside a block is one of the output's.
            (None, None) if open && line.is_empty() => {
                if let Some((_, output)) = blocks.last_mut() {
                    *output += "\n";
                }
            }
            _ => {}
        }
        open = line.starts_with("    ") || (open && line.is_empty());
    }
    blocks
}

#[test]
fn the_readme_is_true() {
    let readme = std::fs::read_to_string(Path::new(env!("CARGO_MANIFEST_DIR")).join("README.md")).unwrap();
    let blocks = blocks(&readme);
    assert!(blocks.iter().filter(|(command, _)| command.contains("names ")).count() >= 8);
    let program = Path::new(env!("CARGO_BIN_EXE_names")).parent().unwrap();
    let path = format!("{}:{}", program.display(), std::env::var("PATH").unwrap());
    for (command, expected) in blocks {
        let ran = Command::new("sh").args(["-c", &format!("{command} 2>&1")]).env("PATH", &path).current_dir(common::root()).output();
        let printed = String::from_utf8(ran.unwrap().stdout).unwrap();
        assert_eq!(printed.trim_end(), expected.trim_end(), "$ {command}");
    }
}
