//! Finds or makes liblang_ast.a, and has it linked. A module of the build scripts of both crates that call the archive.
//!
//! It is looked for in this order: where LANG_AST_ARCHIVE says, a file or the folder that it is in; in target/staticlib
//! of the repository; and if it is not there, but `rt` is, tools/archive makes it there.

use std::env;
use std::fs::{create_dir_all, File};
use std::path::{Path, PathBuf};
use std::process::{exit, Command};

const VARIABLE: &str = "LANG_AST_ARCHIVE";
const FILE: &str = "liblang_ast.a";

/// Tells Cargo to link the archive. Without one the build ends here, with a sentence that says what to do.
pub fn link() {
    println!("cargo::rerun-if-env-changed={VARIABLE}");
    let archive = found().unwrap_or_else(|why| {
        eprintln!("{why}");
        exit(1)
    });
    println!("cargo::rerun-if-changed={}", archive.display());
    // The tests compile a program in C against the same file.
    println!("cargo::rustc-env=LANG_AST_ARCHIVE_FILE={}", archive.display());
    println!("cargo::rustc-link-search=native={}", archive.parent().unwrap_or(Path::new(".")).display());
    println!("cargo::rustc-link-lib=static=lang_ast");
}

fn found() -> Result<PathBuf, String> {
    if let Some(place) = env::var_os(VARIABLE).filter(|place| !place.is_empty()) {
        return named(Path::new(&place));
    }
    // Both crates lie two folders below the repository's root.
    let root = Path::new(env!("CARGO_MANIFEST_DIR")).join("../..");
    let archive = root.join("target/staticlib").join(FILE);
    if !archive.is_file() {
        // Cargo may build both crates at once, and one making at a time is enough: the second waits here and finds the
        // archive.
        let lock = locked(&root);
        if !archive.is_file() {
            made(&root)?;
        }
        drop(lock);
    }
    if archive.is_file() {
        return Ok(archive);
    }
    Err(format!("tools/archive wrote no {}: set {VARIABLE} to the archive or its folder", archive.display()))
}

/// The archive that the variable names, by itself or by its folder.
fn named(place: &Path) -> Result<PathBuf, String> {
    let archive = if place.is_dir() { place.join(FILE) } else { place.to_path_buf() };
    if archive.is_file() && archive.file_name().is_some_and(|name| name == FILE) {
        return Ok(archive);
    }
    Err(format!("{VARIABLE} is {}, where no {FILE} is: set it to that file or its folder, with the whole path", place.display()))
}

/// A lock on the making. Where it can't be had the archive is made all the same.
fn locked(root: &Path) -> Option<File> {
    let folder = root.join("target");
    create_dir_all(&folder).ok()?;
    let file = File::create(folder.join("liblang_ast.lock")).ok()?;
    file.lock().ok()?;
    Some(file)
}

fn made(root: &Path) -> Result<(), String> {
    if Command::new("rt").arg("version").output().is_err() {
        return Err(format!("there is no {FILE}, and no `rt` to make it: set {VARIABLE} to the archive or to its folder"));
    }
    match Command::new(root.join("tools/archive")).output() {
        Ok(output) if output.status.success() => Ok(()),
        Ok(output) => Err(format!("tools/archive failed:\n{}", String::from_utf8_lossy(&output.stderr))),
        Err(error) => Err(format!("tools/archive did not run: {error}")),
    }
}
