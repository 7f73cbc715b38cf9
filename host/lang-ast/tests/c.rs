//! The header and the archive for a host in C: tests/c/follow.c, compiled and run. Skipped where there is no C
//! compiler. That the header's numbers are the library's is tested in src/layout.rs.

use std::path::{Path, PathBuf};
use std::process::Command;

/// What the host prints.
const FOLLOWED: &str = "\
nothing lent: 21 21 21 21 21
load no sheet: refusal 2, place 0, answer 0, to 0, length 0
ask too early: refusal 23, place 0, answer 0, to 0, length 0
load: refusal 0, place 0, answer 0, to 0, length 0
the body is e0 of 2
follow: refusal 0, place 0, answer 1, to 0, length 0
n0 of 1 is at 0 to 1
ask the use: refusal 0, place 0, answer 1, to 0, length 0
ask the name: refusal 0, place 0, answer 0, to 0, length 1
first use: e0
name it y in too short a buffer: refusal 34, place 1, answer 0, to 0, length 0
name it x, which it is, in none: refusal 0, place 0, answer 0, to 0, length 0
name it y: refusal 0, place 0, answer 0, to 0, length 1
first moved: e0
ask the use: refusal 0, place 0, answer 0, to 0, length 0
ask the name: refusal 0, place 0, answer 0, to 0, length 0
use y: refusal 0, place 0, answer 0, to 0, length 1
ask the use: refusal 0, place 0, answer 1, to 0, length 0
ask the name: refusal 0, place 0, answer 0, to 0, length 1
ask without a buffer: refusal 26, place 1, answer 0, to 0, length 0
name it nothing: refusal 0, place 0, answer 0, to 0, length 1
";

fn run(command: &mut Command) -> String {
    let output = command.output().unwrap_or_else(|why| panic!("{command:?}: {why}"));
    let (said, complained) = (String::from_utf8_lossy(&output.stdout), String::from_utf8_lossy(&output.stderr));
    assert!(output.status.success(), "{command:?}\n{said}{complained}");
    said.into_owned()
}

/// The C compiler: what CC names, or `cc`; none where there is none.
fn compiler() -> Option<String> {
    let compiler = std::env::var("CC").unwrap_or_else(|_| "cc".to_string());
    Command::new(&compiler).arg("--version").output().is_ok().then_some(compiler)
}

#[test]
fn a_host_in_c_follows_a_name() {
    let Some(compiler) = compiler() else {
        eprintln!("skipped: there is no C compiler here, neither `cc` nor what CC names");
        return;
    };
    let crate_folder = Path::new(env!("CARGO_MANIFEST_DIR"));
    let program: PathBuf = Path::new(env!("CARGO_TARGET_TMPDIR")).join("follow");
    let mut compile = Command::new(compiler);
    compile.args(["-std=c99", "-Wall", "-Wextra", "-Werror", "-pedantic", "-I"]).arg(crate_folder.join("include"));
    // As the header says it: the library behind the sources, by its folder.
    let folder = Path::new(env!("LANG_AST_ARCHIVE_FILE")).parent().expect("the archive lies in a folder");
    compile.arg(crate_folder.join("tests/c/follow.c")).arg("-L").arg(folder).arg("-llang_ast").arg("-o").arg(&program);
    run(&mut compile);
    let followed = run(Command::new(&program).arg(crate_folder.join("../../examples/lambda.sheet")));
    assert_eq!(followed, FOLLOWED);
}
