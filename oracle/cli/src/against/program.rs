//! One run of a program with bytes on its standard input.

use std::io::Write;
use std::process::{Command, ExitStatus, Stdio};

/// How the program ended, and what it printed.
pub struct Run {
    pub status: ExitStatus,
    pub printed: Vec<u8>,
}

pub fn run(program: &str, input: &[u8]) -> Result<Run, String> {
    let failed = |error: std::io::Error| format!("{program}: {error}");
    let mut child = Command::new(program).stdin(Stdio::piped()).stdout(Stdio::piped()).spawn().map_err(failed)?;
    let stdin = child.stdin.take();
    // Written from a thread of its own, since a program may print before it has read all, and both pipes hold only so
    // much.
    let output = std::thread::scope(|scope| {
        scope.spawn(move || {
            // A program that has read enough may close its input; what it prints tells whether it was right to.
            stdin.map(|mut pipe| pipe.write_all(input))
        });
        child.wait_with_output()
    });
    let output = output.map_err(failed)?;
    Ok(Run { status: output.status, printed: output.stdout })
}
