//! What the program refsheet prints for a sheet, by the Rust.

use std::fmt::Write;

use canon::{Answer, Facts, Reading};
use sheet::Refusal;

/// The longest sheet that the program reads.
pub const MAX_BYTES: usize = 65_536;

/// The whole output: the counts and every Reference's answer, one field a line, or the refusal.
pub fn output(bytes: &[u8]) -> Vec<u8> {
    if bytes.len() > MAX_BYTES {
        return refused(Refusal { number: 1, place: 0 }).into_bytes();
    }
    match sheet::check::check(bytes) {
        Ok(nodes) => answers(&tix::Tix::new(&nodes).facts()).into_bytes(),
        Err(refusal) => refused(refusal).into_bytes(),
    }
}

pub fn refused(refusal: Refusal) -> String {
    format!("refused={}\nat={}\n", refusal.number, refusal.place)
}

pub fn answers(facts: &Facts) -> String {
    let module = &facts.module;
    let counts = [module.exprs.len(), module.names.len(), facts.scopes.scopes.len(), module.diagnostics.len()];
    let mut out = format!("exprs={}\nnames={}\nscopes={}\ndups={}\n", counts[0], counts[1], counts[2], counts[3]);
    for (expr, answer) in &facts.resolution.answers {
        let _ = writeln!(out, "ref={expr}\n{}", answer_lines(answer));
    }
    out
}

/// The lines `answer=` and `to=`, without the last line end.
pub fn answer_lines(answer: &Answer) -> String {
    // An answer shows itself as `answer=.. to=..`.
    answer.to_string().replace(' ', "\n")
}
