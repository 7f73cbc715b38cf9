//! What the runs met: so that one sees that the sheets were of every sort.

use std::collections::BTreeMap;
use std::fmt;

#[derive(Debug, Default)]
pub struct Counts {
    runs: u64,
    valid: u64,
    /// By the refusal's number.
    refused: BTreeMap<String, u64>,
    /// By the answer's number, 0 to 3.
    answers: BTreeMap<String, u64>,
    /// Runs that ended with another exit status than 0, which is not held to be wrong.
    other_status: u64,
}

impl Counts {
    /// Counts a run by what was printed.
    pub fn add(&mut self, printed: &[u8], success: bool) {
        self.runs += 1;
        self.other_status += u64::from(!success);
        let printed = String::from_utf8_lossy(printed);
        self.valid += u64::from(printed.starts_with("exprs="));
        for line in printed.lines() {
            let (key, value) = line.split_once('=').unwrap_or((line, ""));
            match key {
                "refused" => *self.refused.entry(value.to_string()).or_default() += 1,
                "answer" => *self.answers.entry(value.to_string()).or_default() += 1,
                _ => {}
            }
        }
    }
}

impl fmt::Display for Counts {
    fn fmt(&self, f: &mut fmt::Formatter<'_>) -> fmt::Result {
        writeln!(f, "runs: {}\nvalid sheets: {}", self.runs, self.valid)?;
        self.refused.iter().try_for_each(|(number, count)| writeln!(f, "refused {number}: {count}"))?;
        self.answers.iter().try_for_each(|(number, count)| writeln!(f, "References answered {number}: {count}"))?;
        writeln!(f, "runs that ended with another status than 0: {}", self.other_status)
    }
}
