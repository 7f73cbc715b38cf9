//! All runs, one after the other, short or at scale, and at the end one table of what they came to. Each is a process
//! of its own, so that neither a difference nor the end of one, by a panic or a fault, keeps the others from being run.

use crate::progress::{grouped, wipe};
use crate::report::Report;
use crate::split::threads;
use std::io::{BufRead, BufReader};
use std::process::{Command, Stdio};
use std::time::Instant;

/// This very program, on Linux: also where the file was built anew meanwhile.
const PROGRAM: &str = "/proc/self/exe";
/// The word before a command that is done for another process.
pub const REPORTED: &str = "reported";

/// How much is run.
#[derive(Debug, Clone, Copy, PartialEq, Eq)]
pub enum Scale {
    /// Some five minutes.
    Short,
    /// As docs/DIFFERENCES.md has it.
    Full,
}

/// A row of the table.
struct Row {
    run: &'static str,
    size: String,
    outcome: Result<Report, String>,
    seconds: f64,
}

/// The runs of a scale. Each is a command and the numbers it is given, before the seed where it takes one.
fn runs(scale: Scale) -> Vec<(&'static str, Vec<u64>)> {
    let sized = match scale {
        Scale::Short => vec![
            ("sheets", vec![100_000, 20_000]),
            ("loads", vec![50_000, 400]),
            ("loads", vec![2_000, 4_096]),
            ("calls", vec![1_000, 50_000]),
            ("stores", vec![300, 10_000]),
            ("any", vec![1_000_000]),
        ],
        Scale::Full => vec![
            ("sheets", vec![1_000_000, 100_000]),
            ("loads", vec![1_000_000, 200]),
            ("loads", vec![5_000, 4_096]),
            ("calls", vec![20_000, 1_000_000]),
            ("stores", vec![2_000, 100_000]),
            ("any", vec![10_000_000]),
        ],
    };
    sized.into_iter().chain(["slow", "speed", "memory", "stack"].map(|run| (run, Vec::new()))).collect()
}

/// The size of a run, in words.
fn size(command: &str, numbers: &[u64]) -> String {
    let words: &[&str] = match command {
        "sheets" => &[" damaged, ", " valid"],
        "loads" => &[" random of up to ", " nodes"],
        "calls" => &[" loads, ", " calls"],
        "stores" => &[" modules, ", " damaged"],
        "any" => &[" calls"],
        _ => return "–".to_string(),
    };
    numbers.iter().zip(words).map(|(&number, word)| grouped(number) + word).collect()
}

/// Does all of them; whether all was as it should be.
pub fn run(scale: Scale, seed: u64) -> bool {
    let rows: Vec<Row> = runs(scale).into_iter().map(|(command, numbers)| row(command, numbers, seed)).collect();
    table(&rows).iter().for_each(|line| println!("{line}"));
    println!("seed {seed}, {} threads", threads());
    rows.iter().all(|row| row.outcome.as_ref().is_ok_and(Report::right))
}

/// Does one of them.
fn row(command: &'static str, mut numbers: Vec<u64>, seed: u64) -> Row {
    let size = size(command, &numbers);
    if !numbers.is_empty() {
        numbers.push(seed);
    }
    let words: Vec<String> = std::iter::once(command.to_string()).chain(numbers.iter().map(u64::to_string)).collect();
    println!("runs {}", words.join(" "));
    let start = Instant::now();
    let outcome = apart(&words);
    if let Err(why) = &outcome {
        println!("{why}");
    }
    println!();
    Row { run: command, size, outcome, seconds: start.elapsed().as_secs_f64() }
}

/// Has a command done in a process of its own, and prints what that prints.
fn apart(words: &[String]) -> Result<Report, String> {
    let failed = |why: std::io::Error| why.to_string();
    let mut child = Command::new(PROGRAM).arg(REPORTED).args(words).stdout(Stdio::piped()).spawn().map_err(failed)?;
    let (mut report, mut last) = (None, String::new());
    for line in child.stdout.take().into_iter().flat_map(|out| BufReader::new(out).split(b'\n')) {
        let line = String::from_utf8_lossy(&line.map_err(failed)?).into_owned();
        match Report::read(&line) {
            Some(read) => report = Some(read),
            None => {
                // The other process may have gone on and written its progress.
                wipe();
                println!("{line}");
                last = line;
            }
        }
    }
    let status = child.wait().map_err(failed)?;
    report.ok_or_else(|| format!("{status}: {last}"))
}

/// Does a command for the process that has it done, which reads the last line.
pub fn reported(command: &str, numbers: &[u64]) -> bool {
    match crate::command(command, numbers) {
        Ok(report) => {
            println!("{}", report.written());
            report.right()
        }
        Err(why) => {
            println!("{why}");
            false
        }
    }
}

/// The lines of the table.
fn table(rows: &[Row]) -> Vec<String> {
    let mut lines = vec!["| Run | Size | Met | Differences | Seconds |".to_string(), "|---|---|---|---|---|".to_string()];
    for Row { run, size, outcome, seconds } in rows {
        let (met, differences) = match outcome {
            Ok(report) if report.complete => (report.met.clone(), grouped(report.differences)),
            Ok(report) => (format!("NOT ALL THAT IS TO COME UP; {}", report.met), grouped(report.differences)),
            Err(why) => (format!("ENDED: {}", why.lines().next().unwrap_or_default()), "–".to_string()),
        };
        lines.push(format!("| {run} | {size} | {met} | {differences} | {seconds:.0} |"));
    }
    lines
}

#[cfg(test)]
mod tests {
    use super::*;

    #[test]
    fn rows_of_all_sorts() {
        let row = |outcome| Row { run: "any", size: size("any", &[10]), outcome, seconds: 1.6 };
        let met = |differences, complete| Ok(Report { met: "accepted 7".to_string(), differences, complete });
        let lines = table(&[row(met(0, true)), row(met(1_234, true)), row(met(0, false)), row(Err("no\nmemory".to_string()))]);
        assert_eq!(
            lines[2..],
            [
                "| any | 10 calls | accepted 7 | 0 | 2 |",
                "| any | 10 calls | accepted 7 | 1,234 | 2 |",
                "| any | 10 calls | NOT ALL THAT IS TO COME UP; accepted 7 | 0 | 2 |",
                "| any | 10 calls | ENDED: no | – | 2 |",
            ]
        );
    }

    #[test]
    fn sizes_in_words() {
        assert_eq!(size("sheets", &[1_000_000, 100_000]), "1,000,000 damaged, 100,000 valid");
        assert_eq!(size("loads", &[5_000, 4_096]), "5,000 random of up to 4,096 nodes");
        assert_eq!(size("stack", &[]), "–");
    }

    #[test]
    fn every_run_is_a_command() {
        for (command, numbers) in [Scale::Short, Scale::Full].into_iter().flat_map(runs) {
            assert!(crate::USAGE.lines().any(|line| line.starts_with(&format!("runs {command} "))), "{command} {numbers:?}");
        }
    }
}
