//! The clock: a load beside the Rust from the same bytes, askings and changes beside the Rust's work after an edit, and
//! the check of a store beside a plain sum over the same bytes.

mod calls;
mod loads;
pub mod rust;
mod stores;

use crate::lower::{sheets, Named};
use crate::progress::{grouped, Progress};
use crate::realistic::{self, SIZES};
use crate::report::Report;
use sheet::Node;
use std::hint::black_box;
use std::time::Instant;
use tix::with_big_stack;

const ROUNDS: usize = 51;
/// How many random sheets there are of each size.
const SHEETS: u64 = 15;

/// Prints all tables, with the columns of docs/PERFORMANCE.md.
pub fn run() -> Result<Report, String> {
    let progress = Progress::new("speed, rows", (loads::rows() + calls::rows() + stores::ROWS) as u64);
    let ratios = with_big_stack(|| {
        let ratios = loads::run(&progress)?;
        progress.tell("");
        calls::run(&progress)?;
        Ok::<_, String>(ratios)
    })?;
    progress.tell(&format!(
        "microseconds, each the median of {ROUNDS} rounds; of more sheets than one the median, with the least and the most ratio;"
    ));
    progress.tell("the Rust over the oracle's stand-ins for rnix, rowan, la_arena, rustc_hash, smol_str and others");
    progress.tell("");
    stores::run(&progress)?;
    Ok(Report::measured(format!("load to Rust at {} nodes: {ratios}", grouped(SIZES[SIZES.len() - 1] as u64))))
}

/// Sheets of a kind and a size.
type Family = fn(usize) -> Vec<Vec<Node>>;

/// What a family is called, and its sheets of a size.
const FAMILIES: [(&str, Family); 3] = [
    ("random", |nodes| (0..SHEETS).map(|seed| sheets::exactly(seed, nodes, false)).collect()),
    ("random, all about keys", |nodes| (0..SHEETS).map(|seed| sheets::exactly(seed, nodes, true)).collect()),
    (realistic::NAME, |nodes| (0..SHEETS).map(|seed| realistic::sheet(seed, nodes)).collect()),
];

/// Sheets that share a row of a table, and what the row is called.
struct Row {
    name: &'static str,
    sheets: Vec<Named>,
}

/// The sheets by rows: for each row how many of the sheets, in their order, it has.
fn rows(sheets: Vec<Named>, names: &[(usize, &'static str)]) -> Result<Vec<Row>, String> {
    let mut sheets = sheets.into_iter();
    let rows: Vec<Row> = names.iter().map(|&(count, name)| Row { name, sheets: sheets.by_ref().take(count).collect() }).collect();
    match (sheets.next(), rows.iter().find(|row| row.sheets.is_empty())) {
        (None, None) => Ok(rows),
        (Some(sheet), _) => Err(format!("no row is for {}", sheet.name)),
        (_, Some(row)) => Err(format!("there is no sheet for {}", row.name)),
    }
}

/// The cells of a column where more sheets than one share a row: once where all are alike.
fn cells(all: Vec<String>) -> String {
    if all.iter().all(|cell| *cell == all[0]) {
        all[0].clone()
    } else {
        all.join("; ")
    }
}

/// Microseconds, to a tenth below a thousand.
fn micros(time: f64) -> String {
    if time < 999.95 {
        format!("{time:.1}")
    } else {
        grouped(time.round() as u64)
    }
}

/// A ratio, marked where the compiled code is slower.
fn ratio(of: f64) -> String {
    if of > 1.0 {
        format!("**{of:.2}**")
    } else {
        format!("{of:.2}")
    }
}

/// Microseconds of both sides.
struct Pair {
    compiled: f64,
    rust: f64,
}

impl Pair {
    /// The median of the compiled code's times.
    fn compiled(all: &[&Pair]) -> f64 {
        median(all.iter().map(|pair| pair.compiled).collect())
    }

    fn rust(all: &[&Pair]) -> f64 {
        median(all.iter().map(|pair| pair.rust).collect())
    }

    /// The median of the ratios, with the least and the most where there are many.
    fn ratio(all: &[&Pair]) -> String {
        let ratios: Vec<f64> = all.iter().map(|pair| pair.compiled / pair.rust).collect();
        let (least, most) = (ratios.iter().copied().fold(f64::INFINITY, f64::min), ratios.iter().copied().fold(0.0, f64::max));
        let range = if all.len() > 1 { format!(" ({least:.2} to {most:.2})") } else { String::new() };
        format!("{}{range}", ratio(median(ratios)))
    }
}

/// Microseconds that the work takes; what it gives is dropped after the clock has stopped.
pub fn time<T>(work: impl FnOnce() -> T) -> f64 {
    let start = Instant::now();
    let made = black_box(work());
    let taken = start.elapsed().as_secs_f64() * 1e6;
    drop(made);
    taken
}

pub fn median(mut numbers: Vec<f64>) -> f64 {
    numbers.sort_by(f64::total_cmp);
    numbers[numbers.len() / 2]
}

#[cfg(test)]
mod tests {
    use super::*;

    #[test]
    fn numbers_as_the_page_has_them() {
        assert_eq!([2.14, 116.04, 999.94, 999.96, 1_112.4, 12_444.0].map(micros), ["2.1", "116.0", "999.9", "1,000", "1,112", "12,444"]);
        assert_eq!([0.555, 1.0, 5.55].map(ratio), ["0.56", "1.00", "**5.55**"]);
        let pair = |compiled, rust| Pair { compiled, rust };
        assert_eq!(Pair::ratio(&[&pair(1.0, 2.0), &pair(3.0, 4.0), &pair(3.0, 2.0)]), "0.75 (0.50 to 1.50)");
        assert_eq!(cells(vec!["4,096".to_string(), "4,096".to_string()]), "4,096");
        assert_eq!(cells(vec!["1".to_string(), "2".to_string()]), "1; 2");
    }

    #[test]
    fn every_sheet_has_its_row() {
        assert!(loads::shapes().is_ok() && calls::shapes().is_ok());
    }
}
