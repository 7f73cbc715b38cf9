//! A program that reads a sheet on its standard input, held against what the Rust says refsheet prints.
//!
//! - `trials`: the sheets, fixed ones first and then one for each seed.
//! - `program`: one run of the program.
//! - `counts`: what was met on the way.

mod counts;
mod program;
mod trials;

use counts::Counts;
use program::Run;
use trials::Trial;

use crate::refsheet;

/// The fixed sheets, then one for each of `count` seeds from `seed` on. The counts, or the first difference with the
/// counts until then.
pub fn against(program: &str, seed: u64, count: u64) -> Result<String, String> {
    let program = std::fs::canonicalize(program).map_err(|error| format!("{program}: {error}"))?;
    let program = program.to_string_lossy();
    let mut counts = Counts::default();
    let mut held = |trial: Trial, again: &str| match hold(&program, &trial, &mut counts)? {
        None => Ok(()),
        Some(error) => {
            Err(format!("{}: {error}\n{}\nagain with: oracle against {program} {again}\n{counts}", trial.what, kept(&trial.sheet)))
        }
    };
    for trial in trials::fixed() {
        held(trial, "0 0")?;
    }
    for number in 0..count {
        let seed = seed.wrapping_add(number);
        held(trials::random(seed), &format!("{seed} 1"))?;
    }
    Ok(counts.to_string())
}

/// One run of the program, which must print what refsheet prints and must not be ended by a signal: the difference, if
/// there is one. Fails where the program can't be run at all.
fn hold(program: &str, trial: &Trial, counts: &mut Counts) -> Result<Option<String>, String> {
    let wanted = refsheet::output(&trial.sheet);
    let Run { status, printed } = program::run(program, &trial.sheet)?;
    if status.code().is_none() {
        return Ok(Some(format!("the program was ended ({status}) on a sheet of {} bytes", trial.sheet.len())));
    }
    if printed != wanted {
        return Ok(Some(difference(&wanted, &printed)));
    }
    counts.add(&wanted, status.success());
    Ok(None)
}

/// Keeps the sheet of a difference in a file, and says where.
fn kept(sheet: &[u8]) -> String {
    let path = std::env::temp_dir().join(format!("against-{}.sheet", std::process::id()));
    match std::fs::write(&path, sheet) {
        Ok(()) => format!("the sheet is in {}", path.display()),
        Err(error) => format!("the sheet could not be kept in {}: {error}", path.display()),
    }
}

/// The first line in which what was printed is not what was wanted.
fn difference(wanted: &[u8], printed: &[u8]) -> String {
    let lines = |bytes: &[u8]| bytes.split_inclusive(|&byte| byte == b'\n').map(<[u8]>::to_vec).collect::<Vec<_>>();
    let (wanted, printed) = (lines(wanted), lines(printed));
    let equal = wanted.iter().zip(&printed).take_while(|(wanted, printed)| wanted == printed).count();
    let show = |lines: &[Vec<u8>]| match lines.get(equal) {
        Some(line) => format!("{:?}", String::from_utf8_lossy(&line[..line.len().min(200)])),
        None => "nothing more".to_string(),
    };
    format!("line {}: {} is printed, and {} is wanted", equal + 1, show(&printed), show(&wanted))
}
