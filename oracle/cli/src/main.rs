//! The oracle's command line. Bad input gets a message on standard error and exit status 1.

use std::io::{Read, Write};
use std::process::ExitCode;

use canon::Reading;
use oracle::{against, examples, refsheet, refusals, sheets, vectors};

const USAGE: &str = "usage: oracle COMMAND
  check [SHEET]          whether the sheet is accepted: nodes=, or refused= and at=
  dump [SHEET]           all that the Rust makes of a sheet
  refsheet [SHEET]       the references of a sheet and their answers, as the program refsheet prints them
  edges [SHEET]          the pairs binding, definition of the Rust's NameDependencies, a line each
  book SHEET SCRIPT      the outcome of each call of a script, a line each
  book --dump SHEET SCRIPT   all that holds after the script, and the change room spent
  script SHEET SEED COUNT    a random script of so many calls on the sheet
  tree NOTATION          the sheet of a tree in the short notation, as 21(11(28(18\"x\"),18\"x\"))
  valid PRESET SEED      a random valid sheet
  damaged SEED           a damaged sheet; what was done to it goes to standard error
  refusals SEED COUNT    both checkers on a damaged sheet for each of so many seeds: how often each refusal came
  vectors INPUT OUTPUT   writes some hundred sheets with calls to one file and what comes of each to another
  examples FOLDER        writes the marked examples and lines A to E as sheets, with a table of what refsheet says of them
  against PROGRAM SEED COUNT   runs a program in refsheet's place: on sheets at the limits, then on one for each of so many seeds
A SHEET is a file, or standard input where it is left out or is '-'.";

fn main() -> ExitCode {
    let arguments: Vec<String> = match std::env::args_os().skip(1).map(|a| a.into_string()).collect() {
        Ok(list) => list,
        Err(_) => return failed("an argument is not UTF-8"),
    };
    // Lowering follows the nesting of the tree, which can be deep.
    match tix::with_big_stack(move || run(&arguments)) {
        Ok(output) => match std::io::stdout().write_all(&output).and_then(|()| std::io::stdout().flush()) {
            Ok(()) => ExitCode::SUCCESS,
            Err(error) => failed(&format!("standard output: {error}")),
        },
        Err(message) => failed(&message),
    }
}

fn failed(message: &str) -> ExitCode {
    // Nothing is left to do if standard error can't be written either.
    let _ = writeln!(std::io::stderr(), "oracle: {message}");
    ExitCode::FAILURE
}

fn run(arguments: &[String]) -> Result<Vec<u8>, String> {
    let words: Vec<&str> = arguments.iter().map(String::as_str).collect();
    match words[..] {
        ["check"] => check("-"),
        ["check", path] => check(path),
        ["dump"] => dump("-"),
        ["dump", path] => dump(path),
        ["refsheet"] => Ok(refsheet::output(&input("-")?)),
        ["refsheet", path] => Ok(refsheet::output(&input(path)?)),
        ["edges"] => edges("-"),
        ["edges", path] => edges(path),
        ["book", "--dump", sheet, script] => dump_book(sheet, script),
        ["book", sheet, script] => keep_book(sheet, script),
        ["script", sheet, seed, count] => random_script(sheet, number(seed)?, number(count)?),
        ["tree", notation] => Ok(sheet::write(&sheet::short::parse(notation)?)),
        ["valid", preset, seed] => sheets::valid(preset, number(seed)?),
        ["damaged", seed] => damaged(number(seed)?),
        ["refusals", seed, count] => Ok(refusals::refusals(number(seed)?, number(count)?)?.into_bytes()),
        ["vectors", input, output] => write_vectors(input, output),
        ["examples", folder] => write_examples(folder),
        ["against", program, seed, count] => Ok(against::against(program, number(seed)?, number(count)?)?.into_bytes()),
        _ => Err(USAGE.to_string()),
    }
}

fn number(word: &str) -> Result<u64, String> {
    word.parse().map_err(|_| format!("'{word}' is no number from 0 to {}", u64::MAX))
}

fn input(path: &str) -> Result<Vec<u8>, String> {
    let mut bytes = Vec::new();
    let read = match path {
        "-" => std::io::stdin().lock().read_to_end(&mut bytes).map(|_| ()),
        _ => std::fs::read(path).map(|file| bytes = file),
    };
    read.map_err(|error| format!("{path}: {error}"))?;
    Ok(bytes)
}

fn accepted(path: &str) -> Result<Vec<sheet::Node>, String> {
    sheet::check::check(&input(path)?).map_err(|r| format!("{path}: the sheet is refused: refused={} at={}", r.number, r.place))
}

fn check(path: &str) -> Result<Vec<u8>, String> {
    Ok(match sheet::check::check(&input(path)?) {
        Ok(nodes) => format!("nodes={}\n", nodes.len()),
        Err(refusal) => refsheet::refused(refusal),
    }
    .into_bytes())
}

fn dump(path: &str) -> Result<Vec<u8>, String> {
    Ok(tix::Tix::new(&accepted(path)?).facts().to_string().into_bytes())
}

fn edges(path: &str) -> Result<Vec<u8>, String> {
    let pairs = tix::Tix::new(&accepted(path)?).edges()?;
    Ok(pairs.iter().map(|(binding, definition)| format!("{binding} {definition}\n")).collect::<String>().into_bytes())
}

/// The book of a sheet, and the calls of a script.
fn opened(sheet_path: &str, script_path: &str) -> Result<(book::Book<tix::Tix>, Vec<book::Call>), String> {
    let nodes = accepted(sheet_path)?;
    let script = String::from_utf8(input(script_path)?).map_err(|_| format!("{script_path}: not UTF-8"))?;
    let calls = book::script::parse(&script).map_err(|error| format!("{script_path}: {error}"))?;
    Ok((book::Book::new(tix::Tix::new(&nodes)), calls))
}

fn keep_book(sheet_path: &str, script_path: &str) -> Result<Vec<u8>, String> {
    let (mut book, calls) = opened(sheet_path, script_path)?;
    Ok(calls.iter().map(|call| format!("{}\n", book.call(call))).collect::<String>().into_bytes())
}

fn dump_book(sheet_path: &str, script_path: &str) -> Result<Vec<u8>, String> {
    let (mut book, calls) = opened(sheet_path, script_path)?;
    calls.iter().for_each(|call| {
        book.call(call);
    });
    Ok(format!("{}spent={}\n", book.facts(), book.held().room_spent).into_bytes())
}

/// The calls follow the texts as they then read, so that renamed names are met again.
fn random_script(path: &str, seed: u64, count: u64) -> Result<Vec<u8>, String> {
    let mut book = book::Book::new(tix::Tix::new(&accepted(path)?));
    let mut rng = generate::Rng::new(seed);
    let mut script = String::new();
    for _ in 0..count {
        let call = book::random::call(&mut rng, &book, seed % 8 == 1);
        book.call(&call);
        script += &format!("{call}\n");
    }
    Ok(script.into_bytes())
}

fn damaged(seed: u64) -> Result<Vec<u8>, String> {
    let (bytes, what) = generate::damaged(seed);
    let _ = writeln!(std::io::stderr(), "oracle: {what}");
    Ok(bytes)
}

/// The files are opened first, since the sheets take a while to find.
fn write_vectors(input: &str, output: &str) -> Result<Vec<u8>, String> {
    let open = |path: &str| std::fs::File::create(path).map_err(|error| format!("{path}: {error}"));
    let (mut input_file, mut output_file) = (open(input)?, open(output)?);
    let (sheets, said) = vectors::make()?;
    input_file.write_all(&sheets).map_err(|error| format!("{input}: {error}"))?;
    output_file.write_all(said.as_bytes()).map_err(|error| format!("{output}: {error}"))?;
    Ok(Vec::new())
}

fn write_examples(folder: &str) -> Result<Vec<u8>, String> {
    std::fs::create_dir_all(folder).map_err(|error| format!("{folder}: {error}"))?;
    for (name, bytes) in examples::files()? {
        let path = std::path::Path::new(folder).join(name);
        std::fs::write(&path, bytes).map_err(|error| format!("{}: {error}", path.display()))?;
    }
    Ok(Vec::new())
}
