//! `names lines`: the lines that the field engineer carries, A to E, tried out on the code that is linked.

use crate::at::{self, Thing};
use crate::edits::{changed_lines, edits};
use crate::input::{self, Opened};
use crate::json::Object;
use crate::place::Source;
use crate::plan::plan;
use crate::text::{aligned, count, shown};
use crate::words;
use lang_ast::{ExprId, NameId, Refusal};

macro_rules! sheet {
    ($name:literal) => {
        include_bytes!(concat!("../../../examples/line-", $name, ".sheet"))
    };
}

/// A line of the request, and what was tried for it.
struct Line {
    letter: char,
    title: &'static str,
    trials: Vec<Trial>,
}

/// Some steps on one Nix text. Without a sheet that loads there are none but the failed load.
struct Trial {
    nix: &'static str,
    opened: Option<Opened>,
    steps: Vec<Step>,
}

/// What was done, what came of it, and what should have.
struct Step {
    did: String,
    came: String,
    wanted: String,
}

impl Step {
    fn ok(&self) -> bool {
        self.came == self.wanted
    }

    fn verdict(&self) -> String {
        match self.ok() {
            true => "ok".to_string(),
            false => format!("WRONG, wanted: {}", self.wanted),
        }
    }
}

impl Line {
    fn ok(&self) -> bool {
        self.trials.iter().all(|trial| trial.opened.is_some() && trial.steps.iter().all(Step::ok))
    }
}

/// What all lines print, and whether all are right.
pub fn report(json: bool) -> (String, bool) {
    let lines = [a(), b(), c(), d(), e()];
    let ok = lines.iter().all(Line::ok);
    let text = match json {
        true => Object::new().with("ok", ok).with("lines", lines.iter().map(line_json).collect::<Vec<_>>()).to_string() + "\n",
        false => lines.iter().map(line_text).chain([verdict(&lines)]).collect::<Vec<_>>().join("\n"),
    };
    (text, ok)
}

fn a() -> Line {
    let mut trial = Trial::new("base: let inherit base; search = base; in search", sheet!("a-plain-inherit-in-let"));
    trial.follow("the use of base", 33, "let base (n1) at 18..22");
    trial.follow("the inherited value", 18, "parameter base (n0) at 0..4");
    trial.rename("the inner base", 18, "staff", "base: let staff = base; search = staff; in search");
    trial.rename("the outer base", 0, "staff", "staff: let base = staff; search = base; in search");
    trial.changed("make the inner rename", "moves e1", |opened| {
        opened.store.change_name(NameId(1), b"staff")?;
        opened.store.change_reference(ExprId(1), b"staff")
    });
    trial.follow("the use again", 33, "let staff (n1) at 18..22");
    trial.follow("the inherited value again", 18, "parameter base (n0) at 0..4");
    Line { letter: 'A', title: "follow a plain inherit inside a let", trials: vec![trial] }
}

fn b() -> Line {
    let mut trial = Trial::new("with { map = 1; }; map", sheet!("b-builtin-under-with"));
    trial.follow("map", 19, "builtin map");
    trial.references("the set's map", 7, "no references");
    Line { letter: 'B', title: "put a builtin's name under a with", trials: vec![trial] }
}

fn c() -> Line {
    let mut trial = Trial::new("{ base.dn = 1; base = 2; }", sheet!("c-path-and-value"));
    trial.step("list the duplicate keys", "base at 2..6 and again at 15..19", |opened| {
        let one = |key: lang_ast::DuplicateKey| {
            let place = |pointer| words::place(opened, Some(pointer));
            format!("{} at {} and again at {}", shown(key.key), place(key.first), place(key.second))
        };
        opened.store.diagnostics().map(one).collect::<Vec<_>>().join("; ")
    });
    Line { letter: 'C', title: "write one key as a path and again as a value", trials: vec![trial] }
}

fn d() -> Line {
    let mut trial = Trial::new("x: y: x", sheet!("d-rename-and-back"));
    let first = trial.opened.as_ref().map(held);
    trial.follow("x", 6, "parameter x (n0) at 0..1");
    trial.references("the outer parameter", 0, "e0");
    trial.changed("change the outer parameter to base", "moves e0", |opened| opened.store.change_name(NameId(0), b"base"));
    trial.follow("x, renamed by half", 6, "nothing");
    trial.changed("change the use to base", "moves e0", |opened| opened.store.change_reference(ExprId(0), b"base"));
    trial.follow("base", 6, "parameter base (n0) at 0..1");
    trial.changed("change both back to x", "moves e0", |opened| {
        opened.store.change_name(NameId(0), b"x")?;
        opened.store.change_reference(ExprId(0), b"x")
    });
    trial.follow("x again", 6, "parameter x (n0) at 0..1");
    trial.changed("change the inner parameter to x", "moves e0", |opened| opened.store.change_name(NameId(1), b"x"));
    trial.follow("x, now the inner one's", 6, "parameter x (n1) at 3..4");
    trial.references("the outer parameter", 0, "no references");
    trial.changed("change it back to y", "moves e0", |opened| opened.store.change_name(NameId(1), b"y"));
    trial.follow("x again", 6, "parameter x (n0) at 0..1");
    trial.references("the outer parameter", 0, "e0");
    let same = |opened: &Opened| if Some(held(opened)) == first { "as at first" } else { "not as at first" }.to_string();
    trial.step("all answers and references", "as at first", same);
    Line { letter: 'D', title: "rename, rename back, follow again", trials: vec![trial] }
}

fn e() -> Line {
    let mut body = Trial::new("x: let y = x; in", sheet!("e-body-missing"));
    body.follow("x", 11, "parameter x (n0) at 0..1");
    body.follow("y", 7, "let y (n1) at 7..8");
    let mut value = Trial::new("x: { a = x; b =", sheet!("e-value-missing"));
    value.follow("x", 9, "parameter x (n0) at 0..1");
    value.follow("b", 12, "set key b (n2) at 12..13");
    let mut sign = Trial::new("x: [ x = x ]", sheet!("e-stray-sign"));
    sign.follow("x before the stray sign", 5, "parameter x (n0) at 0..1");
    sign.follow("the sign", 7, "hole");
    sign.follow("x behind it", 9, "parameter x (n0) at 0..1");
    Line { letter: 'E', title: "paste half an expression", trials: vec![body, value, sign] }
}

/// All answers and references that a store keeps.
fn held(opened: &Opened) -> Vec<String> {
    let store = &opened.store;
    let answers = store.references().map(|(expr, text)| format!("{expr} {} {:?}", shown(text), store.ask_reference(expr)));
    let references = store.names().map(|name| format!("{name} {:?}", store.ask_name(name)));
    answers.chain(references).collect()
}

impl Trial {
    fn new(nix: &'static str, sheet: &[u8]) -> Self {
        let mut trial = Trial { nix, opened: None, steps: Vec::new() };
        match input::load(sheet) {
            Ok(opened) => trial.opened = Some(opened),
            Err(why) => trial.steps.push(Step { did: "load".to_string(), came: why, wanted: "accepted".to_string() }),
        }
        trial
    }

    fn step(&mut self, did: &str, wanted: &str, came: impl FnOnce(&Opened) -> String) {
        if let Some(opened) = &self.opened {
            self.steps.push(Step { did: did.to_string(), came: came(opened), wanted: wanted.to_string() });
        }
    }

    /// Makes changes; wanted is what the last of them moves.
    fn changed(&mut self, did: &str, wanted: &str, change: impl FnOnce(&mut Opened) -> Result<Vec<ExprId>, Refusal>) {
        if let Some(opened) = &mut self.opened {
            let came = change(opened).map_or_else(|refusal| input::refused(refusal, &[]), |moved| words::moved(&moved));
            self.steps.push(Step { did: did.to_string(), came, wanted: wanted.to_string() });
        }
    }

    fn follow(&mut self, what: &str, byte: u32, wanted: &str) {
        self.step(&format!("follow {what}"), wanted, |opened| followed(opened, byte).unwrap_or_else(|why| why));
    }

    fn references(&mut self, what: &str, byte: u32, wanted: &str) {
        self.step(&format!("list the references of {what}"), wanted, |opened| listed(opened, byte).unwrap_or_else(|why| why));
    }

    /// Tries a rename out: it must move nothing, and the text must then read as is wanted.
    fn rename(&mut self, what: &str, byte: u32, new: &str, wanted: &str) {
        let nix = self.nix;
        let did = format!("try to rename {what} to {new}");
        self.step(&did, wanted, |opened| renamed(opened, nix, byte, new).unwrap_or_else(|why| why));
    }
}

fn followed(opened: &Opened, byte: u32) -> Result<String, String> {
    match at::found(opened, byte)?.thing {
        Thing::Reference(expr) => {
            let answer = opened.store.ask_reference(expr).map_err(|refusal| input::refused(refusal, &[]))?;
            Ok(words::answer(opened, expr, &answer))
        }
        Thing::Name(name) | Thing::Again(name) => Ok(words::definition(opened, name)),
        Thing::Expr(expr) => Ok(words::expression(&opened.store, expr).to_string()),
    }
}

fn listed(opened: &Opened, byte: u32) -> Result<String, String> {
    let name = at::definition(opened, byte)?;
    let uses = opened.store.ask_name(name).map_err(|refusal| input::refused(refusal, &[]))?;
    if uses.is_empty() {
        return Ok("no references".to_string());
    }
    Ok(uses.iter().map(ExprId::to_string).collect::<Vec<_>>().join(", "))
}

fn renamed(opened: &Opened, nix: &str, byte: u32, new: &str) -> Result<String, String> {
    let plan = plan(opened, at::definition(opened, byte)?, new.as_bytes())?;
    if !plan.moved.is_empty() {
        return Ok(format!("it moves {}", count(plan.moved.len(), "reference", "references")));
    }
    let changed = changed_lines(&Source::new(nix.as_bytes().to_vec()), &edits(opened, &plan).list).unwrap_or_default();
    let after = changed.iter().flat_map(|changed| &changed.after).map(|line| shown(line));
    Ok(after.collect::<Vec<_>>().join(" / "))
}

fn line_text(line: &Line) -> String {
    let mut text = format!("{}  {}: {}\n", line.letter, line.title, if line.ok() { "ok" } else { "WRONG" });
    for trial in &line.trials {
        text += &format!("     {}\n", trial.nix);
        let rows: Vec<Vec<String>> = trial.steps.iter().map(|step| vec![step.did.clone(), step.came.clone(), step.verdict()]).collect();
        aligned(&rows).iter().for_each(|row| text += &format!("   - {row}\n"));
    }
    text
}

/// The last line of all.
fn verdict(lines: &[Line]) -> String {
    let wrong: Vec<String> = lines.iter().filter(|line| !line.ok()).map(|line| line.letter.to_string()).collect();
    match wrong.is_empty() {
        true => "all lines are ok\n".to_string(),
        false => format!("WRONG: {}\n", wrong.join(", ")),
    }
}

fn line_json(line: &Line) -> Object {
    let step = |step: &Step| {
        let object = Object::new().with("did", step.did.as_str()).with("came", step.came.as_str());
        object.with("wanted", step.wanted.as_str()).with("ok", step.ok())
    };
    let trial = |trial: &Trial| Object::new().with("nix", trial.nix).with("steps", trial.steps.iter().map(step).collect::<Vec<_>>());
    let object = Object::new().with("line", line.letter.to_string()).with("title", line.title).with("ok", line.ok());
    object.with("texts", line.trials.iter().map(trial).collect::<Vec<_>>())
}

#[cfg(test)]
mod tests {
    use super::*;

    #[test]
    fn what_comes_out_wrong_is_told() {
        let mut trial = Trial::new("with { map = 1; }; map", sheet!("b-builtin-under-with"));
        trial.follow("map", 19, "with (e3) at 0..22");
        let line = Line { letter: 'B', title: "of a test", trials: vec![trial] };
        assert!(!line.ok());
        let text = line_text(&line);
        assert!(text.starts_with("B  of a test: WRONG\n"), "{text}");
        assert!(text.contains("builtin map  WRONG, wanted: with (e3) at 0..22"), "{text}");
        assert_eq!(verdict(&[line]), "WRONG: B\n");
    }

    #[test]
    fn a_sheet_that_is_refused_is_told() {
        let mut trial = Trial::new("x", b"nodes=0\n");
        trial.follow("x", 0, "nothing");
        let line = Line { letter: 'E', title: "of a test", trials: vec![trial] };
        assert!(!line.ok());
        assert!(line_text(&line).contains("(line 1 of the sheet)"));
    }
}
