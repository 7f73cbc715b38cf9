//! Two modules part by part, so that the first difference can be said.

use super::module::Module;
use std::fmt::Debug;

/// Whether a module that was read is the right one; the error has the first part that is not.
pub fn same_module(read: &Module, right: &Module) -> Result<(), String> {
    if read == right {
        return Ok(());
    }
    same_list("expression", &read.exprs, &right.exprs)?;
    same_list("name", &read.names, &right.names)?;
    same_list("diagnostic", &read.diagnostics, &right.diagnostics)?;
    same_list("lost pointer", &read.lost, &right.lost)?;
    same_list("scope", &read.scopes, &right.scopes)?;
    same("entry", &read.entry, &right.entry)?;
    same("spent bytes", &read.spent, &right.spent)?;
    same("bytes of texts", &read.texts, &right.texts)
}

fn same_list<T: PartialEq + Debug>(what: &str, read: &[T], right: &[T]) -> Result<(), String> {
    same(&format!("count of {what}s"), &read.len(), &right.len())?;
    let both = read.iter().zip(right).enumerate();
    both.into_iter().try_for_each(|(i, (read, right))| same(&format!("{what} {i}"), read, right))
}

fn same<T: PartialEq + Debug>(what: &str, read: &T, right: &T) -> Result<(), String> {
    if read == right {
        return Ok(());
    }
    // Some lists and texts are too long to print, so a part is shown that begins a little before the difference.
    let (read, right) = (format!("{read:?}"), format!("{right:?}"));
    let alike = read.chars().zip(right.chars()).take_while(|(a, b)| a == b).count();
    let show = |one: &str| one.chars().skip(alike.saturating_sub(150)).take(300).collect::<String>();
    Err(format!("{what} is read as {} and not as {}", show(&read), show(&right)))
}
