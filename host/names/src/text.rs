//! Texts for people: bytes as they can be read, counts with their words, columns.

/// A text as a person can read it. What a terminal would not print, or would obey, is escaped.
pub fn shown(text: &[u8]) -> String {
    if text.is_empty() {
        return "(empty)".to_string();
    }
    let mut shown = String::new();
    for chunk in text.utf8_chunks() {
        chunk.valid().chars().for_each(|c| push(&mut shown, c));
        chunk.invalid().iter().for_each(|byte| shown += &format!("\\x{byte:02x}"));
    }
    shown
}

fn push(shown: &mut String, c: char) {
    match c {
        '"' | '\'' | '\\' => shown.push(c),
        _ => shown.extend(c.escape_debug()),
    }
}

/// `1 reference`, `2 references`, `no references`.
pub fn count(number: usize, one: &str, many: &str) -> String {
    match number {
        0 => format!("no {many}"),
        1 => format!("1 {one}"),
        _ => format!("{number} {many}"),
    }
}

/// A cell with more characters does not widen its column: a text may have as many as a sheet has room for.
const WIDEST: usize = 255;

/// Rows whose cells stand below each other, two blanks apart; a line each.
pub fn aligned(rows: &[Vec<String>]) -> Vec<String> {
    let columns = rows.iter().map(Vec::len).max().unwrap_or(0);
    let cells = |column: usize| rows.iter().filter_map(move |row| row.get(column)).map(|cell| cell.chars().count());
    let widths: Vec<usize> = (0..columns).map(|column| cells(column).filter(|&width| width <= WIDEST).max().unwrap_or(0)).collect();
    let line = |row: &Vec<String>| {
        let cells: Vec<String> = row.iter().zip(&widths).map(|(cell, &width)| format!("{cell:width$}")).collect();
        cells.join("  ").trim_end().to_string()
    };
    rows.iter().map(line).collect()
}

/// A row of cells.
pub fn row<const N: usize>(cells: [&str; N]) -> Vec<String> {
    cells.map(str::to_string).to_vec()
}

#[cfg(test)]
mod tests {
    use super::*;

    #[test]
    fn texts_do_nothing_to_a_terminal() {
        assert_eq!(shown(b"base"), "base");
        assert_eq!(shown(b""), "(empty)");
        assert_eq!(shown(b"a'\"\\"), "a'\"\\");
        assert_eq!(shown("\u{1b}[2J\n\u{202e}é".as_bytes()), "\\u{1b}[2J\\n\\u{202e}é");
        assert_eq!(shown(b"\xffx"), "\\xffx");
    }

    #[test]
    fn columns_stand_below_each_other() {
        let rows = [row(["a", "é", "x"]), row(["bbb", "cc", ""]), row(["d"])];
        assert_eq!(aligned(&rows), ["a    é   x", "bbb  cc", "d"]);
        assert!(aligned(&[]).is_empty());
        let long = "l".repeat(500_000);
        assert_eq!(
            aligned(&[row(["a", "b"]), row([&long, "b"]), row(["cc", "b"])]),
            ["a   b".to_string(), format!("{long}  b"), "cc  b".to_string()]
        );
    }
}
