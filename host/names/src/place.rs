//! The Nix text beside a sheet: from a byte to its line and column and back, and a line with a marker under a place.

use std::fmt;

/// The most characters of a line that are shown; of a longer one those around the marker are.
const MOST_SHOWN: usize = 120;
/// How many characters of a long line are shown before the marker.
const BEFORE: usize = 40;

/// A Nix text, with where its lines begin.
#[derive(Debug, Clone)]
pub struct Source {
    bytes: Vec<u8>,
    starts: Vec<usize>,
}

/// A line and a column, both from 1. Columns count characters, as editors do; a byte that is no part of one
/// counts as one.
#[derive(Debug, Clone, Copy, PartialEq, Eq)]
pub struct Spot {
    pub line: usize,
    pub column: usize,
}

impl fmt::Display for Spot {
    fn fmt(&self, f: &mut fmt::Formatter<'_>) -> fmt::Result {
        write!(f, "{}:{}", self.line, self.column)
    }
}

impl Source {
    pub fn new(bytes: Vec<u8>) -> Self {
        let ends = bytes.iter().enumerate().filter(|&(_, &byte)| byte == b'\n');
        let starts = std::iter::once(0).chain(ends.map(|(at, _)| at + 1)).collect();
        Source { bytes, starts }
    }

    pub fn bytes(&self) -> &[u8] {
        &self.bytes
    }

    /// The text of a place, if it lies in the text.
    pub fn text(&self, from: u32, to: u32) -> Option<&[u8]> {
        self.bytes.get(from as usize..to as usize)
    }

    /// The line and column of a byte, or of the character that it is a part of; the text's end is a place too.
    pub fn spot(&self, byte: u32) -> Option<Spot> {
        let byte = byte as usize;
        if byte > self.bytes.len() {
            return None;
        }
        let line = self.starts.partition_point(|&start| start <= byte);
        let (start, end) = self.line_bounds(line)?;
        let characters = characters(self.bytes.get(start..end)?);
        let begun = characters.partition_point(|&(at, _)| start + at <= byte);
        Some(Spot { line, column: if byte == end { begun + 1 } else { begun } })
    }

    /// The byte at which the character of a line and column begins.
    pub fn byte(&self, spot: Spot) -> Option<u32> {
        let (start, _) = self.line_bounds(spot.line)?;
        let (at, _) = *characters(self.line(spot.line)?).get(spot.column.checked_sub(1)?)?;
        u32::try_from(start + at).ok()
    }

    /// A line, counted from 1, without its end.
    pub fn line(&self, number: usize) -> Option<&[u8]> {
        let (start, end) = self.line_bounds(number)?;
        let line = self.bytes.get(start..end)?;
        let line = line.strip_suffix(b"\n").unwrap_or(line);
        Some(line.strip_suffix(b"\r").unwrap_or(line))
    }

    /// The first byte of a line, and the first after its end.
    pub fn line_bounds(&self, number: usize) -> Option<(usize, usize)> {
        let start = *self.starts.get(number.checked_sub(1)?)?;
        Some((start, self.starts.get(number).copied().unwrap_or(self.bytes.len())))
    }

    /// The line in which a place begins, and under it a marker as long as the place; two lines, none where the place is
    /// outside.
    pub fn marked(&self, from: u32, to: u32) -> Vec<String> {
        self.marked_line(from, to).unwrap_or_default()
    }

    fn marked_line(&self, from: u32, to: u32) -> Option<Vec<String>> {
        let spot = self.spot(from)?;
        let line = shown_line(self.line(spot.line)?);
        let start = spot.column - 1;
        // A place that goes past its line is marked to the line's end.
        let length = characters(self.text(from, to).unwrap_or_default()).len().min(line.len().saturating_sub(start)).max(1);
        let first = if line.len() > MOST_SHOWN { start.saturating_sub(BEFORE) } else { 0 };
        let window: String = line.iter().skip(first).take(MOST_SHOWN).collect();
        // Tabs stay tabs, so that the marker stands where the terminal puts the name.
        let blanks: String = line.iter().skip(first).take(start - first).map(|&c| if c == '\t' { '\t' } else { ' ' }).collect();
        let gutter = spot.line.to_string();
        let (before, after) = (dots(first > 0), dots(first + MOST_SHOWN < line.len()));
        let dent = " ".repeat(before.len());
        let room = (line.len() - first).min(MOST_SHOWN).saturating_sub(start - first);
        let carets = "^".repeat(length.min(room).max(1));
        Some(vec![format!("{gutter} | {before}{window}{after}"), format!("{:1$} | {dent}{blanks}{carets}", "", gutter.len())])
    }
}

fn dots(cut: bool) -> &'static str {
    if cut {
        "..."
    } else {
        ""
    }
}

/// The characters of some bytes, each with where it begins. A byte that is no part of a character counts as one.
fn characters(bytes: &[u8]) -> Vec<(usize, char)> {
    let mut characters = Vec::new();
    let mut begun = 0;
    for chunk in bytes.utf8_chunks() {
        characters.extend(chunk.valid().char_indices().map(|(at, c)| (begun + at, c)));
        begun += chunk.valid().len();
        characters.extend((begun..begun + chunk.invalid().len()).map(|at| (at, '\u{fffd}')));
        begun += chunk.invalid().len();
    }
    characters
}

/// A line as it is shown: as many characters as it has, and none that a terminal would obey.
pub fn shown_line(line: &[u8]) -> Vec<char> {
    characters(line).into_iter().map(|(_, c)| if printed(c) { c } else { '\u{fffd}' }).collect()
}

fn printed(c: char) -> bool {
    matches!(c, '\t' | '"' | '\'' | '\\') || c.escape_debug().len() == 1
}

#[cfg(test)]
mod tests {
    use super::*;

    fn source(text: &[u8]) -> Source {
        Source::new(text.to_vec())
    }

    #[test]
    fn bytes_have_lines_and_columns() {
        let text = source("a\nbé c\r\n".as_bytes());
        let spots: Vec<String> = (0..=10).map(|byte| text.spot(byte).map_or("-".to_string(), |spot| spot.to_string())).collect();
        assert_eq!(spots, ["1:1", "1:2", "2:1", "2:2", "2:2", "2:3", "2:4", "2:5", "2:6", "3:1", "-"]);
        assert_eq!(text.line(2), Some("bé c".as_bytes()));
        assert_eq!(text.line(0), None);
    }

    #[test]
    fn lines_and_columns_have_bytes() {
        let text = source("a\nbé c\r\n".as_bytes());
        assert_eq!(text.byte(Spot { line: 2, column: 3 }), Some(5));
        assert_eq!(text.byte(Spot { line: 2, column: 4 }), Some(6));
        for (line, column) in [(0, 1), (1, 0), (1, 2), (9, 1), (2, 5)] {
            assert_eq!(text.byte(Spot { line, column }), None, "{line}:{column}");
        }
    }

    #[test]
    fn a_place_is_marked() {
        assert_eq!(source(b"x: x").marked(3, 4), ["1 | x: x", "  |    ^"]);
        assert_eq!(source(b"\tlong").marked(1, 5), ["1 | \tlong", "  | \t^^^^"]);
        assert_eq!(source(b"{\n}").marked(0, 3), ["1 | {", "  | ^"]);
        assert_eq!(source(b"\x1bx").marked(1, 2), ["1 | \u{fffd}x", "  |  ^"]);
        assert!(source(b"x").marked(2, 3).is_empty());
        assert_eq!(source(b"").marked(0, 0), ["1 | ", "  | ^"]);
    }

    #[test]
    fn of_a_long_line_what_is_around_is_shown() {
        let mut text = vec![b'a'; 1000];
        text[500] = b'X';
        let lines = source(&text).marked(500, 501);
        assert_eq!(lines[0].find('X'), lines[1].find('^'));
        assert!(lines[0].len() < 140 && lines[0].starts_with("1 | ...a") && lines[0].ends_with("a..."));
    }
}
