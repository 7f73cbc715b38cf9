//! The forms of lines, and every short string behind some beginnings.

use judge::{judge, Cause, Line};

const ROOT: [&str; 7] = ["nodes=1\n", "kind=21\n", "from=0\n", "to=0\n", "flag=0\n", "kids=-\n", "text=\n"];

fn refused(bytes: &[u8]) -> (u32, u32, Cause) {
    let judgement = judge(bytes).expect_err("the sheet is refused");
    (judgement.refusal.number, judgement.refusal.place, judgement.cause)
}

fn start(line: usize) -> u32 {
    ROOT[..line].concat().len() as u32
}

fn replaced(line: usize, by: &str) -> Vec<u8> {
    let mut lines = ROOT;
    lines[line] = by;
    lines.concat().into_bytes()
}

#[test]
fn each_line_missing_cut_and_with_another_key() {
    assert!(judge(ROOT.concat().as_bytes()).is_ok());
    for (number, line) in Line::ALL.into_iter().enumerate() {
        let before = ROOT[..number].concat();
        assert_eq!(refused(before.as_bytes()), (2, start(number), Cause::MissingLine(line)));
        let key = ROOT[number].find('=').unwrap_or(0) + 1;
        for cut in 1..ROOT[number].len() {
            let cause = match cut {
                cut if cut < key => Cause::WrongKey(line),
                // A number has a digit at least; no kids and no text are in order.
                cut if cut == key && !matches!(line, Line::Kids | Line::Text) => Cause::BadForm(line),
                _ => Cause::NoLineEnd(line),
            };
            let cut = before.clone() + &ROOT[number][..cut];
            assert_eq!(refused(cut.as_bytes()), (2, start(number), cause), "{cut:?}");
        }
        for key in [" ", "\n", "x", "=", "node=", "Kind=", "kind =", "tto="] {
            let other = format!("{key}{}", ROOT[number]);
            assert_eq!(refused(&replaced(number, &other)), (2, start(number), Cause::WrongKey(line)), "{other:?}");
        }
    }
}

#[test]
fn numbers() {
    let forms = ["", "00", "01", "+1", "-1", "-", " 1", "1 ", "1a", "0x1", "1.0", "1,2", "\u{ff11}", "1\r", "\0", "1\0"];
    for (number, line) in Line::ALL.into_iter().enumerate().filter(|(_, line)| !matches!(line, Line::Kids | Line::Text)) {
        for form in forms {
            let key = String::from_utf8_lossy(line.key());
            let sheet = replaced(number, &format!("{key}{form}\n"));
            assert_eq!(refused(&sheet), (2, start(number), Cause::BadForm(line)), "{key}{form:?}");
        }
    }
}

#[test]
fn kids_and_texts() {
    for form in ["1,", ",1", ",", "1,,2", "--", "-,", ",-", "01", "0,01", "-1", "1-", "1, 2", " ", "1;2", "a", "+1", "-\r", "00"] {
        assert_eq!(refused(&replaced(5, &format!("kids={form}\n"))), (2, start(5), Cause::BadForm(Line::Kids)), "{form:?}");
    }
    for form in ["0", "616", "6A", "FF", "6g", "/0", ":0", "`0", "0 ", "\r", "-", "\0\0"] {
        assert_eq!(refused(&replaced(6, &format!("text={form}\n"))), (2, start(6), Cause::BadForm(Line::Text)), "{form:?}");
    }
}

#[test]
fn bytes_after_the_last_line() {
    let valid = ROOT.concat();
    for more in ["\n", "x", "\0", " ", "\r\n", "kind=20\n", "nodes=1\n"] {
        assert_eq!(refused((valid.clone() + more).as_bytes()), (2, start(7), Cause::Trailing), "{more:?}");
    }
    assert_eq!(refused(b""), (2, 0, Cause::MissingLine(Line::Nodes)));
}

/// Calls `check` with every string of at most so many bytes of the alphabet.
fn every_string(alphabet: &[u8], length: usize, check: &mut dyn FnMut(&[u8])) {
    let mut digits: Vec<usize> = Vec::new();
    loop {
        let string: Vec<u8> = digits.iter().map(|&digit| alphabet[digit]).collect();
        check(&string);
        // Counts on in the alphabet as in a number, and is one digit longer after the last.
        match digits.iter().rposition(|&digit| digit + 1 < alphabet.len()) {
            Some(at) => {
                digits[at] += 1;
                digits[at + 1..].fill(0);
            }
            None if digits.len() < length => digits = vec![0; digits.len() + 1],
            None => return,
        }
    }
}

/// Behind each beginning every string is refused with 2, 3 or 32 at a line's first byte or at the end. Only what is
/// missing from a valid sheet is taken; the alphabet has no letter of a key, so a second line is never in order.
#[test]
fn every_short_string() {
    let beginnings = ["", "nodes=", &ROOT[..1].concat(), &(ROOT[..5].concat() + "kids="), &(ROOT[..6].concat() + "text="), &ROOT.concat()];
    let mut valid = Vec::new();
    for beginning in beginnings {
        every_string(b"01-,a\n", 7, &mut |string| {
            let sheet = [beginning.as_bytes(), string].concat();
            match judge(&sheet) {
                Ok(nodes) => valid.push((beginning.to_string(), nodes.len(), string.to_vec())),
                Err(judgement) => {
                    let place = judgement.refusal.place as usize;
                    assert!(matches!(judgement.refusal.number, 2 | 3 | 32), "{sheet:?}");
                    assert!(place == 0 || place == sheet.len() || sheet[place - 1] == b'\n', "{sheet:?}");
                    assert!(place <= sheet.len(), "{sheet:?}");
                }
            }
        });
    }
    let whole = [(ROOT[..6].concat() + "text=", 1, b"\n".to_vec()), (ROOT.concat(), 1, Vec::new())];
    assert_eq!(valid, whole);
}
