//! `--json` on every command: it is JSON, and says what the text says.

mod common;

use common::{printed, sheet_file};

/// The rest behind a JSON value, or where it stops being one.
fn value(text: &str) -> Result<&str, String> {
    let wrong = || format!("no value: {text}");
    match text.as_bytes().first().ok_or_else(wrong)? {
        b'{' => items(&text[1..], '}', |text| value(string(text)?.strip_prefix(':').ok_or_else(|| format!("no colon: {text}"))?)),
        b'[' => items(&text[1..], ']', value),
        b'"' => string(text),
        b'0'..=b'9' => {
            let end = text.find(|c: char| !c.is_ascii_digit()).unwrap_or(text.len());
            (end == 1 || !text.starts_with('0')).then(|| &text[end..]).ok_or_else(wrong)
        }
        _ => ["true", "false", "null"].into_iter().find_map(|word| text.strip_prefix(word)).ok_or_else(wrong),
    }
}

fn items<'a>(text: &'a str, end: char, item: impl Fn(&'a str) -> Result<&'a str, String>) -> Result<&'a str, String> {
    if let Some(rest) = text.strip_prefix(end) {
        return Ok(rest);
    }
    let mut rest = item(text)?;
    while let Some(next) = rest.strip_prefix(',') {
        rest = item(next)?;
    }
    rest.strip_prefix(end).ok_or_else(|| format!("no {end}: {rest}"))
}

fn string(text: &str) -> Result<&str, String> {
    let inside = text.strip_prefix('"').ok_or_else(|| format!("no string: {text}"))?;
    let mut chars = inside.char_indices();
    while let Some((at, c)) = chars.next() {
        match c {
            '"' => return Ok(&inside[at + 1..]),
            '\\' => match chars.next() {
                Some((_, '"' | '\\' | '/' | 'b' | 'f' | 'n' | 'r' | 't')) => {}
                Some((at, 'u')) if inside.get(at + 1..at + 5).is_some_and(|hex| hex.bytes().all(|b| b.is_ascii_hexdigit())) => {}
                _ => return Err(format!("no escape: {inside}")),
            },
            '\0'..='\x1f' => return Err(format!("a control character: {inside}")),
            _ => {}
        }
    }
    Err(format!("no end: {text}"))
}

#[track_caller]
fn checked(words: &[&str], input: &[u8]) -> String {
    let out = printed(&[words, &["--json"]].concat(), input);
    for line in out.lines() {
        assert_eq!(value(line), Ok(""), "{line}");
    }
    out
}

#[test]
fn the_checker_checks() {
    for good in [r#"{"a":[1,0,true,null],"b":{},"c":"\u00ff\n\""}"#, "[]", "12"] {
        assert_eq!(value(good), Ok(""), "{good}");
    }
    for bad in ["", "{", "[1,]", r#"{"a"}"#, r#"{a:1}"#, "01", r#""\x""#, "\"\n\"", "tru", r#"{"a":1,}"#] {
        assert_ne!(value(bad), Ok(""), "{bad}");
    }
}

#[test]
fn show_says_all_in_one_object() {
    let expected = concat!(
        r#"{"counts":{"expressions":2,"names":1,"scopes":2,"references":1,"definitions":1,"builtins":0,"withs":0,"nothing":0},"#,
        r#""references":[{"expr":0,"text":"x","from":3,"to":4,"line":1,"column":4,"means":{"kind":"definition","name":0,"#,
        r#""sort":"parameter","text":"x","from":0,"to":1,"line":1,"column":1}}],"duplicate_keys":[]}"#,
        "\n"
    );
    assert_eq!(checked(&["show", "examples/lambda.sheet", "-"], b"x: x"), expected);
    let keys = checked(&["show", "examples/line-c-path-and-value.sheet"], b"");
    let duplicate = r#""duplicate_keys":[{"key":"base","first":{"from":2,"to":6},"second":{"from":15,"to":19}}]"#;
    assert!(keys.contains(duplicate), "{keys}");
    let withs = checked(&["show", "examples/with-in-with.sheet"], b"");
    assert!(withs.contains(r#""means":{"kind":"withs","withs":[{"expr":3,"from":8,"to":17},{"expr":4,"from":0,"to":17}]}"#), "{withs}");
    let builtin = checked(&["show", "examples/builtin-under-with.sheet"], b"");
    assert!(builtin.contains(r#""means":{"kind":"builtin","index":14,"text":"map"}"#), "{builtin}");
}

#[test]
fn follow_and_references_say_what_is_here() {
    let sheet = "examples/line-a-plain-inherit-in-let.sheet";
    let expected = concat!(
        r#"{"byte":18,"here":{"kind":"reference","from":18,"to":22,"expr":0,"text":"base"},"#,
        r#""means":{"kind":"definition","name":0,"sort":"parameter","text":"base","from":0,"to":4},"#,
        r#""inherited_by":{"kind":"definition","name":1,"sort":"let","text":"base","from":18,"to":22}}"#,
        "\n"
    );
    assert_eq!(checked(&["follow", sheet, "18"], b""), expected);
    assert!(checked(&["follow", sheet, "0"], b"").contains(r#""here":{"kind":"definition","from":0,"to":4,"name":0}"#));
    assert!(checked(&["follow", sheet, "5"], b"").contains(r#""sort":"function"},"means":null}"#));
    let references = checked(&["references", sheet, "33"], b"");
    assert!(references.ends_with("\"references\":[{\"expr\":1,\"text\":\"base\",\"from\":33,\"to\":37}]}\n"), "{references}");
}

#[test]
fn rename_run_and_lines_are_json_too() {
    let rename = checked(&["rename", "examples/line-d-rename-and-back.sheet", "0", "y", "-"], b"x: y: x");
    let writes = r#""writes":[{"from":0,"to":1,"old":"x","new":"y"},{"from":6,"to":7,"old":"x","new":"y"}]"#;
    let changes = r#""changes":{"set_name":0,"set_ref":[0],"text":"79","moved":[[0],[0]]}"#;
    let lines = r#""lines":[{"line":1,"before":[{"text":"x: y: x"}],"after":[{"text":"y: y: y"}]}]"#;
    for part in [writes, changes, lines] {
        assert!(rename.contains(part), "{rename}");
    }
    let run = checked(&["run", "examples/lambda.sheet"], b"ask-ref 0\nset-name 0 text=79\nask-ref 1\n");
    let expected = concat!(
        r#"{"call":"ask-ref","number":0,"accepted":true,"means":{"kind":"definition","name":0,"sort":"parameter","text":"x","from":0,"to":1}}"#,
        "\n",
        r#"{"call":"set-name","number":0,"accepted":true,"moved":[{"expr":0,"text":"x","from":3,"to":4}]}"#,
        "\n",
        r#"{"call":"ask-ref","number":1,"accepted":false,"refused":25,"at":1,"why":"refused (25): expression 1 is no Reference"}"#,
        "\n"
    );
    assert_eq!(run, expected);
    assert!(checked(&["lines"], b"").starts_with(r#"{"ok":true,"lines":[{"line":"A","#));
}

#[test]
fn texts_of_any_bytes_stay_json() {
    let sheet = sheet_file("odd-texts", r#"21@0..9(13@0..9(18"\"\\\x0a"@0..3,18"\xff\x78"@4..6))"#);
    let odd = checked(&["show", &sheet], b"");
    assert!(odd.contains(r#""text":"\"\\\n""#) && odd.contains(r#""text_hex":"ff78""#), "{odd}");
    for seed in 0..40 {
        let sheet = sheet::write(&generate::Preset::Medium.sheet(seed));
        checked(&["show", "-"], &sheet);
    }
}
