//! JSON, just enough to be written: values, and how they are shown on one line.

use std::fmt;

/// A value of JSON. Numbers are whole and not negative, since no other comes up.
#[derive(Debug, Clone, PartialEq)]
pub enum Json {
    Null,
    Bool(bool),
    Number(u64),
    Text(String),
    List(Vec<Json>),
    Object(Object),
}

/// An object, whose keys stay in the order in which they were given.
#[derive(Debug, Clone, Default, PartialEq)]
pub struct Object(Vec<(String, Json)>);

impl Object {
    pub fn new() -> Self {
        Object::default()
    }

    pub fn with(mut self, key: &str, value: impl Into<Json>) -> Self {
        self.0.push((key.to_string(), value.into()));
        self
    }

    /// A text of the sheet, which is bytes: a string under `key` where they are UTF-8, else hex under `key_hex`, so
    /// that a program never takes a replaced character for the text.
    pub fn with_text(self, key: &str, text: &[u8]) -> Self {
        match std::str::from_utf8(text) {
            Ok(text) => self.with(key, text),
            Err(_) => self.with(&format!("{key}_hex"), hex(text)),
        }
    }
}

/// Two lowercase digits a byte.
pub fn hex(bytes: &[u8]) -> String {
    bytes.iter().map(|byte| format!("{byte:02x}")).collect()
}

macro_rules! from {
    ($($type:ty, $value:ident => $json:expr;)*) => {
        $(impl From<$type> for Json {
            fn from($value: $type) -> Self {
                $json
            }
        })*
    };
}

from! {
    bool, value => Json::Bool(value);
    u32, value => Json::Number(value.into());
    usize, value => Json::Number(value as u64);
    &str, value => Json::Text(value.to_string());
    String, value => Json::Text(value);
    Object, value => Json::Object(value);
}

impl<T: Into<Json>> From<Vec<T>> for Json {
    fn from(list: Vec<T>) -> Self {
        Json::List(list.into_iter().map(T::into).collect())
    }
}

impl<T: Into<Json>> From<Option<T>> for Json {
    fn from(value: Option<T>) -> Self {
        value.map_or(Json::Null, T::into)
    }
}

impl fmt::Display for Json {
    fn fmt(&self, f: &mut fmt::Formatter<'_>) -> fmt::Result {
        match self {
            Json::Null => f.write_str("null"),
            Json::Bool(value) => write!(f, "{value}"),
            Json::Number(value) => write!(f, "{value}"),
            Json::Text(text) => quoted(f, text),
            Json::List(list) => {
                f.write_str("[")?;
                for (index, value) in list.iter().enumerate() {
                    write!(f, "{}{value}", comma(index))?;
                }
                f.write_str("]")
            }
            Json::Object(object) => write!(f, "{object}"),
        }
    }
}

impl fmt::Display for Object {
    fn fmt(&self, f: &mut fmt::Formatter<'_>) -> fmt::Result {
        f.write_str("{")?;
        for (index, (key, value)) in self.0.iter().enumerate() {
            f.write_str(comma(index))?;
            quoted(f, key)?;
            write!(f, ":{value}")?;
        }
        f.write_str("}")
    }
}

fn comma(index: usize) -> &'static str {
    if index == 0 {
        ""
    } else {
        ","
    }
}

/// A string with what JSON wants escaped. DEL is escaped too: it is allowed, but of no use on a terminal.
fn quoted(f: &mut fmt::Formatter<'_>, text: &str) -> fmt::Result {
    f.write_str("\"")?;
    for c in text.chars() {
        match c {
            '"' => f.write_str("\\\"")?,
            '\\' => f.write_str("\\\\")?,
            '\n' => f.write_str("\\n")?,
            '\r' => f.write_str("\\r")?,
            '\t' => f.write_str("\\t")?,
            '\0'..='\x1f' | '\x7f' => write!(f, "\\u{:04x}", u32::from(c))?,
            _ => write!(f, "{c}")?,
        }
    }
    f.write_str("\"")
}

#[cfg(test)]
mod tests {
    use super::*;

    #[test]
    fn values_are_shown() {
        let object = Object::new().with("a", 1u32).with("b", vec![true, false]).with("c", None::<u32>).with("d", Object::new());
        assert_eq!(object.to_string(), r#"{"a":1,"b":[true,false],"c":null,"d":{}}"#);
    }

    #[test]
    fn strings_are_escaped() {
        assert_eq!(Json::from("a\"\\\n\r\t\u{1}\u{7f}é").to_string(), r#""a\"\\\n\r\t\u0001\u007fé""#);
    }

    #[test]
    fn bytes_that_are_no_utf_8_are_hex() {
        assert_eq!(Object::new().with_text("text", b"x").to_string(), r#"{"text":"x"}"#);
        assert_eq!(Object::new().with_text("text", b"\xffx").to_string(), r#"{"text_hex":"ff78"}"#);
    }
}
