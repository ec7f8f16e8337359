//! JSON values: a reader that refuses what is not JSON, and a writer.

mod reader;
mod writer;

use crate::text::Position;
pub use reader::JsonError;
use reader::Reader;
use std::borrow::Cow;

/// The integers up to which `f64` is exact.
const MOST_EXACT: f64 = 9_007_199_254_740_992.0;

/// A JSON value.
#[derive(Clone, Debug, PartialEq)]
pub enum Value {
    /// `null`.
    Null,
    /// `true` or `false`.
    Bool(bool),
    /// A number.
    Number(f64),
    /// A string.
    String(String),
    /// An array.
    Array(Vec<Value>),
    /// An object, with its members in order.
    Object(Vec<(Cow<'static, str>, Value)>),
    /// An array of small numbers. Only the writer knows it.
    Numbers(Vec<u32>),
    /// A range from a position to another, as the protocol writes it. Only the writer knows it.
    Range(Position, Position),
}

/// Creates an object.
pub fn object<const N: usize>(members: [(&'static str, Value); N]) -> Value {
    let members = members.into_iter();
    Value::Object(members.map(|(name, value)| (Cow::Borrowed(name), value)).collect())
}

/// Creates an object without the members that are `None`.
pub fn object_of<const N: usize>(members: [(&'static str, Option<Value>); N]) -> Value {
    let members = members.into_iter();
    Value::Object(
        members
            .filter_map(|(name, value)| Some((Cow::Borrowed(name), value?)))
            .collect(),
    )
}

/// Creates an array.
pub fn array(items: impl IntoIterator<Item = Value>) -> Value {
    Value::Array(items.into_iter().collect())
}

impl From<bool> for Value {
    fn from(value: bool) -> Value {
        Value::Bool(value)
    }
}

impl From<i64> for Value {
    fn from(value: i64) -> Value {
        Value::Number(value as f64)
    }
}

impl From<usize> for Value {
    fn from(value: usize) -> Value {
        Value::Number(value as f64)
    }
}

impl From<&str> for Value {
    fn from(value: &str) -> Value {
        Value::String(value.to_owned())
    }
}

impl From<String> for Value {
    fn from(value: String) -> Value {
        Value::String(value)
    }
}

impl Value {
    /// Returns the member of an object, or `None` if this is no object or has no such member.
    pub fn get(&self, name: &str) -> Option<&Value> {
        match self {
            Value::Object(members) => members.iter().find(|(other, _)| other == name).map(|(_, value)| value),
            _ => None,
        }
    }

    /// Returns the value that a path of member names leads to.
    pub fn at(&self, path: &[&str]) -> Option<&Value> {
        path.iter().try_fold(self, |value, name| value.get(name))
    }

    /// Returns the string.
    pub fn as_str(&self) -> Option<&str> {
        match self {
            Value::String(text) => Some(text),
            _ => None,
        }
    }

    /// Returns the items of the array.
    pub fn as_array(&self) -> Option<&[Value]> {
        match self {
            Value::Array(items) => Some(items),
            _ => None,
        }
    }

    /// Returns the number if it is an integer from 0 to 2^53.
    pub fn as_count(&self) -> Option<usize> {
        match self {
            Value::Number(number) if number.fract() == 0.0 && (0.0..=MOST_EXACT).contains(number) => {
                Some(*number as usize)
            }
            _ => None,
        }
    }

    /// Returns whether this is `true`.
    pub fn is_true(&self) -> bool {
        *self == Value::Bool(true)
    }

    /// Reads a text that is one JSON value.
    ///
    /// # Errors
    /// The text is not JSON, or nested too deeply.
    pub fn read(text: &str) -> Result<Value, JsonError> {
        Reader::new(text).whole()
    }

    /// Returns the value as JSON.
    pub fn written(&self) -> String {
        let mut out = String::new();
        writer::write(self, &mut out);
        out
    }
}

#[cfg(test)]
mod tests {
    use super::*;

    fn is_refused(text: &str) -> bool {
        Value::read(text).is_err()
    }

    #[test]
    fn values_are_read_and_written() {
        for text in [
            "null",
            "true",
            "[]",
            "{}",
            "[1,-2,3.5]",
            "{\"a\":[{\"b\":\"c\"}],\"d\":false}",
            "\"\\\"\\\\\\n\\u0001\"",
        ] {
            assert_eq!(Value::read(text).unwrap().written(), text);
        }
        assert_eq!(Value::read(" { \"a\" : 1e2 } ").unwrap().written(), "{\"a\":100}");
        assert_eq!(
            Value::Numbers(vec![0, 9, 10, 4_294_967_295]).written(),
            "[0,9,10,4294967295]"
        );
        assert_eq!(Value::from(usize::MAX >> 11).written(), "9007199254740991");
        let range = Value::Range(Position { line: 0, column: 12 }, Position { line: 34, column: 5 });
        let wanted = "{\"start\":{\"line\":0,\"character\":12},\"end\":{\"line\":34,\"character\":5}}";
        assert_eq!(range.written(), wanted);
        assert_eq!(Value::read(wanted).unwrap().written(), wanted);
    }

    #[test]
    fn escapes_become_their_characters() {
        let read = |text: &str| Value::read(text).unwrap().as_str().unwrap().to_owned();
        assert_eq!(read(r#""\u00e4\/\b\f\r\t""#), "ä/\u{8}\u{c}\r\t");
        assert_eq!(read(r#""\ud83d\ude00""#), "😀");
        assert_eq!(read(r#""\ud83d\u0041\ude00\ud83dx""#), "\u{fffd}A\u{fffd}\u{fffd}x");
    }

    #[test]
    fn what_is_not_json_is_refused() {
        for text in [
            "",
            "nul",
            "tru",
            "[1,]",
            "[1 2]",
            "{\"a\"}",
            "{a:1}",
            "{\"a\":1,}",
            "\"",
            "\"\\x\"",
            "\"\\u12\"",
            "\"\n\"",
            "01",
            "1.",
            ".5",
            "1e",
            "-",
            "1 1",
            "[",
            "{",
            "{\"a\":",
            "]",
            "\u{feff}1",
        ] {
            assert!(is_refused(text), "{text}");
        }
    }

    #[test]
    fn deep_nesting_is_refused_and_does_not_overflow() {
        assert!(is_refused(&"[".repeat(1_000_000)));
        assert!(is_refused(&"{\"a\":".repeat(1_000_000)));
        let fits = format!("{}{}", "[".repeat(200), "]".repeat(200));
        assert!(!is_refused(&fits));
    }

    #[test]
    fn counts_are_whole_and_not_negative() {
        let count = |text: &str| Value::read(text).unwrap().as_count();
        assert_eq!(count("7"), Some(7));
        assert_eq!(count("-1"), None);
        assert_eq!(count("1.5"), None);
        assert_eq!(count("1e300"), None);
        assert_eq!(count("\"7\""), None);
    }
}
