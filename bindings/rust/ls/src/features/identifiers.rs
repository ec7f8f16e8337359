//! How names and strings are written.

/// The words that are no names.
const KEYWORDS: &[&str] = &[
    "assert", "else", "if", "in", "inherit", "let", "or", "rec", "then", "with",
];

/// Returns whether a name needs no quotes.
pub fn is_identifier(name: &str) -> bool {
    let mut characters = name.chars();
    let first = characters.next();
    first.is_some_and(|c| c.is_ascii_alphabetic() || c == '_')
        && characters.all(|c| c.is_ascii_alphanumeric() || matches!(c, '_' | '\'' | '-'))
        && !KEYWORDS.contains(&name)
}

/// Returns a text as a part of a string in `"`.
pub fn escaped(text: &str) -> String {
    let mut made = String::with_capacity(text.len());
    for (index, character) in text.char_indices() {
        match character {
            '"' => made.push_str("\\\""),
            '\\' => made.push_str("\\\\"),
            '\n' => made.push_str("\\n"),
            '\r' => made.push_str("\\r"),
            '\t' => made.push_str("\\t"),
            '$' if text[index + 1..].starts_with('{') => made.push_str("\\$"),
            other => made.push(other),
        }
    }
    made
}

/// Returns a text as a string in `"`.
pub fn quoted(text: &str) -> String {
    format!("\"{}\"", escaped(text))
}

/// Returns the name of an attribute as it is written.
pub fn attribute(name: &str) -> String {
    if is_identifier(name) {
        name.to_owned()
    } else {
        quoted(name)
    }
}

#[cfg(test)]
mod tests {
    use super::*;

    #[test]
    fn names_that_need_quotes_get_them() {
        for name in ["a", "_", "a'b-c", "A9"] {
            assert_eq!(attribute(name), name);
        }
        for name in ["", "9a", "a b", "in", "or", "ä", "a.b", "-a"] {
            assert_eq!(attribute(name), format!("\"{name}\""));
        }
    }

    #[test]
    fn what_a_string_would_read_otherwise_is_escaped() {
        assert_eq!(quoted("a\"\\\n\t\r$ ${b}$"), "\"a\\\"\\\\\\n\\t\\r$ \\${b}$\"");
    }
}
