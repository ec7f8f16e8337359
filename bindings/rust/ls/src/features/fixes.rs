//! What quick fixes for syntax errors and lints write, and their titles.

use crate::analysis::Analysis;
use crate::edits::Edit;
use rnix::diagnostics::{fix, Diagnostic};

/// A title shows texts that are longer than this many characters without their middle.
const MOST_SHOWN: usize = 40;

/// A quick fix: its title, and its edits.
#[derive(Debug, PartialEq, Eq)]
pub struct Fix {
    /// The title.
    pub title: String,
    /// Its edits.
    pub edits: Vec<Edit>,
}

// Whether all characters of a text are white space or invisible.
fn is_invisible(text: &str) -> bool {
    let is_sign = |sign| matches!(sign, '\u{ad}' | '\u{200b}'..='\u{200f}' | '\u{2060}' | '\u{feff}');
    text.chars().all(|sign| sign.is_whitespace() || is_sign(sign))
}

/// Returns a text in one line, without its middle if it is long.
pub fn shortened(text: &str) -> String {
    let line = text.split_whitespace().collect::<Vec<_>>().join(" ");
    let count = line.chars().count();
    if count <= MOST_SHOWN {
        return line;
    }
    let (start, end) = (
        line.chars().take(MOST_SHOWN / 2),
        line.chars().skip(count - MOST_SHOWN / 2),
    );
    start.chain(" \u{2026} ".chars()).chain(end).collect()
}

// A text as a title names it.
fn named(text: &str) -> String {
    match text {
        " " => "a space".to_owned(),
        _ if is_invisible(text) => "an invisible character".to_owned(),
        _ => format!("`{}`", shortened(text)),
    }
}

fn title(old: &str, new: &str) -> String {
    match (old, new) {
        ("", new) => format!("Insert {}", named(new)),
        (old, "") => format!("Remove {}", named(old)),
        (old, new) => format!("Replace {} by {}", named(old), named(new)),
    }
}

/// Returns the quick fix for the syntax error of a number, if there is one. It takes the time of a few parses.
pub fn correction(analysis: &Analysis, text: &str, number: usize) -> Option<Fix> {
    let found = fix(&analysis.parse, number)?;
    Some(Fix {
        title: title(&text[found.range], &found.text),
        edits: vec![(found.range, found.text)],
    })
}

/// Returns the quick fix that a note on the finding of a lint proposes.
pub fn proposal(found: &Diagnostic, text: &str) -> Option<Fix> {
    let proposed = found.notes.iter().find_map(|note| note.replacement.as_ref())?;
    Some(Fix {
        title: title(&text[proposed.range], &proposed.text),
        edits: vec![(proposed.range, proposed.text.clone())],
    })
}

#[cfg(test)]
mod tests {
    use super::*;
    use crate::edits::applied;

    // The title of the fix of the first error, and the text after it.
    fn fixed(text: &str) -> Option<(String, String)> {
        let found = correction(&Analysis::new(text).unwrap(), text, 0)?;
        Some((found.title, applied(text, &found.edits).unwrap()))
    }

    #[test]
    fn titles_say_what_is_written() {
        for (text, title, made) in [
            ("{ a = 1 }", "Insert `;`", "{ a = 1; }"),
            ("{ a = 1;\n", "Insert `}`", "{ a = 1;\n}\n"),
            ("[ 1, 2 ]", "Remove `,`", "[ 1 2 ]"),
            ("[ a,b ]", "Replace `,` by a space", "[ a b ]"),
            ("[ a\u{200b}b ]", "Remove an invisible character", "[ ab ]"),
            (
                "if a = b then c else d",
                "Replace `=` by `==`",
                "if a == b then c else d",
            ),
            ("{ a: 1; }", "Replace `:` by `=`", "{ a = 1; }"),
        ] {
            assert_eq!(fixed(text), Some((title.to_owned(), made.to_owned())));
        }
        assert_eq!(fixed("{ a = ; }"), None);
    }

    #[test]
    fn titles_leave_out_the_middle_of_long_texts() {
        assert_eq!(title(&"a".repeat(40), ""), format!("Remove `{}`", "a".repeat(40)));
        let long = format!("{}\n \u{e4}{}", "a".repeat(30), "b".repeat(30));
        let (start, end) = ("a".repeat(20), "b".repeat(20));
        assert_eq!(title("", &long), format!("Insert `{start} \u{2026} {end}`"));
    }
}
