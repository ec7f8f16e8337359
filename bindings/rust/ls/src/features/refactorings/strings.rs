//! Strings in `"` and in `''`.

use super::Selection;
use crate::features::fixes::Fix;
use crate::features::identifiers::escaped;
use rnix::ast::{InterpolPart, Str};
use rnix::syntax::ast::AstNode as _;
use rnix::{Parse, Root, SyntaxKind, TextRange, TextSize};

/// A part of a string: a text, or an interpolation as it is written.
type Part = Result<String, String>;

fn parts_of(string: &Str) -> Vec<Part> {
    let parts = string.normalized_parts().into_iter();
    let part = |part| match part {
        InterpolPart::Literal(text) => Ok(text),
        InterpolPart::Interpolation(node) => Err(node.to_string()),
    };
    parts.map(part).collect()
}

// Writes the parts of a string, each text by a function. A dollar sign before an interpolation is written with an escape.
fn joined(parts: &[Part], write: impl Fn(&str) -> String, dollar: &str) -> String {
    let mut made = String::new();
    for (index, part) in parts.iter().enumerate() {
        match (part, parts.get(index + 1)) {
            (Ok(text), Some(Err(_))) if text.ends_with('$') => {
                made.push_str(&write(&text[..text.len() - 1]));
                made.push_str(dollar);
            }
            (Ok(text), _) => made.push_str(&write(text)),
            (Err(written), _) => made.push_str(written),
        }
    }
    made
}

fn in_quotes(parts: &[Part]) -> String {
    format!("\"{}\"", joined(parts, escaped, "\\$"))
}

// A text as a part of a string in `''`, where each new line begins with some white space unless it is empty.
fn escaped_lines(text: &str, indentation: &str) -> String {
    let mut made = String::with_capacity(text.len());
    let text = text.replace("''", "'''").replace("${", "''${").replace('\t', "''\\t");
    let mut lines = text.split('\n');
    made.push_str(lines.next().unwrap_or_default());
    let count = lines.clone().count();
    for (index, line) in lines.enumerate() {
        made.push('\n');
        if !line.is_empty() || index + 1 == count {
            made.push_str(indentation);
        }
        made.push_str(line);
    }
    made
}

// A string in `''` in one line, or with its line ends as they are.
fn in_one_line(parts: &[Part]) -> String {
    let text = joined(parts, |text| escaped_lines(text, ""), "''$");
    match text.strip_suffix('\'') {
        Some(start) if parts.last().is_some_and(Result::is_ok) => format!("''{start}''\\'''"),
        _ => format!("''{text}''"),
    }
}

// A string in `''` with a line for each of its lines, which are indented.
fn in_lines(parts: &[Part], indentation: &str) -> String {
    let inner = format!("{indentation}  ");
    let text = joined(parts, |text| escaped_lines(text, &inner), "''$");
    let text = match text.strip_suffix(inner.as_str()) {
        Some(start) if start.ends_with('\n') => format!("{start}{indentation}"),
        _ => text,
    };
    format!("''\n{inner}{text}''")
}

// The string that begins at an offset of a text.
fn string_at(parse: &Parse<Root>, offset: TextSize) -> Option<Str> {
    let token = parse.syntax().token_at_offset(offset).right_biased()?;
    Str::cast(token.parent()?).filter(|string| string.syntax().text_range().start() == offset)
}

// The action that writes a string in another way, if its parts stay.
fn replaced(selection: &Selection, string: &Str, new: String, title: &str) -> Option<Fix> {
    let range: TextRange = string.syntax().text_range();
    let edits = vec![(range, new)];
    let edited = selection.edited(&edits).filter(|edited| edited.keeps_meaning())?;
    let is_same = string_at(&edited.parse, range.start()).is_some_and(|other| parts_of(&other) == parts_of(string));
    is_same.then(|| Fix {
        title: title.to_owned(),
        edits,
    })
}

/// Returns the action that writes a string in `"` as one in `''`, or the other way round. Strings with carriage returns stay.
pub fn rewritten(selection: &Selection) -> Option<Fix> {
    let string = Str::cast(selection.node(SyntaxKind::NODE_STRING)?)?;
    let around = string.syntax().parent()?.kind();
    let (range, parts) = (string.syntax().text_range(), parts_of(&string));
    let written = selection.part(range);
    let is_name = matches!(around, SyntaxKind::NODE_ATTRPATH | SyntaxKind::NODE_INHERIT);
    let has_return = |part: &Part| part.as_ref().is_ok_and(|text| text.contains('\r'));
    if is_name || written.contains("\\\n") || parts.iter().any(has_return) {
        return None;
    }
    if written.starts_with("''") {
        return replaced(selection, &string, in_quotes(&parts), "Write the string in `\"`");
    }
    let title = "Write the string in `''`";
    let has_lines = parts
        .iter()
        .any(|part| part.as_ref().is_ok_and(|text| text.contains('\n')));
    let lines = || in_lines(&parts, selection.indentation(range.start().into()));
    let in_lines = has_lines
        .then(lines)
        .and_then(|new| replaced(selection, &string, new, title));
    in_lines.or_else(|| replaced(selection, &string, in_one_line(&parts), title))
}

#[cfg(test)]
mod tests {
    use super::super::tests::{after, titled};
    use super::rewritten;

    #[test]
    fn a_string_gets_other_quotes() {
        let text = |marked| after(rewritten, marked).unwrap();
        assert_eq!(text("|\"a \\\"b\\\" \\${c} ${d}\""), "''a \"b\" ''${c} ${d}''");
        assert_eq!(text("|''a \"b\" ''${c} ${d}''"), "\"a \\\"b\\\" \\${c} ${d}\"");
        assert_eq!(text("[ |\"\" ]"), "[ '''' ]");
        assert_eq!(text("[ |'''' ]"), "[ \"\" ]");
        assert_eq!(text("|\"it''s '\""), "''it'''s ''\\'''");
        assert_eq!(text("|\"a\\\\b$\\${c}\""), "''a\\b$''${c}''");
        assert_eq!(titled(rewritten, "|\"\"").unwrap().0, "Write the string in `''`");
        assert_eq!(titled(rewritten, "|''a''").unwrap().0, "Write the string in `\"`");
    }

    #[test]
    fn lines_are_lines_in_the_new_string() {
        let text = |marked| after(rewritten, marked).unwrap();
        assert_eq!(
            text("{\n  a = |\"b\\n  c\\n\\nd\\n\";\n}"),
            "{\n  a = ''\n    b\n      c\n\n    d\n  '';\n}"
        );
        assert_eq!(text("{\n  a = |\"b\\nc\";\n}"), "{\n  a = ''\n    b\n    c'';\n}");
        assert_eq!(
            text("{\n  a = |''\n    b\n      ${c}\n  '';\n}"),
            "{\n  a = \"b\\n  ${c}\\n\";\n}"
        );
        // All lines begin with a space, which is not indentation: the first line follows the quotes.
        assert_eq!(after(rewritten, "|\" a\\n b\""), None);
    }

    #[test]
    fn names_and_other_line_ends_stay() {
        for marked in [
            "{ |\"a b\" = 1; }",
            "a.|\"b\"",
            "{ inherit |\"a\"; }",
            "|\"a\\r\\n\"",
            "|1",
        ] {
            assert_eq!(after(rewritten, marked), None, "{marked}");
        }
    }
}
