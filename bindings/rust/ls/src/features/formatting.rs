//! Formatting in the style of Nixpkgs, or by a command that is set.
//!
//! The new text has the same tokens, except that strings in `''` may have other indentation, interpolations other white space, patterns other commas, and
//! comments other marks. So each edit replaces the white space and the comma between two neighbouring tokens, or a comment or a string as a whole: the value of
//! a string would change if only some of its lines moved.

use crate::edits::{difference, Edit};
use crate::process::filtered;
use crate::protocol::{range_of, size, Code, Failure, Outcome};
use crate::request::Request;
use rnix::formatting::{formatted, FormatError};
use rnix::{try_tokenize, Refused, SyntaxKind, TextRange};
use std::time::Duration;

/// A command that formats may take this long.
const LIMIT: Duration = Duration::from_secs(10);

/// A token other than white space and commas, or a whole string, with its place and the white space and the comma before it.
struct Piece {
    space: TextRange,
    place: TextRange,
}

// Whether tokens of a kind are white space or commas.
fn is_between(kind: SyntaxKind) -> bool {
    kind == SyntaxKind::TOKEN_WHITESPACE || kind == SyntaxKind::TOKEN_COMMA
}

// The pieces of a text. The last one is empty, and comes after the white space at the end of the text.
fn pieces(text: &str) -> Result<Vec<Piece>, Refused> {
    let mut all: Vec<Piece> = Vec::new();
    let (mut space, mut start, mut depth) = (0, 0, 0usize);
    for (kind, token) in try_tokenize(text)? {
        let end = start + token.len();
        match all.last_mut() {
            Some(string) if depth > 0 => string.place = TextRange::new(string.place.start(), size(end)),
            _ if is_between(kind) => {}
            _ => all.push(piece(space, start, end)),
        }
        if depth > 0 || !is_between(kind) {
            space = end;
        }
        match kind {
            SyntaxKind::TOKEN_STRING_START => depth += 1,
            SyntaxKind::TOKEN_STRING_END => depth = depth.saturating_sub(1),
            _ => {}
        }
        start = end;
    }
    all.push(piece(space, start, start));
    Ok(all)
}

fn piece(space: usize, start: usize, end: usize) -> Piece {
    Piece {
        space: TextRange::new(size(space), size(start)),
        place: TextRange::new(size(start), size(end)),
    }
}

// Whether a piece is a string.
fn is_string(piece: &str) -> bool {
    piece.starts_with("''") || piece.starts_with('"')
}

// Whether a piece is a comment.
fn is_comment(piece: &str) -> bool {
    piece.starts_with('#') || piece.starts_with("/*")
}

// Whether a piece may replace another one: both are strings, or both are comments.
fn may_replace(old: &str, new: &str) -> bool {
    (is_string(old) && is_string(new)) || (is_comment(old) && is_comment(new))
}

// The edits that replace the white space, the commas, the comments and the strings of one text by those of another one, if their other tokens are the same.
fn piece_edits(old: &str, new: &str) -> Result<Option<Vec<Edit>>, Refused> {
    let (olds, news) = (pieces(old)?, pieces(new)?);
    let are_same = |(old, new): (&str, &str)| old == new || may_replace(old, new);
    let texts = |(a, b): (&Piece, &Piece)| are_same((&old[a.place], &new[b.place]));
    if olds.len() != news.len() || !olds.iter().zip(&news).all(texts) {
        return Ok(None);
    }
    let both = |(a, b): (&Piece, &Piece)| [(a.space, new[b.space].to_owned()), (a.place, new[b.place].to_owned())];
    let is_change = |(place, text): &Edit| old[*place] != *text;
    Ok(Some(olds.iter().zip(&news).flat_map(both).filter(is_change).collect()))
}

// The edits that format a text: all of it, if such edits do not suffice. A text with errors has none.
fn edits(text: &str) -> Result<Vec<Edit>, Failure> {
    let fault = |refused: Refused| Failure::new(Code::InternalError, refused.to_string());
    let new = match formatted(text) {
        Ok(new) => new,
        Err(FormatError::HasErrors) => return Ok(Vec::new()),
        Err(error) => return Err(Failure::new(Code::InternalError, error.to_string())),
    };
    let found = piece_edits(text, &new).map_err(fault)?;
    Ok(found.unwrap_or_else(|| vec![(TextRange::new(size(0), size(text.len())), new)]))
}

// The edits that make a text what a command makes of it.
fn edits_by(command: &[String], text: &str) -> Result<Vec<Edit>, Failure> {
    let new = filtered(command, text, LIMIT).map_err(Failure::refused)?;
    if new.is_empty() && !text.trim().is_empty() {
        return Err(Failure::refused(format!(
            "`{}`: it has written nothing",
            command.join(" ")
        )));
    }
    Ok(difference(text, &new).into_iter().collect())
}

/// Returns the response to `textDocument/formatting`: edits of white space, commas, comments and strings. A text with errors stays as it is. A command that is
/// set formats in place of that.
///
/// # Errors
/// Memory runs out, or the command fails.
pub fn whole(request: &Request) -> Outcome {
    let (command, text) = (&request.settings.formatter, request.text().content());
    let edits = if command.is_empty() {
        edits(text)
    } else {
        edits_by(command, text)
    }?;
    Ok(request.edits(&edits))
}

/// Returns the response to `textDocument/rangeFormatting`: of the edits that format the whole text those that touch the range.
///
/// # Errors
/// Memory runs out, or the parameters name no range, or a command is set, which formats whole texts.
pub fn in_range(request: &Request) -> Outcome {
    if !request.settings.formatter.is_empty() {
        return Err(Failure::refused("the command that is set formats whole texts only"));
    }
    let place = range_of(request.text(), request.params.get("range"))?;
    let mut edits = edits(request.text().content())?;
    edits.retain(|(space, _)| space.start() <= place.end() && place.start() <= space.end());
    Ok(request.edits(&edits))
}

#[cfg(test)]
mod tests {
    use super::*;
    use rnix::Edits;

    #[test]
    fn edits_make_the_formatted_text() {
        for text in [
            "",
            "{a=1;}",
            "[ 1\n\n\n 2 ]  # end",
            "let  a=1 ;in\ta",
            "x:''\n  a\n''",
            "{a=''\nb ${ c }\nd\n'' ;}",
            "[ \"${ a }\" ./${ b }/c  ]",
            "{ a # b\n, c }: /* d */\n  a",
        ] {
            let mut changed = Edits::new(text);
            for (place, new) in edits(text).unwrap() {
                changed.replace(place, new).unwrap();
            }
            let wanted = formatted(text).unwrap_or_else(|_| text.to_owned());
            assert_eq!(changed.apply(), wanted, "{text}");
        }
    }

    #[test]
    fn only_white_space_is_edited() {
        let text = "{a=1;\n/* b */c   =[2  3];}";
        for (place, new) in edits(text).unwrap() {
            assert!(text[place].trim().is_empty() && new.trim().is_empty());
        }
    }

    #[test]
    fn a_string_is_edited_as_a_whole() {
        let text = "{\n  a = ''\n  ${b}\n  '';\n}\n";
        let wanted = (TextRange::new(size(8), size(22)), "''\n    ${b}\n  ''".to_owned());
        assert_eq!(edits(text).unwrap(), [wanted]);
    }

    #[test]
    fn a_comma_and_a_comment_are_edited_alone() {
        let text = "{\n  a,\n  b\n}:\n/* c */\na\n";
        let comma = (TextRange::new(size(10), size(11)), ",\n".to_owned());
        let comment = (TextRange::new(size(14), size(21)), "# c".to_owned());
        assert_eq!(edits(text).unwrap(), [comma, comment]);
    }

    #[test]
    fn a_text_with_errors_stays() {
        assert!(edits("{a=1").unwrap().is_empty());
    }
}
