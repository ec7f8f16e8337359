//! A text that changes, and its positions as the protocol counts them.
//!
//! Lines end with `\n`, `\r\n` or `\r`. Columns count UTF-16 units or bytes. A position after the end of its line means the end of the line, and
//! one after the last line the end of the text.

mod cursor;
mod units;

use crate::change::Change;
pub use cursor::Cursor;
use std::cell::OnceCell;
use std::ops::Range;
use units::Units;

/// In a part of so many bytes, units are counted, so that those of the whole text need not be.
const SHORT: usize = 256;

/// What columns count.
#[derive(Clone, Copy, Debug, PartialEq, Eq)]
pub enum Encoding {
    /// Bytes.
    Utf8,
    /// UTF-16 code units.
    Utf16,
}

/// A line and a column, counted from 0.
#[derive(Clone, Copy, Debug, Default, PartialEq, Eq, PartialOrd, Ord)]
pub struct Position {
    /// The line.
    pub line: usize,
    /// The column.
    pub column: usize,
}

/// A text with the offsets where its lines start.
#[derive(Clone, Debug)]
pub struct Text {
    content: String,
    starts: Vec<usize>,
    encoding: Encoding,
    units: OnceCell<Units>,
}

// Adds the starts of the lines that come after a line end which has its last byte in a range.
fn add_starts(content: &str, range: Range<usize>, starts: &mut Vec<usize>) {
    let bytes = content.as_bytes();
    for (index, byte) in bytes[range.clone()].iter().enumerate() {
        let next = range.start + index + 1;
        let is_end = *byte == b'\n' || (*byte == b'\r' && bytes.get(next) != Some(&b'\n'));
        if is_end {
            starts.push(next);
        }
    }
}

// The largest offset up to a given one that is between two characters.
fn floor(content: &str, offset: usize) -> usize {
    let mut offset = offset.min(content.len());
    while !content.is_char_boundary(offset) {
        offset -= 1;
    }
    offset
}

impl Text {
    /// Creates a text.
    pub fn new(content: String, encoding: Encoding) -> Text {
        let mut starts = vec![0];
        add_starts(&content, 0..content.len(), &mut starts);
        Text {
            content,
            starts,
            encoding,
            units: OnceCell::new(),
        }
    }

    /// Returns the whole text.
    pub fn content(&self) -> &str {
        &self.content
    }

    /// Returns the range of a line, with its end.
    pub fn line(&self, line: usize) -> Range<usize> {
        let start = self.starts.get(line).copied().unwrap_or(self.content.len());
        let end = self.starts.get(line + 1).copied().unwrap_or(self.content.len());
        start..end
    }

    /// Returns the line of an offset.
    pub fn line_at(&self, offset: usize) -> usize {
        self.starts.partition_point(|start| *start <= offset).saturating_sub(1)
    }

    // The end of a line, without the characters that end it.
    fn line_end(&self, line: usize) -> usize {
        let range = self.line(line);
        let text = &self.content[range.clone()];
        let text = text.strip_suffix('\n').unwrap_or(text);
        range.start + text.strip_suffix('\r').unwrap_or(text).len()
    }

    /// Returns the position of an offset. An offset in a character, or after the end of the text, counts as the one before it.
    pub fn position(&self, offset: usize) -> Position {
        let offset = floor(&self.content, offset);
        let line = self.line_at(offset);
        let start = self.starts[line];
        Position {
            line,
            column: self.width(start..offset),
        }
    }

    /// Returns the offset of a position.
    pub fn offset(&self, position: Position) -> usize {
        if position.line >= self.starts.len() {
            return self.content.len();
        }
        let (start, end) = (self.starts[position.line], self.line_end(position.line));
        match self.encoding {
            Encoding::Utf8 => floor(&self.content, start.saturating_add(position.column).min(end)),
            Encoding::Utf16 => start + units::offset_of(&self.content[start..end], position.column),
        }
    }

    // Whether columns count the bytes of a part of the text.
    fn is_plain(&self, range: Range<usize>) -> bool {
        self.encoding == Encoding::Utf8 || self.content.as_bytes()[range].is_ascii()
    }

    /// Returns the width of a part of the text, as columns count it. It does not begin or end inside a character.
    pub fn width(&self, range: Range<usize>) -> usize {
        match self.encoding {
            Encoding::Utf8 => range.len(),
            Encoding::Utf16 if range.len() <= SHORT && self.units.get().is_none() => {
                units::count(&self.content.as_bytes()[range])
            }
            Encoding::Utf16 => {
                let units = self.units.get_or_init(|| Units::new(&self.content));
                units.between(self.content.as_bytes(), range.start, range.end)
            }
        }
    }

    /// Replaces the text between two positions, which may come in either order. Returns the change.
    pub fn replace(&mut self, from: Position, to: Position, new: &str) -> Change {
        let (one, other) = (self.offset(from), self.offset(to));
        let (start, end) = (one.min(other), one.max(other));
        self.content.replace_range(start..end, new);
        // A line that begins before the changed part stays, and so does one that begins after it. Those between are found again.
        let kept = self.starts.partition_point(|line| *line < start).max(1);
        let after = self.starts.partition_point(|line| *line <= end);
        let mut starts = Vec::new();
        add_starts(&self.content, start.saturating_sub(1)..start + new.len(), &mut starts);
        for line in &mut self.starts[after..] {
            *line = *line - end + start + new.len();
        }
        self.starts.splice(kept..after, starts);
        self.units = OnceCell::new();
        Change::new(start..end, new.len())
    }
}

#[cfg(test)]
mod tests {
    use super::*;
    use crate::random::Numbers;
    use rnix::{ColumnUnit, LineIndex};

    fn at(line: usize, column: usize) -> Position {
        Position { line, column }
    }

    #[test]
    fn columns_count_the_units_of_the_encoding() {
        let text = Text::new("aä😀b\nc".to_owned(), Encoding::Utf16);
        assert_eq!(text.position(7), at(0, 4));
        assert_eq!(text.offset(at(0, 4)), 7);
        assert_eq!(text.offset(at(0, 3)), 3, "in a pair of surrogates");
        let text = Text::new("aä😀b\nc".to_owned(), Encoding::Utf8);
        assert_eq!(text.position(7), at(0, 7));
        assert_eq!(text.offset(at(0, 5)), 3, "in a character");
        assert_eq!(text.offset(at(1, 0)), 9);
    }

    #[test]
    fn positions_out_of_range_mean_the_nearest_end() {
        for encoding in [Encoding::Utf8, Encoding::Utf16] {
            let text = Text::new("ab\r\ncd\re".to_owned(), encoding);
            assert_eq!(text.offset(at(0, 9)), 2);
            assert_eq!(text.offset(at(1, usize::MAX)), 6);
            assert_eq!(text.offset(at(2, 1)), 8);
            assert_eq!(text.offset(at(usize::MAX, usize::MAX)), 8);
            assert_eq!(text.position(100), at(2, 1));
        }
    }

    #[test]
    fn positions_are_those_of_line_index_where_lines_end_with_a_newline() {
        let content = "a\nä😀\n\n".repeat(700) + &"é".repeat(3000);
        let index = LineIndex::new(&content, ColumnUnit::Utf16);
        let text = Text::new(content.clone(), Encoding::Utf16);
        for offset in (0..=content.len()).filter(|offset| content.is_char_boundary(*offset)) {
            let position = index.position(offset).unwrap();
            assert_eq!(text.position(offset), at(position.line, position.column));
            assert_eq!(text.offset(text.position(offset)), offset);
        }
    }

    #[test]
    fn a_cursor_finds_the_positions_of_the_text() {
        let mut numbers = Numbers(2);
        for encoding in [Encoding::Utf8, Encoding::Utf16] {
            for most in [0, 1, 5, 40, 400] {
                let text = Text::new(numbers.text(most), encoding);
                let content = text.content();
                let offsets: Vec<usize> = (0..=content.len()).filter(|it| content.is_char_boundary(*it)).collect();
                for step in [1, 2, 9] {
                    let first = numbers.below(offsets.len());
                    let mut cursor = Cursor::new(&text, offsets[first]);
                    for offset in offsets[first..].iter().step_by(step) {
                        assert_eq!(cursor.position(*offset), text.position(*offset), "{content:?} {offset}");
                        let line = text.line(text.line_at(*offset));
                        assert_eq!(cursor.next_line(), line.end);
                        let end = content[line.clone()].trim_end_matches(['\n', '\r']).len();
                        assert_eq!(cursor.line_end(), line.start + end);
                    }
                    assert_eq!(cursor.position(offsets[first]), text.position(offsets[first]));
                }
            }
        }
    }

    #[test]
    fn a_changed_text_has_the_lines_of_a_new_one() {
        let mut numbers = Numbers(1);
        for encoding in [Encoding::Utf8, Encoding::Utf16] {
            let mut text = Text::new(numbers.text(30), encoding);
            for turn in 0..20_000 {
                let (from, to) = (
                    at(numbers.below(6), numbers.below(6)),
                    at(numbers.below(6), numbers.below(6)),
                );
                let new = numbers.text(if turn % 50 == 0 { 30 } else { 4 });
                let mut expected = text.content().to_owned();
                let (one, other) = (text.offset(from), text.offset(to));
                expected.replace_range(one.min(other)..one.max(other), &new);
                text.replace(from, to, &new);
                let whole = Text::new(expected, encoding);
                assert_eq!(text.content(), whole.content());
                assert_eq!(text.starts, whole.starts, "{:?}", text.content());
            }
        }
    }
}
