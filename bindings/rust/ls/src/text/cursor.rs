//! Positions of many offsets, found in one pass.

use super::{Position, Text};

/// Finds the positions of offsets. If these do not descend, that takes one pass over the text from the first of them on.
pub struct Cursor<'t> {
    text: &'t Text,
    line: usize,
    // Where the line ends, with and without the characters that end it.
    next_line: usize,
    line_end: usize,
    // Whether columns of the line count its bytes.
    is_plain: bool,
    // An offset in the line, and its column.
    offset: usize,
    column: usize,
}

impl<'t> Cursor<'t> {
    /// Begins with the line of an offset.
    pub fn new(text: &'t Text, offset: usize) -> Cursor<'t> {
        let mut cursor = Cursor {
            text,
            line: 0,
            next_line: 0,
            line_end: 0,
            is_plain: true,
            offset: 0,
            column: 0,
        };
        cursor.enter(text.line_at(offset));
        cursor
    }

    fn enter(&mut self, line: usize) {
        let range = self.text.line(line);
        self.line = line;
        self.next_line = range.end;
        self.line_end = self.text.line_end(line);
        self.is_plain = self.text.is_plain(range.clone());
        (self.offset, self.column) = (range.start, 0);
    }

    /// Returns the position of an offset, which is not inside a character.
    pub fn position(&mut self, offset: usize) -> Position {
        if offset < self.offset {
            self.enter(self.text.line_at(offset));
        }
        while offset >= self.next_line && self.line + 1 < self.text.starts.len() {
            self.enter(self.line + 1);
        }
        self.column += if self.is_plain {
            offset - self.offset
        } else {
            self.text.width(self.offset..offset)
        };
        self.offset = offset;
        Position {
            line: self.line,
            column: self.column,
        }
    }

    /// Returns the end of the line of the last offset, without the characters that end it.
    pub fn line_end(&self) -> usize {
        self.line_end
    }

    /// Returns where the line after the last offset begins, or the end of the text.
    pub fn next_line(&self) -> usize {
        self.next_line
    }
}
