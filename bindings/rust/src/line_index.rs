//! Lines and columns.

/// What a column counts.
#[derive(Clone, Copy, Debug, PartialEq, Eq, Hash)]
pub enum ColumnUnit {
    /// Bytes of UTF-8.
    Bytes,
    /// Characters.
    Chars,
    /// UTF-16 code units, as the Language Server Protocol counts.
    Utf16,
}

/// A line and a column, both counted from 0.
#[derive(Clone, Copy, Debug, PartialEq, Eq, PartialOrd, Ord, Hash)]
pub struct Position {
    /// The line.
    pub line: usize,
    /// The column, in the unit of the index.
    pub column: usize,
}

/// Converts between offsets and positions in a text. Lines end with `\n`.
#[derive(Clone, Debug)]
pub struct LineIndex<'t> {
    text: &'t str,
    starts: Vec<usize>,
    unit: ColumnUnit,
}

impl<'t> LineIndex<'t> {
    /// Indexes the lines of a text. Columns count `unit`.
    pub fn new(text: &'t str, unit: ColumnUnit) -> LineIndex<'t> {
        let after_newlines = text.match_indices('\n').map(|(newline, _)| newline + 1);
        LineIndex {
            text,
            starts: std::iter::once(0).chain(after_newlines).collect(),
            unit,
        }
    }

    // The width of a character in the index's unit.
    fn width(&self, c: char) -> usize {
        match self.unit {
            ColumnUnit::Bytes => c.len_utf8(),
            ColumnUnit::Chars => 1,
            ColumnUnit::Utf16 => c.len_utf16(),
        }
    }

    /// Returns the position of a byte offset, or `None` if it is after the end of the text or inside a character.
    pub fn position(&self, offset: usize) -> Option<Position> {
        let line = self.starts.partition_point(|start| *start <= offset) - 1;
        let before = self.text.get(self.starts[line]..offset)?;
        Some(Position {
            line,
            column: before.chars().map(|c| self.width(c)).sum(),
        })
    }

    /// Returns the byte offset of a position, or `None` if it is after the end of its line or of the text, or inside a character.
    pub fn offset(&self, position: Position) -> Option<usize> {
        let start = *self.starts.get(position.line)?;
        let line = self.text[start..].split('\n').next()?;
        let mut column = 0;
        for (at, c) in line.char_indices() {
            if column >= position.column {
                return (column == position.column).then_some(start + at);
            }
            column += self.width(c);
        }
        (column == position.column).then_some(start + line.len())
    }
}
