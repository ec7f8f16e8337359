//! Edits of a text.

use std::fmt;
use std::ops::Range;

/// Why an edit is refused.
#[derive(Clone, Copy, Debug, PartialEq, Eq)]
#[non_exhaustive]
pub enum EditError {
    /// The range ends before it starts, or after the end of the text.
    OutOfRange,
    /// The range starts or ends inside a character.
    InsideChar,
    /// The range overlaps that of another edit, or one of them is inside the other.
    Overlap,
}

impl fmt::Display for EditError {
    fn fmt(&self, f: &mut fmt::Formatter<'_>) -> fmt::Result {
        f.write_str(match self {
            EditError::OutOfRange => "the range is not in the text",
            EditError::InsideChar => "the range starts or ends inside a character",
            EditError::Overlap => "the range overlaps that of another edit",
        })
    }
}

impl std::error::Error for EditError {}

/// Edits of a text: disjoint byte ranges, each with its replacement.
#[derive(Clone, Debug)]
pub struct Edits<'t> {
    text: &'t str,
    edits: Vec<(Range<usize>, String)>,
}

impl<'t> Edits<'t> {
    /// Creates an empty set of edits of `text`.
    pub fn new(text: &'t str) -> Edits<'t> {
        Edits {
            text,
            edits: Vec::new(),
        }
    }

    /// Replaces a range of the text, in bytes; a node is replaced by its `text_range()`. Edits may be added in any order. Insertions at the same
    /// offset are applied in the order in which they were added.
    ///
    /// # Errors
    /// The range is not one of the text, splits a character, or overlaps another edit's. The edits are then unchanged.
    pub fn replace(&mut self, range: impl Into<Range<usize>>, new: impl Into<String>) -> Result<(), EditError> {
        let range = range.into();
        if range.start > range.end || range.end > self.text.len() {
            return Err(EditError::OutOfRange);
        }
        if self.text.get(range.clone()).is_none() {
            return Err(EditError::InsideChar);
        }
        let at = self
            .edits
            .partition_point(|(other, _)| (other.start, other.end) <= (range.start, range.end));
        let before = at.checked_sub(1).map(|index| &self.edits[index].0);
        let after = self.edits.get(at).map(|(other, _)| other);
        let overlaps =
            before.is_some_and(|other| other.end > range.start) || after.is_some_and(|other| range.end > other.start);
        if overlaps {
            return Err(EditError::Overlap);
        }
        self.edits.insert(at, (range, new.into()));
        Ok(())
    }

    /// Returns the edited text. Every byte outside the replaced ranges stays as it was.
    pub fn apply(&self) -> String {
        let mut edited = String::with_capacity(self.text.len());
        let mut kept = 0;
        for (range, new) in &self.edits {
            edited.push_str(&self.text[kept..range.start]);
            edited.push_str(new);
            kept = range.end;
        }
        edited.push_str(&self.text[kept..]);
        edited
    }
}
