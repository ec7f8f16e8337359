//! The text of a node.

use super::node::SyntaxNode;
use crate::tree::Tree;
use crate::{TextRange, TextSize};
use std::fmt;
use std::ops::{Bound, RangeBounds};
use std::sync::Arc;

/// The text of a node, or a slice of it.
#[derive(Clone)]
pub struct SyntaxText {
    tree: Arc<Tree>,
    number: u32,
    // The slice, relative to the node's text.
    range: TextRange,
}

impl SyntaxText {
    pub(crate) fn of(node: &SyntaxNode) -> SyntaxText {
        let range = TextRange::up_to(node.text_range().len());
        SyntaxText {
            tree: Arc::clone(&node.tree),
            number: node.number,
            range,
        }
    }

    /// Returns the text as a string slice.
    pub fn as_str(&self) -> &str {
        &self.tree.text(self.number)[self.range]
    }

    /// Returns the length in bytes.
    pub fn len(&self) -> TextSize {
        self.range.len()
    }

    /// Returns whether the text is empty.
    pub fn is_empty(&self) -> bool {
        self.range.is_empty()
    }

    /// Returns whether the text contains a character.
    pub fn contains_char(&self, c: char) -> bool {
        self.as_str().contains(c)
    }

    /// Returns the offset of the first occurrence of a character.
    pub fn find_char(&self, c: char) -> Option<TextSize> {
        let offset = self.as_str().find(c)?;
        TextSize::try_from(offset).ok()
    }

    /// Returns the character that starts at an offset, if one does.
    pub fn char_at(&self, offset: TextSize) -> Option<char> {
        self.as_str().get(offset.into()..)?.chars().next()
    }

    /// Returns a slice of the text. The range is relative to this text.
    ///
    /// # Panics
    /// If the range ends after the text, or before it starts.
    pub fn slice(&self, range: impl RangeBounds<TextSize>) -> SyntaxText {
        let one = TextSize::new(1);
        let start = match range.start_bound() {
            Bound::Included(start) => *start,
            Bound::Excluded(start) => *start + one,
            Bound::Unbounded => TextSize::new(0),
        };
        let end = match range.end_bound() {
            Bound::Included(end) => *end + one,
            Bound::Excluded(end) => *end,
            Bound::Unbounded => self.len(),
        };
        assert!(end <= self.len(), "the range ends after the text");
        let range = TextRange::new(start, end) + self.range.start();
        SyntaxText {
            tree: Arc::clone(&self.tree),
            number: self.number,
            range,
        }
    }

    /// Folds over the chunks of the text; there is exactly one.
    ///
    /// # Errors
    /// Those of the function.
    pub fn try_fold_chunks<T, F, E>(&self, init: T, mut function: F) -> Result<T, E>
    where
        F: FnMut(T, &str) -> Result<T, E>,
    {
        function(init, self.as_str())
    }

    /// Calls a function with each chunk of the text; there is exactly one.
    ///
    /// # Errors
    /// Those of the function.
    pub fn try_for_each_chunk<F, E>(&self, mut function: F) -> Result<(), E>
    where
        F: FnMut(&str) -> Result<(), E>,
    {
        function(self.as_str())
    }

    /// Calls a function with each chunk of the text; there is exactly one.
    pub fn for_each_chunk<F: FnMut(&str)>(&self, mut function: F) {
        function(self.as_str());
    }
}

impl fmt::Debug for SyntaxText {
    fn fmt(&self, f: &mut fmt::Formatter<'_>) -> fmt::Result {
        fmt::Debug::fmt(self.as_str(), f)
    }
}

impl fmt::Display for SyntaxText {
    fn fmt(&self, f: &mut fmt::Formatter<'_>) -> fmt::Result {
        fmt::Display::fmt(self.as_str(), f)
    }
}

impl From<SyntaxText> for String {
    fn from(text: SyntaxText) -> String {
        text.as_str().to_owned()
    }
}

impl PartialEq for SyntaxText {
    fn eq(&self, other: &SyntaxText) -> bool {
        self.as_str() == other.as_str()
    }
}

impl Eq for SyntaxText {}

impl PartialEq<str> for SyntaxText {
    fn eq(&self, other: &str) -> bool {
        self.as_str() == other
    }
}

impl PartialEq<&str> for SyntaxText {
    fn eq(&self, other: &&str) -> bool {
        self.as_str() == *other
    }
}

impl PartialEq<SyntaxText> for str {
    fn eq(&self, other: &SyntaxText) -> bool {
        self == other.as_str()
    }
}

impl PartialEq<SyntaxText> for &str {
    fn eq(&self, other: &SyntaxText) -> bool {
        *self == other.as_str()
    }
}
