//! The tokens at an offset.

use super::node::SyntaxNode;
use super::token::SyntaxToken;
use crate::TextSize;

/// The token that contains an offset, or the two tokens that meet there.
#[derive(Clone, Debug, PartialEq, Eq, Hash)]
pub enum TokenAtOffset<T> {
    /// No token: the node has no text.
    None,
    /// The token that contains the offset, or that starts or ends the node at the offset.
    Single(T),
    /// The two tokens that meet at the offset.
    Between(T, T),
}

impl<T> TokenAtOffset<T> {
    /// Applies a function to each token.
    pub fn map<U>(self, function: impl Fn(T) -> U) -> TokenAtOffset<U> {
        match self {
            TokenAtOffset::None => TokenAtOffset::None,
            TokenAtOffset::Single(token) => TokenAtOffset::Single(function(token)),
            TokenAtOffset::Between(left, right) => TokenAtOffset::Between(function(left), function(right)),
        }
    }

    /// Returns the token, or the right one of two.
    pub fn right_biased(self) -> Option<T> {
        match self {
            TokenAtOffset::None => None,
            TokenAtOffset::Single(token) | TokenAtOffset::Between(_, token) => Some(token),
        }
    }

    /// Returns the token, or the left one of two.
    pub fn left_biased(self) -> Option<T> {
        match self {
            TokenAtOffset::None => None,
            TokenAtOffset::Single(token) | TokenAtOffset::Between(token, _) => Some(token),
        }
    }
}

impl<T> Iterator for TokenAtOffset<T> {
    type Item = T;

    fn next(&mut self) -> Option<T> {
        match std::mem::replace(self, TokenAtOffset::None) {
            TokenAtOffset::None => None,
            TokenAtOffset::Single(token) => Some(token),
            TokenAtOffset::Between(left, right) => {
                *self = TokenAtOffset::Single(right);
                Some(left)
            }
        }
    }

    fn size_hint(&self) -> (usize, Option<usize>) {
        let count = match self {
            TokenAtOffset::None => 0,
            TokenAtOffset::Single(_) => 1,
            TokenAtOffset::Between(_, _) => 2,
        };
        (count, Some(count))
    }
}

impl<T> ExactSizeIterator for TokenAtOffset<T> {}

impl TokenAtOffset<SyntaxToken> {
    pub(crate) fn of(node: &SyntaxNode, offset: TextSize) -> TokenAtOffset<SyntaxToken> {
        let range = node.text_range();
        assert!(
            range.contains_inclusive(offset),
            "the offset {offset:?} is not inside {node:?}"
        );
        let left = (range.start() < offset).then(|| token_containing(node, offset - TextSize::new(1)));
        let right = (offset < range.end()).then(|| token_containing(node, offset));
        match (left, right) {
            (None, None) => TokenAtOffset::None,
            (Some(token), None) | (None, Some(token)) => TokenAtOffset::Single(token),
            (Some(left), Some(right)) if left == right => TokenAtOffset::Single(left),
            (Some(left), Some(right)) => TokenAtOffset::Between(left, right),
        }
    }
}

// The token that contains the byte at an offset: the last one that starts there or before and is not empty.
fn token_containing(node: &SyntaxNode, offset: TextSize) -> SyntaxToken {
    let tree = &node.tree;
    let mut candidates = (0..tree.count_before(offset + TextSize::new(1))).rev();
    let found = candidates.find(|number| tree.is_token(*number) && tree.range(*number).contains(offset));
    SyntaxToken::at(tree, found.expect("each byte of a text is in a token"))
}
