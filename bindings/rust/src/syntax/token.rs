//! Tokens.

use super::borrowed::ElementRef;
use super::children::Siblings;
use super::element::SyntaxElement;
use super::node::{Ancestors, SyntaxNode};
use super::walk::Direction;
use crate::tree::Tree;
use crate::{SyntaxKind, TextRange};
use std::fmt;
use std::hash::{Hash, Hasher};
use std::sync::Arc;

/// A token of a tree, which it keeps alive. Cloning it only counts a reference; two tokens are equal if they are the same token of the same tree.
#[derive(Clone)]
pub struct SyntaxToken {
    pub(crate) tree: Arc<Tree>,
    pub(crate) number: u32,
}

impl SyntaxToken {
    #[inline]
    pub(crate) fn at(tree: &Arc<Tree>, number: u32) -> SyntaxToken {
        SyntaxToken {
            tree: Arc::clone(tree),
            number,
        }
    }

    #[inline]
    fn element_at(&self, number: u32) -> SyntaxElement {
        SyntaxElement::at(&self.tree, number)
    }

    /// Returns the token's kind.
    #[inline]
    pub fn kind(&self) -> SyntaxKind {
        self.tree.kind(self.number)
    }

    /// Returns the token's range in the text.
    #[inline]
    pub fn text_range(&self) -> TextRange {
        self.tree.range(self.number)
    }

    /// Returns the token's index among its siblings, nodes included.
    pub fn index(&self) -> usize {
        self.tree.index(self.number)
    }

    /// Returns the token's text.
    #[inline]
    pub fn text(&self) -> &str {
        self.tree.text(self.number)
    }

    /// Returns the token as an element that borrows the tree.
    #[inline]
    pub fn element_ref(&self) -> ElementRef<'_> {
        ElementRef::at(&self.tree, self.number)
    }

    /// Returns the parent, which every token has.
    #[inline]
    pub fn parent(&self) -> Option<SyntaxNode> {
        Some(SyntaxNode::at(&self.tree, self.tree.parent(self.number)?))
    }

    /// Returns an iterator over the token's ancestors, up to the root.
    pub fn parent_ancestors(&self) -> Ancestors {
        Ancestors { next: self.parent() }
    }

    /// Returns the next sibling node or token.
    #[inline]
    pub fn next_sibling_or_token(&self) -> Option<SyntaxElement> {
        Some(self.element_at(self.tree.next_sibling(self.number)?))
    }

    /// Returns the previous sibling node or token.
    #[inline]
    pub fn prev_sibling_or_token(&self) -> Option<SyntaxElement> {
        Some(self.element_at(self.tree.prev_sibling(self.number)?))
    }

    /// Returns an iterator over the token, then its sibling nodes and tokens in one direction.
    pub fn siblings_with_tokens(&self, direction: Direction) -> Siblings {
        Siblings::from(self.clone().into(), direction)
    }

    /// Returns the next token in the text.
    #[inline]
    pub fn next_token(&self) -> Option<SyntaxToken> {
        let mut following = self.number + 1..self.tree.count();
        let number = following.find(|number| self.tree.is_token(*number))?;
        Some(SyntaxToken::at(&self.tree, number))
    }

    /// Returns the previous token in the text.
    #[inline]
    pub fn prev_token(&self) -> Option<SyntaxToken> {
        let mut preceding = (0..self.number).rev();
        let number = preceding.find(|number| self.tree.is_token(*number))?;
        Some(SyntaxToken::at(&self.tree, number))
    }
}

impl PartialEq for SyntaxToken {
    fn eq(&self, other: &SyntaxToken) -> bool {
        self.number == other.number && Arc::ptr_eq(&self.tree, &other.tree)
    }
}

impl Eq for SyntaxToken {}

impl Hash for SyntaxToken {
    fn hash<H: Hasher>(&self, state: &mut H) {
        Arc::as_ptr(&self.tree).hash(state);
        self.number.hash(state);
    }
}

impl fmt::Display for SyntaxToken {
    fn fmt(&self, f: &mut fmt::Formatter<'_>) -> fmt::Result {
        f.write_str(self.text())
    }
}

/// Prints `KIND@start..end "text"`, with only the beginning of a long text.
impl fmt::Debug for SyntaxToken {
    fn fmt(&self, f: &mut fmt::Formatter<'_>) -> fmt::Result {
        fmt::Debug::fmt(&self.element_ref(), f)
    }
}
