//! Nodes or tokens.

use super::borrowed::ElementRef;
use super::node::{Ancestors, SyntaxNode};
use super::token::SyntaxToken;
use crate::tree::Tree;
use crate::{SyntaxKind, TextRange};
use std::fmt;
use std::sync::Arc;

/// A node or a token.
#[derive(Clone, Copy, Debug, PartialEq, Eq, PartialOrd, Ord, Hash)]
pub enum NodeOrToken<N, T> {
    /// A node.
    Node(N),
    /// A token.
    Token(T),
}

/// A node or a token of a tree.
pub type SyntaxElement = NodeOrToken<SyntaxNode, SyntaxToken>;

impl<N, T> NodeOrToken<N, T> {
    /// Returns the node, if it is one.
    #[inline]
    pub fn into_node(self) -> Option<N> {
        match self {
            NodeOrToken::Node(node) => Some(node),
            NodeOrToken::Token(_) => None,
        }
    }

    /// Returns the token, if it is one.
    #[inline]
    pub fn into_token(self) -> Option<T> {
        match self {
            NodeOrToken::Node(_) => None,
            NodeOrToken::Token(token) => Some(token),
        }
    }

    /// Returns a reference to the node, if it is one.
    #[inline]
    pub fn as_node(&self) -> Option<&N> {
        self.as_ref().into_node()
    }

    /// Returns a reference to the token, if it is one.
    #[inline]
    pub fn as_token(&self) -> Option<&T> {
        self.as_ref().into_token()
    }

    #[inline]
    fn as_ref(&self) -> NodeOrToken<&N, &T> {
        match self {
            NodeOrToken::Node(node) => NodeOrToken::Node(node),
            NodeOrToken::Token(token) => NodeOrToken::Token(token),
        }
    }
}

impl<N: fmt::Display, T: fmt::Display> fmt::Display for NodeOrToken<N, T> {
    fn fmt(&self, f: &mut fmt::Formatter<'_>) -> fmt::Result {
        match self {
            NodeOrToken::Node(node) => node.fmt(f),
            NodeOrToken::Token(token) => token.fmt(f),
        }
    }
}

impl SyntaxElement {
    #[inline]
    pub(crate) fn at(tree: &Arc<Tree>, number: u32) -> SyntaxElement {
        SyntaxElement::of(Arc::clone(tree), number)
    }

    #[inline]
    pub(crate) fn of(tree: Arc<Tree>, number: u32) -> SyntaxElement {
        if tree.is_token(number) {
            NodeOrToken::Token(SyntaxToken { tree, number })
        } else {
            NodeOrToken::Node(SyntaxNode { tree, number })
        }
    }

    #[inline]
    pub(crate) fn location(&self) -> (&Arc<Tree>, u32) {
        match self {
            NodeOrToken::Node(node) => (&node.tree, node.number),
            NodeOrToken::Token(token) => (&token.tree, token.number),
        }
    }

    #[inline]
    pub(crate) fn into_location(self) -> (Arc<Tree>, u32) {
        match self {
            NodeOrToken::Node(node) => (node.tree, node.number),
            NodeOrToken::Token(token) => (token.tree, token.number),
        }
    }

    /// Returns the kind.
    #[inline]
    pub fn kind(&self) -> SyntaxKind {
        let (tree, number) = self.location();
        tree.kind(number)
    }

    /// Returns the range in the text.
    #[inline]
    pub fn text_range(&self) -> TextRange {
        let (tree, number) = self.location();
        tree.range(number)
    }

    /// Returns the element as one that borrows the tree.
    #[inline]
    pub fn element_ref(&self) -> ElementRef<'_> {
        let (tree, number) = self.location();
        ElementRef::at(tree, number)
    }

    /// Returns the index among the siblings, nodes and tokens.
    pub fn index(&self) -> usize {
        let (tree, number) = self.location();
        tree.index(number)
    }

    /// Returns the parent, or `None` for the root.
    #[inline]
    pub fn parent(&self) -> Option<SyntaxNode> {
        match self {
            NodeOrToken::Node(node) => node.parent(),
            NodeOrToken::Token(token) => token.parent(),
        }
    }

    /// Returns an iterator over the node itself, if it is one, and its ancestors up to the root.
    pub fn ancestors(&self) -> Ancestors {
        match self {
            NodeOrToken::Node(node) => node.ancestors(),
            NodeOrToken::Token(token) => token.parent_ancestors(),
        }
    }

    /// Returns the first token inside a node, or the token itself.
    pub fn first_token(&self) -> Option<SyntaxToken> {
        match self {
            NodeOrToken::Node(node) => node.first_token(),
            NodeOrToken::Token(token) => Some(token.clone()),
        }
    }

    /// Returns the last token inside a node, or the token itself.
    pub fn last_token(&self) -> Option<SyntaxToken> {
        match self {
            NodeOrToken::Node(node) => node.last_token(),
            NodeOrToken::Token(token) => Some(token.clone()),
        }
    }

    /// Returns the next sibling node or token.
    #[inline]
    pub fn next_sibling_or_token(&self) -> Option<SyntaxElement> {
        let (tree, number) = self.location();
        Some(SyntaxElement::at(tree, tree.next_sibling(number)?))
    }

    /// Returns the previous sibling node or token.
    #[inline]
    pub fn prev_sibling_or_token(&self) -> Option<SyntaxElement> {
        let (tree, number) = self.location();
        Some(SyntaxElement::at(tree, tree.prev_sibling(number)?))
    }
}

impl From<SyntaxNode> for SyntaxElement {
    fn from(node: SyntaxNode) -> SyntaxElement {
        NodeOrToken::Node(node)
    }
}

impl From<SyntaxToken> for SyntaxElement {
    fn from(token: SyntaxToken) -> SyntaxElement {
        NodeOrToken::Token(token)
    }
}
