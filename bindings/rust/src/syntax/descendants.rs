//! The nodes and tokens of a subtree.

use super::element::SyntaxElement;
use super::node::SyntaxNode;
use crate::tree::Tree;
use crate::SyntaxKind;
use std::fmt;
use std::iter::FusedIterator;
use std::ops::Range;
use std::sync::Arc;

/// The nodes and tokens of a subtree in preorder.
#[derive(Clone)]
pub struct DescendantsWithTokens {
    tree: Arc<Tree>,
    numbers: Range<u32>,
}

impl DescendantsWithTokens {
    #[inline]
    pub(crate) fn of(node: &SyntaxNode) -> DescendantsWithTokens {
        DescendantsWithTokens {
            tree: Arc::clone(&node.tree),
            numbers: node.number..node.tree.end(node.number),
        }
    }

    /// Returns an iterator over the nodes and tokens among these whose kind passes a test. The others are not cloned.
    pub fn by_kind(mut self, matcher: impl Fn(SyntaxKind) -> bool) -> impl Iterator<Item = SyntaxElement> {
        std::iter::from_fn(move || {
            let number = self.numbers.find(|number| matcher(self.tree.kind(*number)))?;
            Some(SyntaxElement::at(&self.tree, number))
        })
    }
}

impl Iterator for DescendantsWithTokens {
    type Item = SyntaxElement;

    #[inline]
    fn next(&mut self) -> Option<SyntaxElement> {
        Some(SyntaxElement::at(&self.tree, self.numbers.next()?))
    }

    #[inline]
    fn size_hint(&self) -> (usize, Option<usize>) {
        self.numbers.size_hint()
    }
}

impl ExactSizeIterator for DescendantsWithTokens {}

impl FusedIterator for DescendantsWithTokens {}

impl fmt::Debug for DescendantsWithTokens {
    fn fmt(&self, f: &mut fmt::Formatter<'_>) -> fmt::Result {
        f.debug_list().entries(self.clone()).finish()
    }
}

/// The nodes of a subtree in preorder.
#[derive(Clone)]
pub struct Descendants {
    elements: DescendantsWithTokens,
}

impl Descendants {
    #[inline]
    pub(crate) fn of(node: &SyntaxNode) -> Descendants {
        Descendants {
            elements: DescendantsWithTokens::of(node),
        }
    }

    // The next node whose kind passes a test.
    #[inline]
    fn next_of(&mut self, matcher: &impl Fn(SyntaxKind) -> bool) -> Option<SyntaxNode> {
        let DescendantsWithTokens { tree, numbers } = &mut self.elements;
        let number = numbers.find(|number| tree.is_node_of(*number, matcher))?;
        Some(SyntaxNode::at(tree, number))
    }

    /// Returns an iterator over the nodes among these whose kind passes a test. The others are not cloned.
    ///
    /// ```
    /// use rnix::{ast::Ident, syntax::ast::AstNode};
    ///
    /// let root = rnix::Root::parse("{ a = [ b ]; }").syntax();
    /// let names: Vec<Ident> = root.descendants().by_kind(Ident::can_cast).filter_map(Ident::cast).collect();
    /// assert_eq!(names.len(), 2);
    /// ```
    pub fn by_kind(mut self, matcher: impl Fn(SyntaxKind) -> bool) -> impl Iterator<Item = SyntaxNode> {
        std::iter::from_fn(move || self.next_of(&matcher))
    }
}

impl Iterator for Descendants {
    type Item = SyntaxNode;

    #[inline]
    fn next(&mut self) -> Option<SyntaxNode> {
        self.next_of(&|_| true)
    }
}

impl FusedIterator for Descendants {}

impl fmt::Debug for Descendants {
    fn fmt(&self, f: &mut fmt::Formatter<'_>) -> fmt::Result {
        f.debug_list().entries(self.clone()).finish()
    }
}
