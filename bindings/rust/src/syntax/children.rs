//! Children and siblings.

use super::element::SyntaxElement;
use super::node::SyntaxNode;
use super::walk::Direction;
use crate::tree::Tree;
use crate::SyntaxKind;
use std::fmt;
use std::iter::FusedIterator;
use std::sync::Arc;

/// The child nodes and tokens of a node, in order.
#[derive(Clone)]
pub struct SyntaxElementChildren {
    tree: Arc<Tree>,
    next: u32,
    end: u32,
}

impl SyntaxElementChildren {
    #[inline]
    pub(crate) fn of(node: &SyntaxNode) -> SyntaxElementChildren {
        SyntaxElementChildren {
            tree: Arc::clone(&node.tree),
            next: node.number + 1,
            end: node.tree.end(node.number),
        }
    }

    /// Returns an iterator over the nodes and tokens among these whose kind passes a test. The others are not cloned.
    pub fn by_kind(mut self, matcher: impl Fn(SyntaxKind) -> bool) -> impl Iterator<Item = SyntaxElement> {
        std::iter::from_fn(move || {
            let number = self.find_number(|tree, number| matcher(tree.kind(number)))?;
            Some(SyntaxElement::at(&self.tree, number))
        })
    }

    // The number of the next child that passes a test.
    #[inline]
    fn find_number(&mut self, is_wanted: impl Fn(&Tree, u32) -> bool) -> Option<u32> {
        while self.next < self.end {
            let number = self.next;
            self.next = self.tree.end(number);
            if is_wanted(&self.tree, number) {
                return Some(number);
            }
        }
        None
    }
}

impl Iterator for SyntaxElementChildren {
    type Item = SyntaxElement;

    #[inline]
    fn next(&mut self) -> Option<SyntaxElement> {
        let number = self.find_number(|_, _| true)?;
        Some(SyntaxElement::at(&self.tree, number))
    }
}

impl FusedIterator for SyntaxElementChildren {}

impl fmt::Debug for SyntaxElementChildren {
    fn fmt(&self, f: &mut fmt::Formatter<'_>) -> fmt::Result {
        f.debug_list().entries(self.clone()).finish()
    }
}

/// The child nodes of a node, in order.
#[derive(Clone)]
pub struct SyntaxNodeChildren {
    elements: SyntaxElementChildren,
}

impl SyntaxNodeChildren {
    #[inline]
    pub(crate) fn of(node: &SyntaxNode) -> SyntaxNodeChildren {
        SyntaxNodeChildren {
            elements: SyntaxElementChildren::of(node),
        }
    }

    // The next node whose kind passes a test.
    #[inline]
    pub(crate) fn next_of(&mut self, matcher: &impl Fn(SyntaxKind) -> bool) -> Option<SyntaxNode> {
        let number = self
            .elements
            .find_number(|tree, number| tree.is_node_of(number, matcher))?;
        Some(SyntaxNode::at(&self.elements.tree, number))
    }

    /// Returns an iterator over the nodes among these whose kind passes a test. The others are not cloned.
    pub fn by_kind(mut self, matcher: impl Fn(SyntaxKind) -> bool) -> impl Iterator<Item = SyntaxNode> {
        std::iter::from_fn(move || self.next_of(&matcher))
    }
}

impl Iterator for SyntaxNodeChildren {
    type Item = SyntaxNode;

    #[inline]
    fn next(&mut self) -> Option<SyntaxNode> {
        self.next_of(&|_| true)
    }
}

impl FusedIterator for SyntaxNodeChildren {}

impl fmt::Debug for SyntaxNodeChildren {
    fn fmt(&self, f: &mut fmt::Formatter<'_>) -> fmt::Result {
        f.debug_list().entries(self.clone()).finish()
    }
}

/// A node or token, then its siblings in one direction.
#[derive(Clone, Debug)]
pub struct Siblings {
    next: Option<SyntaxElement>,
    direction: Direction,
}

impl Siblings {
    #[inline]
    pub(crate) fn from(first: SyntaxElement, direction: Direction) -> Siblings {
        Siblings {
            next: Some(first),
            direction,
        }
    }
}

impl Iterator for Siblings {
    type Item = SyntaxElement;

    #[inline]
    fn next(&mut self) -> Option<SyntaxElement> {
        let element = self.next.take()?;
        self.next = match self.direction {
            Direction::Next => element.next_sibling_or_token(),
            Direction::Prev => element.prev_sibling_or_token(),
        };
        Some(element)
    }
}

impl FusedIterator for Siblings {}
