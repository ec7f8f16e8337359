//! Nodes.

use super::borrowed::{ElementRef, Elements};
use super::children::{Siblings, SyntaxElementChildren, SyntaxNodeChildren};
use super::descendants::{Descendants, DescendantsWithTokens};
use super::element::{NodeOrToken, SyntaxElement};
use super::offset::TokenAtOffset;
use super::text::SyntaxText;
use super::token::SyntaxToken;
use super::walk::{Direction, Preorder, PreorderRef, PreorderWithTokens, WalkEvent};
use crate::tree::Tree;
use crate::{SyntaxKind, TextRange, TextSize};
use std::fmt;
use std::hash::{Hash, Hasher};
use std::iter::FusedIterator;
use std::sync::Arc;

/// A node of a tree, which it keeps alive. Cloning it only counts a reference; two nodes are equal if they are the same node of the same tree.
#[derive(Clone)]
pub struct SyntaxNode {
    pub(crate) tree: Arc<Tree>,
    pub(crate) number: u32,
}

impl SyntaxNode {
    #[inline]
    pub(crate) fn at(tree: &Arc<Tree>, number: u32) -> SyntaxNode {
        SyntaxNode {
            tree: Arc::clone(tree),
            number,
        }
    }

    #[inline]
    fn element_at(&self, number: u32) -> SyntaxElement {
        SyntaxElement::at(&self.tree, number)
    }

    // The first node among some elements of the tree.
    #[inline]
    fn first_node_in(&self, numbers: &mut impl Iterator<Item = u32>) -> Option<SyntaxNode> {
        let number = numbers.find(|number| !self.tree.is_token(*number))?;
        Some(SyntaxNode::at(&self.tree, number))
    }

    // The first child of an element whose range contains a range.
    fn child_around(&self, number: u32, range: TextRange) -> Option<u32> {
        let mut children = self.tree.children(number);
        children.find(|child| self.tree.range(*child).contains_range(range))
    }

    /// Returns the node's kind.
    #[inline]
    pub fn kind(&self) -> SyntaxKind {
        self.tree.kind(self.number)
    }

    /// Returns the node's range in the text.
    #[inline]
    pub fn text_range(&self) -> TextRange {
        self.tree.range(self.number)
    }

    /// Returns the node's index among its siblings, tokens included.
    pub fn index(&self) -> usize {
        self.tree.index(self.number)
    }

    /// Returns the node's text.
    pub fn text(&self) -> SyntaxText {
        SyntaxText::of(self)
    }

    /// Returns the parent, or `None` for the root.
    #[inline]
    pub fn parent(&self) -> Option<SyntaxNode> {
        Some(SyntaxNode::at(&self.tree, self.tree.parent(self.number)?))
    }

    /// Returns an iterator over the node and its ancestors, up to the root.
    pub fn ancestors(&self) -> Ancestors {
        Ancestors {
            next: Some(self.clone()),
        }
    }

    /// Returns an iterator over the child nodes.
    #[inline]
    pub fn children(&self) -> SyntaxNodeChildren {
        SyntaxNodeChildren::of(self)
    }

    /// Returns an iterator over the child nodes and tokens.
    #[inline]
    pub fn children_with_tokens(&self) -> SyntaxElementChildren {
        SyntaxElementChildren::of(self)
    }

    /// Returns the first child node.
    #[inline]
    pub fn first_child(&self) -> Option<SyntaxNode> {
        self.children().next()
    }

    /// Returns the first child node whose kind passes a test.
    pub fn first_child_by_kind(&self, matcher: &impl Fn(SyntaxKind) -> bool) -> Option<SyntaxNode> {
        let mut children = self.tree.children(self.number);
        let number = children.find(|number| self.tree.is_node_of(*number, matcher))?;
        Some(SyntaxNode::at(&self.tree, number))
    }

    /// Returns the last child node.
    pub fn last_child(&self) -> Option<SyntaxNode> {
        let last = self.tree.last_child(self.number)?;
        let mut from_last = std::iter::once(last).chain(self.tree.prev_siblings(last));
        self.first_node_in(&mut from_last)
    }

    /// Returns the first child node or token.
    #[inline]
    pub fn first_child_or_token(&self) -> Option<SyntaxElement> {
        Some(self.element_at(self.tree.first_child(self.number)?))
    }

    /// Returns the first child node or token whose kind passes a test.
    pub fn first_child_or_token_by_kind(&self, matcher: &impl Fn(SyntaxKind) -> bool) -> Option<SyntaxElement> {
        let mut children = self.tree.children(self.number);
        let number = children.find(|number| matcher(self.tree.kind(*number)))?;
        Some(self.element_at(number))
    }

    /// Returns the last child node or token.
    pub fn last_child_or_token(&self) -> Option<SyntaxElement> {
        Some(self.element_at(self.tree.last_child(self.number)?))
    }

    /// Returns the next sibling node.
    pub fn next_sibling(&self) -> Option<SyntaxNode> {
        self.first_node_in(&mut self.tree.next_siblings(self.number))
    }

    /// Returns the next sibling node whose kind passes a test.
    pub fn next_sibling_by_kind(&self, matcher: &impl Fn(SyntaxKind) -> bool) -> Option<SyntaxNode> {
        let mut following = self.tree.next_siblings(self.number);
        let number = following.find(|number| self.tree.is_node_of(*number, matcher))?;
        Some(SyntaxNode::at(&self.tree, number))
    }

    /// Returns the previous sibling node.
    pub fn prev_sibling(&self) -> Option<SyntaxNode> {
        self.first_node_in(&mut self.tree.prev_siblings(self.number))
    }

    /// Returns the next sibling node or token.
    #[inline]
    pub fn next_sibling_or_token(&self) -> Option<SyntaxElement> {
        Some(self.element_at(self.tree.next_sibling(self.number)?))
    }

    /// Returns the next sibling node or token whose kind passes a test.
    pub fn next_sibling_or_token_by_kind(&self, matcher: &impl Fn(SyntaxKind) -> bool) -> Option<SyntaxElement> {
        let mut following = self.tree.next_siblings(self.number);
        let number = following.find(|number| matcher(self.tree.kind(*number)))?;
        Some(self.element_at(number))
    }

    /// Returns the previous sibling node or token.
    #[inline]
    pub fn prev_sibling_or_token(&self) -> Option<SyntaxElement> {
        Some(self.element_at(self.tree.prev_sibling(self.number)?))
    }

    /// Returns the first token of the subtree.
    pub fn first_token(&self) -> Option<SyntaxToken> {
        let mut inside = self.number..self.tree.end(self.number);
        let number = inside.find(|number| self.tree.is_token(*number))?;
        Some(SyntaxToken::at(&self.tree, number))
    }

    /// Returns the last token of the subtree.
    pub fn last_token(&self) -> Option<SyntaxToken> {
        let mut inside = (self.number..self.tree.end(self.number)).rev();
        let number = inside.find(|number| self.tree.is_token(*number))?;
        Some(SyntaxToken::at(&self.tree, number))
    }

    /// Returns an iterator over the node, then its sibling nodes in one direction.
    pub fn siblings(&self, direction: Direction) -> impl Iterator<Item = SyntaxNode> {
        self.siblings_with_tokens(direction).filter_map(NodeOrToken::into_node)
    }

    /// Returns an iterator over the node, then its sibling nodes and tokens in one direction.
    pub fn siblings_with_tokens(&self, direction: Direction) -> Siblings {
        Siblings::from(self.clone().into(), direction)
    }

    /// Returns an iterator over the nodes of the subtree in preorder, from the node itself.
    #[inline]
    pub fn descendants(&self) -> Descendants {
        Descendants::of(self)
    }

    /// Returns an iterator over the nodes and tokens of the subtree in preorder, from the node itself.
    #[inline]
    pub fn descendants_with_tokens(&self) -> DescendantsWithTokens {
        DescendantsWithTokens::of(self)
    }

    /// Returns the node as an element that borrows the tree.
    #[inline]
    pub fn element_ref(&self) -> ElementRef<'_> {
        ElementRef::at(&self.tree, self.number)
    }

    /// Returns an iterator over the nodes and tokens of the subtree in preorder, from the node itself. They borrow the tree, so no references are
    /// counted: this takes a small part of the time of `descendants_with_tokens`.
    #[inline]
    pub fn elements(&self) -> Elements<'_> {
        self.element_ref().elements()
    }

    /// Returns a walk that enters and leaves each node and token of the subtree. They borrow the tree, as those of `elements` do.
    #[inline]
    pub fn preorder_ref(&self) -> PreorderRef<'_> {
        PreorderRef::of(self)
    }

    /// Calls a function with each node and token of the subtree in preorder, from the node itself. The elements are lent, so no references are
    /// counted, as in a loop over `elements`.
    #[inline]
    pub fn for_each_element(&self, mut visit: impl FnMut(&SyntaxElement)) {
        let end = self.tree.end(self.number);
        let mut element = SyntaxElement::Node(self.clone());
        loop {
            visit(&element);
            let (tree, number) = element.into_location();
            if number + 1 == end {
                return;
            }
            element = SyntaxElement::of(tree, number + 1);
        }
    }

    /// Returns a walk that enters and leaves each node of the subtree.
    #[inline]
    pub fn preorder(&self) -> Preorder {
        Preorder::of(self)
    }

    /// Returns a walk that enters and leaves each node and token of the subtree.
    #[inline]
    pub fn preorder_with_tokens(&self) -> PreorderWithTokens {
        PreorderWithTokens::of(self)
    }

    /// Returns the token that contains an offset, or the two tokens that meet there.
    ///
    /// # Panics
    /// If the offset is outside the node's range.
    pub fn token_at_offset(&self, offset: TextSize) -> TokenAtOffset<SyntaxToken> {
        TokenAtOffset::of(self, offset)
    }

    /// Returns the innermost node or token whose range contains `range`.
    ///
    /// # Panics
    /// If the node's range does not contain `range`.
    pub fn covering_element(&self, range: TextRange) -> SyntaxElement {
        assert!(
            self.text_range().contains_range(range),
            "the range {range:?} is not inside {self:?}"
        );
        let inwards = |number: &u32| self.child_around(*number, range);
        let innermost = std::iter::successors(Some(self.number), inwards).last();
        self.element_at(innermost.unwrap_or(self.number))
    }

    /// Returns the first child node or token whose range contains `range`.
    pub fn child_or_token_at_range(&self, range: TextRange) -> Option<SyntaxElement> {
        Some(self.element_at(self.child_around(self.number, range)?))
    }

    /// Returns a copy of the subtree as a tree of its own, whose root is the copy of the node. Its offsets start at 0.
    pub fn clone_subtree(&self) -> SyntaxNode {
        SyntaxNode::at(&Arc::new(self.tree.subtree(self.number)), 0)
    }

    /// Returns false: trees are immutable.
    pub fn is_mutable(&self) -> bool {
        false
    }
}

impl PartialEq for SyntaxNode {
    fn eq(&self, other: &SyntaxNode) -> bool {
        self.number == other.number && Arc::ptr_eq(&self.tree, &other.tree)
    }
}

impl Eq for SyntaxNode {}

impl Hash for SyntaxNode {
    fn hash<H: Hasher>(&self, state: &mut H) {
        Arc::as_ptr(&self.tree).hash(state);
        self.number.hash(state);
    }
}

impl fmt::Display for SyntaxNode {
    fn fmt(&self, f: &mut fmt::Formatter<'_>) -> fmt::Result {
        f.write_str(self.tree.text(self.number))
    }
}

/// Prints `KIND@start..end`. With `{:#?}`, prints a line for each node and token of the subtree, indented by two spaces per level.
impl fmt::Debug for SyntaxNode {
    fn fmt(&self, f: &mut fmt::Formatter<'_>) -> fmt::Result {
        if !f.alternate() {
            return fmt::Debug::fmt(&self.element_ref(), f);
        }
        let mut depth = 0;
        for event in self.preorder_ref() {
            let WalkEvent::Enter(element) = event else {
                depth -= 1;
                continue;
            };
            writeln!(f, "{:width$}{element:?}", "", width = 2 * depth)?;
            depth += 1;
        }
        Ok(())
    }
}

/// A node, then its ancestors up to the root.
#[derive(Clone, Debug)]
pub struct Ancestors {
    pub(crate) next: Option<SyntaxNode>,
}

impl Iterator for Ancestors {
    type Item = SyntaxNode;

    #[inline]
    fn next(&mut self) -> Option<SyntaxNode> {
        let node = self.next.take()?;
        self.next = node.parent();
        Some(node)
    }
}

impl FusedIterator for Ancestors {}
