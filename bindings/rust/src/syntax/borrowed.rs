//! Nodes and tokens that borrow their tree.

use super::element::SyntaxElement;
use super::node::SyntaxNode;
use super::token::SyntaxToken;
use crate::syntax::ast::AstNode;
use crate::tree::Tree;
use crate::{NixLanguage, SyntaxKind, TextRange};
use std::fmt;
use std::hash::{Hash, Hasher};
use std::iter::FusedIterator;
use std::ops::Range;
use std::sync::Arc;

/// `{:?}` shows the text of a token whole if it has fewer bytes than this.
const SHOWN_WHOLE: usize = 25;

/// How many bytes of a longer text `{:?}` shows, or a few more so as not to split a character.
const SHOWN_BEGINNING: usize = 21;

/// A node or token that borrows its tree. It is `Copy` and counts no reference, so a walk over borrowed elements takes a small part of the time of
/// one over owned elements. Two are equal if they are the same element of the same tree.
///
/// ```
/// use rnix::ast::Ident;
///
/// let root = rnix::Root::parse("let a = 1; in [ a b ]").syntax();
/// let tokens = root.elements().filter(|element| element.is_token());
/// assert_eq!(tokens.map(|token| token.text()).collect::<String>(), root.to_string());
/// // Only the identifiers are cloned.
/// let names: Vec<Ident> = root.elements().filter_map(|element| element.cast()).collect();
/// assert_eq!(names.len(), 3);
/// ```
#[derive(Clone, Copy)]
pub struct ElementRef<'t> {
    tree: &'t Arc<Tree>,
    number: u32,
}

impl<'t> ElementRef<'t> {
    #[inline]
    pub(crate) fn at(tree: &'t Arc<Tree>, number: u32) -> ElementRef<'t> {
        ElementRef { tree, number }
    }

    /// Returns the kind.
    #[inline]
    pub fn kind(self) -> SyntaxKind {
        self.tree.kind(self.number)
    }

    /// Returns whether the element is a token.
    #[inline]
    pub fn is_token(self) -> bool {
        self.tree.is_token(self.number)
    }

    /// Returns the range in the text.
    #[inline]
    pub fn text_range(self) -> TextRange {
        self.tree.range(self.number)
    }

    /// Returns the text.
    #[inline]
    pub fn text(self) -> &'t str {
        self.tree.text(self.number)
    }

    /// Returns the index among the siblings, nodes and tokens.
    pub fn index(self) -> usize {
        self.tree.index(self.number)
    }

    /// Returns the parent, or `None` for the root.
    #[inline]
    pub fn parent(self) -> Option<ElementRef<'t>> {
        Some(ElementRef::at(self.tree, self.tree.parent(self.number)?))
    }

    /// Returns an iterator over the element and its ancestors, up to the root.
    #[inline]
    pub fn ancestors(self) -> impl Iterator<Item = ElementRef<'t>> {
        std::iter::successors(Some(self), |element| element.parent())
    }

    /// Returns an iterator over the child nodes and tokens. A token has none.
    #[inline]
    pub fn children(self) -> impl Iterator<Item = ElementRef<'t>> {
        let children = self.tree.children(self.number);
        children.map(move |number| ElementRef::at(self.tree, number))
    }

    /// Returns an iterator over the nodes and tokens of the subtree in preorder, from the element itself.
    #[inline]
    pub fn elements(self) -> Elements<'t> {
        Elements {
            tree: self.tree,
            numbers: self.number..self.tree.end(self.number),
        }
    }

    /// Returns the element as an owned one.
    #[inline]
    pub fn to_element(self) -> SyntaxElement {
        SyntaxElement::at(self.tree, self.number)
    }

    /// Returns the owned node, if the element is a node.
    #[inline]
    pub fn to_node(self) -> Option<SyntaxNode> {
        (!self.is_token()).then(|| SyntaxNode::at(self.tree, self.number))
    }

    /// Returns the owned token, if the element is a token.
    #[inline]
    pub fn to_token(self) -> Option<SyntaxToken> {
        self.is_token().then(|| SyntaxToken::at(self.tree, self.number))
    }

    /// Returns the element as a typed node, which is owned, or `None` if the element is a token or of another kind.
    #[inline]
    pub fn cast<N: AstNode<Language = NixLanguage>>(self) -> Option<N> {
        let is_of_type = self.tree.is_node_of(self.number, &N::can_cast);
        is_of_type
            .then(|| N::cast(SyntaxNode::at(self.tree, self.number)))
            .flatten()
    }
}

impl PartialEq for ElementRef<'_> {
    fn eq(&self, other: &ElementRef<'_>) -> bool {
        self.number == other.number && Arc::ptr_eq(self.tree, other.tree)
    }
}

impl Eq for ElementRef<'_> {}

impl Hash for ElementRef<'_> {
    fn hash<H: Hasher>(&self, state: &mut H) {
        Arc::as_ptr(self.tree).hash(state);
        self.number.hash(state);
    }
}

impl fmt::Display for ElementRef<'_> {
    fn fmt(&self, f: &mut fmt::Formatter<'_>) -> fmt::Result {
        f.write_str(self.text())
    }
}

/// Prints `KIND@start..end`, and for a token also its text, with only the beginning of a long one.
impl fmt::Debug for ElementRef<'_> {
    fn fmt(&self, f: &mut fmt::Formatter<'_>) -> fmt::Result {
        write!(f, "{:?}@{:?}", self.kind(), self.text_range())?;
        if !self.is_token() {
            return Ok(());
        }
        let text = self.text();
        if text.len() < SHOWN_WHOLE {
            return write!(f, " {text:?}");
        }
        let end = (SHOWN_BEGINNING..SHOWN_WHOLE).find(|end| text.is_char_boundary(*end));
        write!(f, " {:?}", format!("{} ...", &text[..end.unwrap_or(0)]))
    }
}

/// The nodes and tokens of a subtree in preorder, borrowed.
#[derive(Clone)]
pub struct Elements<'t> {
    tree: &'t Arc<Tree>,
    numbers: Range<u32>,
}

impl<'t> Iterator for Elements<'t> {
    type Item = ElementRef<'t>;

    #[inline]
    fn next(&mut self) -> Option<ElementRef<'t>> {
        Some(ElementRef::at(self.tree, self.numbers.next()?))
    }

    #[inline]
    fn nth(&mut self, n: usize) -> Option<ElementRef<'t>> {
        Some(ElementRef::at(self.tree, self.numbers.nth(n)?))
    }

    #[inline]
    fn size_hint(&self) -> (usize, Option<usize>) {
        self.numbers.size_hint()
    }
}

impl DoubleEndedIterator for Elements<'_> {
    #[inline]
    fn next_back(&mut self) -> Option<Self::Item> {
        Some(ElementRef::at(self.tree, self.numbers.next_back()?))
    }
}

impl ExactSizeIterator for Elements<'_> {}

impl FusedIterator for Elements<'_> {}

impl fmt::Debug for Elements<'_> {
    fn fmt(&self, f: &mut fmt::Formatter<'_>) -> fmt::Result {
        f.debug_list().entries(self.clone()).finish()
    }
}
