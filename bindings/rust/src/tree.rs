//! A text and the elements of its tree, which nodes and tokens share.

use crate::error::{errors_of, ParseError, Refused};
use crate::ffi::described::{analysed, Analysed};
use crate::ffi::{self, Kept, Link, Parsed, Range, NO_PARENT};
use crate::strings::Strings;
use crate::{SyntaxKind, TextRange, TextSize};
use std::sync::{Arc, OnceLock};

// What a tree was made of.
#[derive(Debug)]
enum Origin {
    // A whole text.
    Text,
    // The subtree of a node. If it has strings, their parts are those in the tree of the whole text, in which the node has this number.
    Subtree(Option<(Arc<Tree>, u32)>),
}

/// A text and its elements in preorder. An element is identified by its index; the root is 0. Walks over ranges read 8 bytes of each element, and
/// other walks 12.
#[derive(Debug)]
pub(crate) struct Tree {
    text: Box<str>,
    ranges: Box<[Range]>,
    links: Box<[Link]>,
    origin: Origin,
    // The parts of all strings, once they have been read.
    strings: OnceLock<Strings>,
}

// Initial capacity: long texts have fewer elements than two per byte.
fn initial_capacity(text: &str) -> usize {
    text.len().saturating_mul(2).saturating_add(8)
}

// Initial capacity for errors.
const ERRORS: usize = 16;

// The texts, one after the other.
fn joined(texts: &[&str]) -> Result<String, Refused> {
    let len = texts.iter().map(|text| text.len()).sum();
    let mut joined = String::new();
    joined.try_reserve_exact(len).map_err(|_| Refused::NoMemory)?;
    joined.extend(texts.iter().copied());
    Ok(joined)
}

impl Tree {
    // A text with what was parsed of it.
    fn new(text: String, parsed: Parsed) -> (Tree, Vec<ParseError>) {
        let errors = errors_of(&text, &parsed.errors);
        let tree = Tree {
            text: text.into(),
            ranges: parsed.ranges.into(),
            links: parsed.links.into(),
            origin: Origin::Text,
            strings: OnceLock::new(),
        };
        (tree, errors)
    }

    /// Parses a text.
    pub(crate) fn read(text: &str) -> Result<(Tree, Vec<ParseError>), Refused> {
        let parsed = ffi::parsed(text, (initial_capacity(text), ERRORS))?;
        Ok(Tree::new(joined(&[text])?, parsed))
    }

    // What the library wrote for the text, which has so many errors.
    fn kept(&self, error_count: usize) -> Kept<'_> {
        assert!(
            matches!(self.origin, Origin::Text),
            "a subtree has other offsets and numbers than the library wrote"
        );
        Kept {
            text: &self.text,
            ranges: &self.ranges,
            links: &self.links,
            error_count,
        }
    }

    /// Returns the encoded bindings and references of the text of this tree, which has so many errors. The tree must be that of a whole text.
    pub(crate) fn names(
        &self,
        error_count: usize,
        guesses: (usize, usize),
    ) -> Result<(Vec<ffi::Binding>, Vec<ffi::Reference>), Refused> {
        // SAFETY: `kept` returns what was kept.
        unsafe { ffi::names(self.kept(error_count), guesses) }
    }

    /// Returns the encoded names and diagnostics of the text of this tree, which has so many errors. The tree must be that of a whole text.
    pub(crate) fn analysed(&self, error_count: usize, guesses: [usize; 3]) -> Result<Analysed, Refused> {
        // SAFETY: `kept` returns what was kept.
        unsafe { analysed(self.kept(error_count), guesses) }
    }

    /// Parses the text of this tree, which has so many errors, after an edit that replaces the bytes in a range. The tree must be that of a whole text.
    ///
    /// # Panics
    /// If the range is not one of the text, or starts or ends inside a character.
    pub(crate) fn read_again(
        &self,
        error_count: usize,
        range: std::ops::Range<usize>,
        replacement: &str,
    ) -> Result<(Tree, Vec<ParseError>), Refused> {
        assert!(self.text.get(range.clone()).is_some(), "the range is one of the text");
        let text = joined(&[&self.text[..range.start], replacement, &self.text[range.end..]])?;
        let kept = self.kept(error_count);
        let guess = self.links.len().saturating_add(initial_capacity(replacement));
        // SAFETY: `kept` returns what was kept.
        let parsed = unsafe { ffi::parsed_again(kept, range, replacement, (guess, ERRORS)) }?;
        Ok(Tree::new(text, parsed))
    }

    #[inline]
    fn link(&self, number: u32) -> &Link {
        &self.links[number as usize]
    }

    /// Returns the number of elements.
    #[inline]
    pub(crate) fn count(&self) -> u32 {
        self.links.len() as u32
    }

    /// Returns whether an element is a token.
    #[inline]
    pub(crate) fn is_token(&self, number: u32) -> bool {
        self.link(number).is_token != 0
    }

    /// Returns the kind of an element.
    #[inline]
    pub(crate) fn kind(&self, number: u32) -> SyntaxKind {
        self.link(number).kind
    }

    /// Returns the range of an element.
    #[inline]
    pub(crate) fn range(&self, number: u32) -> TextRange {
        let range = &self.ranges[number as usize];
        TextRange::new(TextSize::new(range.start), TextSize::new(range.end))
    }

    /// Returns the text of an element.
    #[inline]
    pub(crate) fn text(&self, number: u32) -> &str {
        &self.text[self.range(number)]
    }

    /// Returns the parent of an element, or `None` for the root.
    #[inline]
    pub(crate) fn parent(&self, number: u32) -> Option<u32> {
        let parent = self.link(number).parent;
        (parent != NO_PARENT).then_some(parent)
    }

    /// Returns the number of the first element after the subtree of `number`.
    #[inline]
    pub(crate) fn end(&self, number: u32) -> u32 {
        number + 1 + self.link(number).inside
    }

    // The elements from a child of a node to the end of the node, without their subtrees.
    #[inline]
    fn siblings(&self, first: u32, end: u32) -> impl Iterator<Item = u32> + '_ {
        let mut next = first;
        std::iter::from_fn(move || {
            let number = (next < end).then_some(next)?;
            next = self.end(number);
            Some(number)
        })
    }

    /// Returns an iterator over the children of a node.
    #[inline]
    pub(crate) fn children(&self, number: u32) -> impl Iterator<Item = u32> + '_ {
        self.siblings(number + 1, self.end(number))
    }

    /// Returns an iterator over the siblings after an element.
    #[inline]
    pub(crate) fn next_siblings(&self, number: u32) -> impl Iterator<Item = u32> + '_ {
        let end = self.parent(number).map_or(0, |parent| self.end(parent));
        self.siblings(self.end(number), end)
    }

    /// Returns an iterator over the siblings before an element, from the nearest one.
    #[inline]
    pub(crate) fn prev_siblings(&self, number: u32) -> impl Iterator<Item = u32> + '_ {
        std::iter::successors(self.prev_sibling(number), |number| self.prev_sibling(*number))
    }

    /// Returns the index of an element among its siblings.
    pub(crate) fn index(&self, number: u32) -> usize {
        let parent = self.parent(number);
        parent.map_or(0, |parent| {
            self.children(parent).take_while(|child| *child < number).count()
        })
    }

    /// Returns whether an element is a node whose kind passes a test.
    #[inline]
    pub(crate) fn is_node_of(&self, number: u32, matcher: &impl Fn(SyntaxKind) -> bool) -> bool {
        !self.is_token(number) && matcher(self.kind(number))
    }

    /// Returns whether an element is a token whose kind passes a test.
    #[inline]
    pub(crate) fn is_token_of(&self, number: u32, matcher: &impl Fn(SyntaxKind) -> bool) -> bool {
        self.is_token(number) && matcher(self.kind(number))
    }

    /// Returns the first child of a node.
    #[inline]
    pub(crate) fn first_child(&self, number: u32) -> Option<u32> {
        (number + 1 < self.end(number)).then_some(number + 1)
    }

    /// Returns the last child of a node.
    #[inline]
    pub(crate) fn last_child(&self, number: u32) -> Option<u32> {
        self.first_child(number)?;
        Some(self.child_with(number, self.end(number) - 1))
    }

    /// Returns the next sibling of an element.
    #[inline]
    pub(crate) fn next_sibling(&self, number: u32) -> Option<u32> {
        let next = self.end(number);
        (next < self.end(self.parent(number)?)).then_some(next)
    }

    /// Returns the previous sibling of an element.
    #[inline]
    pub(crate) fn prev_sibling(&self, number: u32) -> Option<u32> {
        let parent = self.parent(number)?;
        (parent + 1 < number).then(|| self.child_with(parent, number - 1))
    }

    // The child of a node whose subtree contains a descendant of the node.
    #[inline]
    fn child_with(&self, node: u32, descendant: u32) -> u32 {
        let mut number = descendant;
        while let Some(parent) = self.parent(number).filter(|parent| *parent != node) {
            number = parent;
        }
        number
    }

    /// Returns how many elements start before an offset. They come first, since starts ascend in preorder.
    pub(crate) fn count_before(&self, offset: TextSize) -> u32 {
        self.ranges.partition_point(|range| range.start < offset.into()) as u32
    }

    /// Returns the parts of the string that has a number, where `None` stands for an interpolation. All strings of the text are read once.
    ///
    /// # Panics
    /// If memory runs out.
    pub(crate) fn string_parts(&self, number: u32) -> Vec<Option<&str>> {
        match &self.origin {
            Origin::Subtree(Some((whole, node))) => whole.string_parts(number + node),
            Origin::Subtree(None) => Vec::new(),
            Origin::Text => {
                let read = || Strings::read(&self.text).unwrap_or_else(|refused| panic!("{refused}"));
                self.strings.get_or_init(read).parts(number)
            }
        }
    }

    // How many elements start before an offset. The search begins at an element, and takes longer the further the offset is from it.
    fn count_before_from(&self, near: u32, offset: TextSize) -> u32 {
        let starts_before = |range: &Range| range.start < offset.into();
        let mut low = near as usize;
        if !starts_before(&self.ranges[low]) {
            return self.ranges[..low].partition_point(starts_before) as u32;
        }
        let mut step = 8;
        while self.ranges.get(low + step).is_some_and(starts_before) {
            low += step;
            step *= 2;
        }
        let high = self.ranges.len().min(low + step);
        (low + self.ranges[low..high].partition_point(starts_before)) as u32
    }

    /// Returns the node of a kind and a range. The search begins at an element.
    pub(crate) fn node_from(&self, near: u32, kind: SyntaxKind, range: TextRange) -> Option<u32> {
        let is_it = |number: &u32| self.kind(*number) == kind && self.range(*number) == range;
        if is_it(&near) {
            return Some(near);
        }
        let first = self.count_before_from(near, range.start());
        (first..self.count()).find(is_it)
    }

    // The tree of the whole text, and the number that a node has there; none if it is not needed, since the node has no strings.
    fn whole_with(self: &Arc<Tree>, node: u32) -> Option<(Arc<Tree>, u32)> {
        let is_string = |number: u32| self.kind(number) == SyntaxKind::NODE_STRING;
        match &self.origin {
            _ if !(node..self.end(node)).any(is_string) => None,
            Origin::Text => Some((Arc::clone(self), node)),
            Origin::Subtree(whole) => whole.as_ref().map(|(whole, base)| (Arc::clone(whole), base + node)),
        }
    }

    /// Returns the subtree of a node as a tree of its own, with offsets from 0. It keeps the tree of the whole text only if it has strings.
    pub(crate) fn subtree(self: &Arc<Tree>, node: u32) -> Tree {
        let base = self.ranges[node as usize].start;
        let numbers = node as usize..self.end(node) as usize;
        let ranges = self.ranges[numbers.clone()].iter().map(|range| Range {
            start: range.start - base,
            end: range.end - base,
        });
        let mut links: Box<[Link]> = self.links[numbers].into();
        for link in links.iter_mut() {
            link.parent = link.parent.wrapping_sub(node);
        }
        links[0].parent = NO_PARENT;
        Tree {
            text: self.text(node).into(),
            ranges: ranges.collect(),
            links,
            origin: Origin::Subtree(self.whole_with(node)),
            strings: OnceLock::new(),
        }
    }
}

#[cfg(test)]
mod tests {
    use super::*;

    #[test]
    fn a_copy_keeps_the_whole_tree_for_its_strings_alone() {
        let (tree, _) = Tree::read("[ (a) \"b\" ]").unwrap();
        let tree = Arc::new(tree);
        let parens = (0..tree.count()).find(|number| tree.kind(*number) == SyntaxKind::NODE_PAREN);
        let copy = Arc::new(tree.subtree(parens.unwrap()));
        assert_eq!((Arc::strong_count(&tree), copy.text(0)), (1, "(a)"));
        let mut list = Arc::new(tree.subtree(1));
        for _ in 0..200_000 {
            list = Arc::new(list.subtree(0));
        }
        assert_eq!((Arc::strong_count(&tree), list.text(0)), (2, "[ (a) \"b\" ]"));
    }

    #[test]
    fn a_node_is_found_from_each_element() {
        let text = "let a = { b, c ? [ 1 2 ] }@d: \"x${b}y\"; in with a; [ (a d) ''z'' 1 2 3 4 5 6 7 8 9 0 ]";
        let (tree, _) = Tree::read(text).unwrap();
        for near in 0..tree.count() {
            for number in (0..tree.count()).filter(|number| !tree.is_token(*number)) {
                let found = tree.node_from(near, tree.kind(number), tree.range(number));
                assert_eq!(found, Some(number));
            }
            for offset in 0..=text.len() as u32 + 1 {
                let offset = TextSize::new(offset);
                assert_eq!(tree.count_before_from(near, offset), tree.count_before(offset));
            }
            let end = TextSize::of(text);
            assert_eq!(
                tree.node_from(near, SyntaxKind::NODE_IDENT, TextRange::empty(end)),
                None
            );
        }
    }
}
