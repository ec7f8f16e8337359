//! The result of parsing.

use crate::ast::{AstNode, Root};
use crate::error::{ParseError, Refused};
use crate::syntax::node::SyntaxNode;
use crate::tree::Tree;
use std::marker::PhantomData;
use std::ops::Range;
use std::sync::Arc;

/// The tree of a text, and its errors.
#[derive(Clone, Debug)]
pub struct Parse<T> {
    tree: Arc<Tree>,
    errors: Arc<[ParseError]>,
    of: PhantomData<fn() -> T>,
}

impl Root {
    /// Parses a text. Every text has a tree, even one with errors.
    ///
    /// # Panics
    /// If memory runs out, if the text has 2^32 bytes or more, or if `librnix.a` has another version than this crate expects.
    pub fn parse(text: &str) -> Parse<Root> {
        Root::try_parse(text).unwrap_or_else(|refused| panic!("{refused}"))
    }

    /// Parses a text.
    ///
    /// # Errors
    /// Memory runs out for the tree, or the text has 2^32 bytes or more. If memory runs out for the list of errors, the program aborts.
    ///
    /// # Panics
    /// If `librnix.a` has another version than this crate expects.
    pub fn try_parse(text: &str) -> Result<Parse<Root>, Refused> {
        Tree::read(text).map(Parse::new)
    }
}

impl<T> Parse<T> {
    fn new((tree, errors): (Tree, Vec<ParseError>)) -> Parse<T> {
        Parse {
            tree: Arc::new(tree),
            errors: errors.into(),
            of: PhantomData,
        }
    }
}

impl Parse<Root> {
    /// Parses the text after an edit that replaces the bytes in `range`. The result is that of [`Root::parse`] for the new text. If this text has no
    /// errors and the edit is between brackets, often only these are parsed, which takes a fraction of the time. This parse stays as it is.
    ///
    /// ```
    /// let parse = rnix::Root::parse("{ a = [ 1 2 ]; }");
    /// let edited = parse.reparse(8..9, "[ ]");
    /// assert_eq!(edited.syntax().to_string(), "{ a = [ [ ] 2 ]; }");
    /// assert!(edited.errors().is_empty());
    /// ```
    ///
    /// # Panics
    /// If the range is not one of the text, or starts or ends inside a character; if memory runs out, or if the new text has 2^32 bytes or more.
    pub fn reparse(&self, range: impl Into<Range<usize>>, replacement: &str) -> Parse<Root> {
        let parse = self.try_reparse(range, replacement);
        parse.unwrap_or_else(|refused| panic!("{refused}"))
    }

    /// Parses the text after an edit, like [`reparse`](Parse::reparse).
    ///
    /// # Errors
    /// Memory runs out for the tree, or the new text has 2^32 bytes or more. If memory runs out for the list of errors, the program aborts.
    ///
    /// # Panics
    /// If the range is not one of the text, or starts or ends inside a character.
    pub fn try_reparse(&self, range: impl Into<Range<usize>>, replacement: &str) -> Result<Parse<Root>, Refused> {
        let read = self.tree.read_again(self.errors.len(), range.into(), replacement);
        read.map(Parse::new)
    }
}

impl<T> Parse<T> {
    /// Returns the root node.
    pub fn syntax(&self) -> SyntaxNode {
        SyntaxNode::at(&self.tree, 0)
    }
}

impl<T: AstNode> Parse<T> {
    /// Returns the typed root node.
    pub fn tree(&self) -> T {
        T::cast(self.syntax()).expect("the root is of this type")
    }

    /// Returns the errors, in the order in which they were found.
    pub fn errors(&self) -> &[ParseError] {
        &self.errors
    }

    /// Returns the typed root node if there are no errors.
    ///
    /// # Errors
    /// The first error.
    pub fn ok(self) -> Result<T, ParseError> {
        match self.errors.first() {
            Some(error) => Err(error.clone()),
            None => Ok(self.tree()),
        }
    }
}
