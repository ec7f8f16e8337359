//! Parts of strings.

use super::{AstToken, Interpol, InterpolPart, Str, StrContent};
use crate::syntax::ast::AstNode as _;
use crate::NodeOrToken;

impl Str {
    /// Returns an iterator over the string's parts as they are written.
    pub fn parts(&self) -> impl Iterator<Item = InterpolPart<StrContent>> {
        self.syntax().children_with_tokens().filter_map(|child| match child {
            NodeOrToken::Node(node) => Interpol::cast(node).map(InterpolPart::Interpolation),
            NodeOrToken::Token(token) => StrContent::cast(token).map(InterpolPart::Literal),
        })
    }

    /// Returns the string's parts with escapes replaced and, in a `''` string, the indentation removed. The first call for a tree reads the parts
    /// of all its strings. They are as in rnix; the value that Nix makes of a string with an escaped line feed or a carriage return may differ.
    ///
    /// # Panics
    /// If memory runs out.
    pub fn normalized_parts(&self) -> Vec<InterpolPart<String>> {
        let node = self.syntax();
        let mut interpolations = node.children().filter_map(Interpol::cast);
        let part = |part: Option<&str>| match part {
            Some(text) => Some(InterpolPart::Literal(text.to_owned())),
            None => interpolations.next().map(InterpolPart::Interpolation),
        };
        let parts = node.tree.string_parts(node.number);
        parts.into_iter().filter_map(part).collect()
    }
}
