//! Typed nodes and tokens.

mod interpol;
mod literal;
mod nodes;
mod operators;
mod paths;
mod strings;
mod support;
mod tokens;

pub use interpol::InterpolPart;
pub use literal::LiteralKind;
pub use nodes::*;
pub use operators::{BinOpKind, UnaryOpKind};
pub use tokens::{Comment, Float, Integer, PathContent, StrContent, Uri, Whitespace};

use crate::{syntax, NixLanguage, SyntaxKind, SyntaxToken};

/// A typed node of a Nix tree. Its methods are those of [`syntax::ast::AstNode`].
pub trait AstNode: syntax::ast::AstNode<Language = NixLanguage> {}

impl<T: syntax::ast::AstNode<Language = NixLanguage>> AstNode for T {}

/// A typed token.
pub trait AstToken {
    /// Returns whether a token of this kind has the type.
    fn can_cast(from: SyntaxKind) -> bool
    where
        Self: Sized;

    /// Returns the token as a typed one, or `None` if its kind is another.
    fn cast(from: SyntaxToken) -> Option<Self>
    where
        Self: Sized;

    /// Returns the untyped token.
    fn syntax(&self) -> &SyntaxToken;
}
