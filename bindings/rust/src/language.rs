//! The language of the trees, as programs that use rowan name it.

use crate::syntax::walk::{Preorder, PreorderWithTokens};
use crate::{SyntaxElement, SyntaxElementChildren, SyntaxKind, SyntaxNode, SyntaxNodeChildren, SyntaxToken};
use std::fmt;
use std::hash::Hash;

/// A kind, as its number.
#[derive(Clone, Copy, Debug, PartialEq, Eq, PartialOrd, Ord, Hash)]
pub struct RawKind(pub u16);

/// A language, with the types of its syntax trees.
pub trait Language: Sized + Copy + fmt::Debug + Eq + Ord + Hash {
    /// The kinds of tokens and nodes.
    type Kind: Sized + Copy + fmt::Debug + Eq + Ord + Hash;
    /// A node.
    type Node;
    /// A token.
    type Token;
    /// A node or a token.
    type Element;
    /// The iterator over a node's child nodes.
    type NodeChildren;
    /// The iterator over a node's child nodes and tokens.
    type ElementChildren;
    /// The walk that enters and leaves nodes.
    type Preorder;
    /// The walk that enters and leaves nodes and tokens.
    type PreorderWithTokens;

    /// Returns the kind that has a number.
    fn kind_from_raw(raw: RawKind) -> Self::Kind;

    /// Returns the number of a kind.
    fn kind_to_raw(kind: Self::Kind) -> RawKind;
}

/// The Nix language.
#[derive(Clone, Copy, Debug, PartialEq, Eq, PartialOrd, Ord, Hash)]
pub enum NixLanguage {}

impl Language for NixLanguage {
    type Kind = SyntaxKind;
    type Node = SyntaxNode;
    type Token = SyntaxToken;
    type Element = SyntaxElement;
    type NodeChildren = SyntaxNodeChildren;
    type ElementChildren = SyntaxElementChildren;
    type Preorder = Preorder;
    type PreorderWithTokens = PreorderWithTokens;

    /// Returns the kind that has a number.
    ///
    /// # Panics
    /// If no kind has the number.
    fn kind_from_raw(raw: RawKind) -> SyntaxKind {
        SyntaxKind::ALL[usize::from(raw.0)]
    }

    fn kind_to_raw(kind: SyntaxKind) -> RawKind {
        RawKind(kind as u16)
    }
}
