//! Functions and macros that the typed nodes are made of.

use super::{AstNode, AstToken, Float, Integer, Literal, LiteralKind, Uri};
use crate::syntax::ast::{support, AstChildren};
use crate::{ElementRef, SyntaxKind, SyntaxToken};

// The first child token of a kind.
pub(super) fn token(node: &impl AstNode, kind: SyntaxKind) -> Option<SyntaxToken> {
    support::token(node.syntax(), kind)
}

// The child tokens of a node, borrowed.
fn tokens(node: &impl AstNode) -> impl Iterator<Item = ElementRef<'_>> {
    node.syntax().element_ref().children().filter(|child| child.is_token())
}

// The first child token of a type.
pub(super) fn token_of_type<T: AstToken>(node: &impl AstNode) -> Option<T> {
    let mut tokens = tokens(node).filter(|token| T::can_cast(token.kind()));
    tokens.find_map(|token| T::cast(token.to_token()?))
}

// The operator that the first operator token stands for.
pub(super) fn operator<K>(node: &impl AstNode, from_kind: impl Fn(SyntaxKind) -> Option<K>) -> Option<K> {
    tokens(node).find_map(|token| from_kind(token.kind()))
}

// The kind of a literal.
pub(super) fn literal(node: &Literal) -> LiteralKind {
    let float = || token_of_type::<Float>(node).map(LiteralKind::Float);
    let integer = || token_of_type::<Integer>(node).map(LiteralKind::Integer);
    let uri = || token_of_type::<Uri>(node).map(LiteralKind::Uri);
    let found = float().or_else(integer).or_else(uri);
    found.expect("a literal has a number or a URI")
}

// The child of a type that has an index among those of the type.
pub(super) fn nth<N: AstNode>(node: &impl AstNode, index: usize) -> Option<N> {
    let nodes = node.syntax().element_ref().children();
    let is_of_type = |child: &ElementRef<'_>| !child.is_token() && N::can_cast(child.kind());
    nodes.filter(is_of_type).nth(index)?.cast()
}

// The children of a type.
pub(super) fn children<N: AstNode>(node: &impl AstNode) -> AstChildren<N> {
    AstChildren::of(node.syntax())
}

// Defines the type of the nodes of one kind.
macro_rules! node {
    ($(#[$meta:meta])* $name:ident = $kind:ident) => {
        $(#[$meta])*
        #[derive(Clone, Debug, PartialEq, Eq, Hash)]
        pub struct $name(crate::SyntaxNode);

        impl $name {
            /// The kind of these nodes.
            pub const KIND: crate::SyntaxKind = crate::SyntaxKind::$kind;
        }

        impl crate::syntax::ast::AstNode for $name {
            type Language = crate::NixLanguage;

            fn can_cast(kind: crate::SyntaxKind) -> bool {
                kind == Self::KIND
            }

            fn cast(node: crate::SyntaxNode) -> Option<Self> {
                (node.kind() == Self::KIND).then_some($name(node))
            }

            fn syntax(&self) -> &crate::SyntaxNode {
                &self.0
            }
        }

        impl std::fmt::Display for $name {
            fn fmt(&self, f: &mut std::fmt::Formatter<'_>) -> std::fmt::Result {
                std::fmt::Display::fmt(&self.0, f)
            }
        }
    };
}

// Defines the enum of several types of nodes.
macro_rules! sum {
    ($(#[$meta:meta])* $name:ident = $($member:ident)|+) => {
        $(#[$meta])*
        #[allow(missing_docs)]
        #[derive(Clone, Debug, PartialEq, Eq, Hash)]
        pub enum $name {
            $($member($member),)+
        }

        impl crate::syntax::ast::AstNode for $name {
            type Language = crate::NixLanguage;

            fn can_cast(kind: crate::SyntaxKind) -> bool {
                matches!(kind, $($member::KIND)|+)
            }

            fn cast(node: crate::SyntaxNode) -> Option<Self> {
                match node.kind() {
                    $($member::KIND => Some($name::$member($member(node))),)+
                    _ => None,
                }
            }

            fn syntax(&self) -> &crate::SyntaxNode {
                match self {
                    $($name::$member(node) => &node.0,)+
                }
            }
        }

        impl std::fmt::Display for $name {
            fn fmt(&self, f: &mut std::fmt::Formatter<'_>) -> std::fmt::Result {
                std::fmt::Display::fmt(crate::syntax::ast::AstNode::syntax(self), f)
            }
        }

        $(
            impl From<$member> for $name {
                fn from(node: $member) -> $name {
                    $name::$member(node)
                }
            }

            impl TryFrom<$name> for $member {
                type Error = ();

                fn try_from(node: $name) -> Result<$member, ()> {
                    match node {
                        $name::$member(node) => Ok(node),
                        _ => Err(()),
                    }
                }
            }
        )+
    };
}

pub(super) use {node, sum};
