//! Syntax trees, with the names of the crate rowan that read them. Trees are immutable; [`Edits`](crate::Edits) edits a text. A program that says
//! `use rowan::..` depends on the crate in `rowan/`, which re-exports this module, or says `use rnix::syntax::..` instead.

pub(crate) mod borrowed;
pub(crate) mod children;
pub(crate) mod descendants;
pub(crate) mod element;
pub(crate) mod node;
pub(crate) mod offset;
pub(crate) mod pointer;
pub(crate) mod text;
pub(crate) mod token;
pub(crate) mod walk;

pub use self::borrowed::{ElementRef, Elements};
pub use self::children::Siblings;
pub use self::descendants::{Descendants, DescendantsWithTokens};
pub use self::element::NodeOrToken;
pub use self::node::Ancestors;
pub use self::offset::TokenAtOffset;
pub use self::text::SyntaxText;
pub use self::walk::{Direction, PreorderRef, WalkEvent};
pub use crate::language::{Language, RawKind as SyntaxKind};
pub use crate::text_size::{TextLen, TextRange, TextSize};

/// A node of a language.
pub type SyntaxNode<L> = <L as Language>::Node;

/// A token of a language.
pub type SyntaxToken<L> = <L as Language>::Token;

/// A node or token of a language.
pub type SyntaxElement<L> = <L as Language>::Element;

/// The iterator over a node's child nodes.
pub type SyntaxNodeChildren<L> = <L as Language>::NodeChildren;

/// The iterator over a node's child nodes and tokens.
pub type SyntaxElementChildren<L> = <L as Language>::ElementChildren;

/// Walks over trees.
pub mod api {
    use super::Language;

    pub use super::{SyntaxElement, SyntaxElementChildren, SyntaxNode, SyntaxNodeChildren, SyntaxToken};

    /// The walk that enters and leaves nodes.
    pub type Preorder<L> = <L as Language>::Preorder;

    /// The walk that enters and leaves nodes and tokens.
    pub type PreorderWithTokens<L> = <L as Language>::PreorderWithTokens;
}

/// Typed nodes.
pub mod ast {
    use super::{Language, SyntaxNode};
    use crate::{NixLanguage, SyntaxNodeChildren};
    use std::iter::FusedIterator;
    use std::marker::PhantomData;

    pub use crate::syntax::pointer::{AstPtr, SyntaxNodePtr};

    /// A typed node.
    pub trait AstNode {
        /// The language of the nodes.
        type Language: Language;

        /// Returns whether a node of this kind has the type.
        fn can_cast(kind: <Self::Language as Language>::Kind) -> bool
        where
            Self: Sized;

        /// Returns the node as a typed one, or `None` if its kind is another.
        fn cast(node: SyntaxNode<Self::Language>) -> Option<Self>
        where
            Self: Sized;

        /// Returns the untyped node.
        fn syntax(&self) -> &SyntaxNode<Self::Language>;
    }

    /// The iterator over the children of one type.
    #[derive(Clone, Debug)]
    pub struct AstChildren<N> {
        nodes: SyntaxNodeChildren,
        of: PhantomData<fn() -> N>,
    }

    impl<N> AstChildren<N> {
        pub(crate) fn of(node: &crate::SyntaxNode) -> AstChildren<N> {
            AstChildren {
                nodes: node.children(),
                of: PhantomData,
            }
        }
    }

    impl<N: AstNode<Language = NixLanguage>> Iterator for AstChildren<N> {
        type Item = N;

        fn next(&mut self) -> Option<N> {
            std::iter::from_fn(|| self.nodes.next_of(&N::can_cast)).find_map(N::cast)
        }
    }

    impl<N: AstNode<Language = NixLanguage>> FusedIterator for AstChildren<N> {}

    /// Functions to write accessors with.
    pub mod support {
        use super::{AstChildren, AstNode};
        use crate::{NixLanguage, SyntaxKind, SyntaxNode, SyntaxToken};

        /// Returns the first child of type `N`.
        pub fn child<N: AstNode<Language = NixLanguage>>(parent: &SyntaxNode) -> Option<N> {
            let tree = &parent.tree;
            let mut nodes = tree
                .children(parent.number)
                .filter(|number| tree.is_node_of(*number, &N::can_cast));
            nodes.find_map(|number| N::cast(SyntaxNode::at(tree, number)))
        }

        /// Returns an iterator over the children of type `N`.
        pub fn children<N: AstNode<Language = NixLanguage>>(parent: &SyntaxNode) -> AstChildren<N> {
            AstChildren::of(parent)
        }

        /// Returns the first child token of a kind.
        pub fn token(parent: &SyntaxNode, kind: SyntaxKind) -> Option<SyntaxToken> {
            let tree = &parent.tree;
            let mut children = tree.children(parent.number);
            let number = children.find(|number| tree.is_token_of(*number, &|one| one == kind))?;
            Some(SyntaxToken::at(tree, number))
        }
    }
}
