//! Pointers to nodes that do not keep the tree alive.

use super::node::SyntaxNode;
use crate::language::Language;
use crate::syntax::ast::AstNode;
use crate::{NixLanguage, SyntaxKind, TextRange};
use std::fmt;
use std::hash::{Hash, Hasher};
use std::marker::PhantomData;

/// The kind and range of a node, which find it again in its tree or in another tree of the same text.
#[derive(Clone, Debug, PartialEq, Eq, Hash)]
pub struct SyntaxNodePtr<L: Language = NixLanguage> {
    kind: L::Kind,
    range: TextRange,
}

impl SyntaxNodePtr {
    /// Returns a pointer to a node.
    pub fn new(node: &SyntaxNode) -> SyntaxNodePtr {
        SyntaxNodePtr {
            kind: node.kind(),
            range: node.text_range(),
        }
    }

    /// Returns the node in the tree that has this root.
    ///
    /// # Panics
    /// If the tree has no such node, or `root` has a parent.
    pub fn to_node(&self, root: &SyntaxNode) -> SyntaxNode {
        self.try_to_node(root).unwrap_or_else(|| panic!("there is no {self:?}"))
    }

    /// Returns the node in the tree that has this root, or `None` if the tree has no such node or `root` has a parent.
    pub fn try_to_node(&self, root: &SyntaxNode) -> Option<SyntaxNode> {
        let tree = &root.tree;
        if tree.parent(root.number).is_some() {
            return None;
        }
        let is_around = |number: &u32| !tree.is_token(*number) && tree.range(*number).contains_range(self.range);
        let mut inwards = std::iter::successors(Some(root.number), |node| tree.children(*node).find(is_around));
        let number = inwards.find(|number| tree.range(*number) == self.range && tree.kind(*number) == self.kind)?;
        Some(SyntaxNode::at(tree, number))
    }

    /// Returns the pointer as one to a typed node, or `None` if the kind is another.
    pub fn cast<N: AstNode<Language = NixLanguage>>(self) -> Option<AstPtr<N>> {
        N::can_cast(self.kind).then_some(AstPtr {
            pointer: self,
            of: PhantomData,
        })
    }

    /// Returns the kind of the node.
    pub fn kind(&self) -> SyntaxKind {
        self.kind
    }

    /// Returns the range of the node.
    pub fn text_range(&self) -> TextRange {
        self.range
    }
}

/// A pointer to a typed node.
pub struct AstPtr<N> {
    pointer: SyntaxNodePtr,
    of: PhantomData<fn() -> N>,
}

impl<N: AstNode<Language = NixLanguage>> AstPtr<N> {
    /// Returns a pointer to a node.
    pub fn new(node: &N) -> AstPtr<N> {
        AstPtr {
            pointer: SyntaxNodePtr::new(node.syntax()),
            of: PhantomData,
        }
    }

    /// Returns the node in the tree that has this root.
    ///
    /// # Panics
    /// If the tree has no such node, or `root` has a parent.
    pub fn to_node(&self, root: &SyntaxNode) -> N {
        N::cast(self.pointer.to_node(root)).expect("the kind was tested")
    }

    /// Returns the node in the tree that has this root, or `None` if the tree has no such node or `root` has a parent.
    pub fn try_to_node(&self, root: &SyntaxNode) -> Option<N> {
        N::cast(self.pointer.try_to_node(root)?)
    }

    /// Returns the pointer without the type.
    pub fn syntax_node_ptr(&self) -> SyntaxNodePtr {
        self.pointer.clone()
    }

    /// Returns the pointer as one to another type, or `None` if that type does not have the kind.
    pub fn cast<U: AstNode<Language = NixLanguage>>(self) -> Option<AstPtr<U>> {
        self.pointer.cast()
    }

    /// Returns the range of the node.
    pub fn text_range(&self) -> TextRange {
        self.pointer.range
    }
}

impl<N> From<AstPtr<N>> for SyntaxNodePtr {
    fn from(pointer: AstPtr<N>) -> SyntaxNodePtr {
        pointer.pointer
    }
}

impl<N> Clone for AstPtr<N> {
    fn clone(&self) -> AstPtr<N> {
        AstPtr {
            pointer: self.pointer.clone(),
            of: PhantomData,
        }
    }
}

impl<N> PartialEq for AstPtr<N> {
    fn eq(&self, other: &AstPtr<N>) -> bool {
        self.pointer == other.pointer
    }
}

impl<N> Eq for AstPtr<N> {}

impl<N> Hash for AstPtr<N> {
    fn hash<H: Hasher>(&self, state: &mut H) {
        self.pointer.hash(state);
    }
}

impl<N> fmt::Debug for AstPtr<N> {
    fn fmt(&self, f: &mut fmt::Formatter<'_>) -> fmt::Result {
        f.debug_struct("AstPtr").field("raw", &self.pointer).finish()
    }
}
