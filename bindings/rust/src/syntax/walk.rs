//! Walks that enter and leave.

use super::borrowed::ElementRef;
use super::element::SyntaxElement;
use super::node::SyntaxNode;
use crate::tree::Tree;
use std::iter::FusedIterator;

/// The direction in which siblings are visited.
#[derive(Clone, Copy, Debug, PartialEq, Eq, Hash)]
pub enum Direction {
    /// Towards the end of the text.
    Next,
    /// Towards the start of the text.
    Prev,
}

/// A step of a walk.
#[derive(Clone, Copy, Debug, PartialEq, Eq, Hash)]
pub enum WalkEvent<T> {
    /// Before the children.
    Enter(T),
    /// After the children.
    Leave(T),
}

impl<T> WalkEvent<T> {
    /// Applies a function to the node or token.
    #[inline]
    pub fn map<U>(self, function: impl FnOnce(T) -> U) -> WalkEvent<U> {
        match self {
            WalkEvent::Enter(element) => WalkEvent::Enter(function(element)),
            WalkEvent::Leave(element) => WalkEvent::Leave(function(element)),
        }
    }
}

// A step, with the number of its element.
type Step = WalkEvent<u32>;

// The steps of a walk that enters and leaves each element of a subtree.
#[derive(Clone, Debug)]
struct Steps {
    root: u32,
    next: Option<Step>,
    // The innermost node that is open after the last step, and the end of its subtree.
    parent: u32,
    end: u32,
}

impl Steps {
    fn of(tree: &Tree, root: u32) -> Steps {
        let parent = tree.parent(root).unwrap_or(root);
        Steps {
            root,
            next: Some(WalkEvent::Enter(root)),
            parent,
            end: tree.end(parent),
        }
    }

    // Skips the children of the node that was entered last.
    fn skip_subtree(&mut self, tree: &Tree) {
        self.next = match self.next {
            Some(WalkEvent::Enter(first)) => tree.parent(first).map(WalkEvent::Leave),
            next => next,
        };
    }

    // The step after an element is entered.
    #[inline]
    fn after_enter(&mut self, tree: &Tree, number: u32) -> Step {
        let end = tree.end(number);
        let first = number + 1;
        if first == end {
            return WalkEvent::Leave(number);
        }
        (self.parent, self.end) = (number, end);
        WalkEvent::Enter(first)
    }

    // The step after an element is left: its next sibling is entered, or its parent is left.
    #[inline]
    fn after_leave(&mut self, tree: &Tree, number: u32) -> Option<Step> {
        if number == self.root {
            return None;
        }
        let mut following = number + 1;
        if number == self.parent {
            following = self.end;
            self.parent = tree.parent(number)?;
            self.end = tree.end(self.parent);
        }
        Some(if following < self.end {
            WalkEvent::Enter(following)
        } else {
            WalkEvent::Leave(self.parent)
        })
    }

    // Takes the next step.
    #[inline]
    fn step(&mut self, tree: &Tree) -> Option<Step> {
        let event = self.next?;
        self.next = match event {
            WalkEvent::Enter(number) => Some(self.after_enter(tree, number)),
            WalkEvent::Leave(number) => self.after_leave(tree, number),
        };
        Some(event)
    }
}

/// A walk that enters and leaves each node and token of a subtree.
#[derive(Clone, Debug)]
pub struct PreorderWithTokens {
    root: SyntaxNode,
    steps: Steps,
}

impl PreorderWithTokens {
    #[inline]
    pub(crate) fn of(root: &SyntaxNode) -> PreorderWithTokens {
        PreorderWithTokens {
            root: root.clone(),
            steps: Steps::of(&root.tree, root.number),
        }
    }

    /// Skips the children of the node that was entered last.
    #[inline]
    pub fn skip_subtree(&mut self) {
        self.steps.skip_subtree(&self.root.tree);
    }
}

impl Iterator for PreorderWithTokens {
    type Item = WalkEvent<SyntaxElement>;

    #[inline]
    fn next(&mut self) -> Option<WalkEvent<SyntaxElement>> {
        let step = self.steps.step(&self.root.tree)?;
        Some(step.map(|number| SyntaxElement::at(&self.root.tree, number)))
    }
}

impl FusedIterator for PreorderWithTokens {}

/// A walk that enters and leaves each node of a subtree.
#[derive(Clone, Debug)]
pub struct Preorder {
    elements: PreorderWithTokens,
}

impl Preorder {
    #[inline]
    pub(crate) fn of(root: &SyntaxNode) -> Preorder {
        Preorder {
            elements: PreorderWithTokens::of(root),
        }
    }

    /// Skips the children of the node that was entered last.
    #[inline]
    pub fn skip_subtree(&mut self) {
        self.elements.skip_subtree();
    }
}

impl Iterator for Preorder {
    type Item = WalkEvent<SyntaxNode>;

    #[inline]
    fn next(&mut self) -> Option<WalkEvent<SyntaxNode>> {
        let PreorderWithTokens { root, steps } = &mut self.elements;
        let tree = &root.tree;
        loop {
            let step = steps.step(tree)?;
            let (WalkEvent::Enter(number) | WalkEvent::Leave(number)) = step;
            if !tree.is_token(number) {
                return Some(step.map(|number| SyntaxNode::at(tree, number)));
            }
        }
    }
}

impl FusedIterator for Preorder {}

/// A walk that enters and leaves each node and token of a subtree, and borrows them.
#[derive(Clone, Debug)]
pub struct PreorderRef<'t> {
    root: &'t SyntaxNode,
    steps: Steps,
}

impl<'t> PreorderRef<'t> {
    #[inline]
    pub(crate) fn of(root: &'t SyntaxNode) -> PreorderRef<'t> {
        PreorderRef {
            root,
            steps: Steps::of(&root.tree, root.number),
        }
    }

    /// Skips the children of the node that was entered last.
    #[inline]
    pub fn skip_subtree(&mut self) {
        self.steps.skip_subtree(&self.root.tree);
    }
}

impl<'t> Iterator for PreorderRef<'t> {
    type Item = WalkEvent<ElementRef<'t>>;

    #[inline]
    fn next(&mut self) -> Option<WalkEvent<ElementRef<'t>>> {
        let tree = &self.root.tree;
        Some(self.steps.step(tree)?.map(|number| ElementRef::at(tree, number)))
    }
}

impl FusedIterator for PreorderRef<'_> {}
