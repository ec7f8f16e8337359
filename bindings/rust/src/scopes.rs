//! The names that a text binds, and the bindings that its names refer to.
//!
//! ```
//! let parse = rnix::Root::parse("let a = 1; b = 2; in a");
//! let names = rnix::scopes::resolve(&parse);
//! assert_eq!(names.bindings[0].name.text(), "a");
//! assert_eq!(names.references[0].binding, Some(0));
//! assert_eq!(names.uses(1).count(), 0);
//! ```

use crate::syntax::node::SyntaxNode;
use crate::{ffi, Parse, Root, SyntaxKind, TextRange, TextSize};

/// A name that a scope binds: a `let`, a `rec` set or a function.
#[derive(Clone, Debug)]
pub struct Binding {
    /// The identifier, string or `${}` that writes the name.
    pub name: SyntaxNode,
    /// The node in which the name is visible.
    pub scope: SyntaxNode,
    /// The index of the first binding of this name in this scope: its own, unless a set is written in parts, as in `a.b = 1; a.c = 2;`.
    pub first: usize,
}

/// A name that refers to a binding.
#[derive(Clone, Debug)]
pub struct Reference {
    /// The identifier, string or `${}` that writes the name.
    pub name: SyntaxNode,
    /// The index of the binding, in the innermost scope that binds the name, or `None` if no scope does.
    pub binding: Option<usize>,
    /// Whether it is a name of an `inherit` without a source.
    pub is_inherited: bool,
    /// Whether it has no binding and is in the body of a `with`, and Nix itself does not bind it.
    pub is_open: bool,
}

/// The bindings of a text, in the order of their scopes, and its references, in the order of the text.
#[derive(Clone, Debug)]
pub struct Resolution {
    /// The bindings.
    pub bindings: Vec<Binding>,
    /// The references.
    pub references: Vec<Reference>,
}

impl Resolution {
    /// Returns an iterator over the references to the binding of an index.
    pub fn uses(&self, binding: usize) -> impl Iterator<Item = &Reference> {
        self.references
            .iter()
            .filter(move |reference| reference.binding == Some(binding))
    }
}

/// Returns how many bindings and references are expected in a text.
pub(crate) fn guesses(text: &str) -> (usize, usize) {
    (text.len() / 4 + 8, text.len() / 2 + 8)
}

// Finds nodes. The search for each begins at the one before, since names come in the order of the text, and many of them have one scope.
struct Finder<'t> {
    root: &'t SyntaxNode,
    last: u32,
}

impl Finder<'_> {
    // The node of a kind and a range.
    fn node(&mut self, kind: u32, start: u64, end: u64) -> SyntaxNode {
        let range = TextRange::new(TextSize::new(start as u32), TextSize::new(end as u32));
        let number = self.root.tree.node_from(self.last, SyntaxKind::at(kind), range);
        self.last = number.expect("the library names a node of the tree");
        SyntaxNode::at(&self.root.tree, self.last)
    }
}

/// Returns what encoded bindings and references are in a tree.
pub(crate) fn resolution(root: &SyntaxNode, bindings: &[ffi::Binding], references: &[ffi::Reference]) -> Resolution {
    let (mut names, mut scopes) = (Finder { root, last: 0 }, Finder { root, last: 0 });
    let binding = |one: &ffi::Binding| Binding {
        name: names.node(one.kind, one.start, one.end),
        scope: scopes.node(one.scope_kind, one.scope_start, one.scope_end),
        first: one.first as usize,
    };
    let bindings = bindings.iter().map(binding).collect();
    let mut names = Finder { root, last: 0 };
    let reference = |one: &ffi::Reference| Reference {
        name: names.node(one.kind, one.start, one.end),
        binding: (one.binding != ffi::NO_NUMBER).then_some(one.binding as usize),
        is_inherited: one.is_inherited == 1,
        is_open: one.is_open == 1,
    };
    Resolution {
        bindings,
        references: references.iter().map(reference).collect(),
    }
}

/// Returns the bindings and references of a text. If it has errors, the library parses it again.
///
/// # Panics
/// If memory runs out.
pub fn resolve(parse: &Parse<Root>) -> Resolution {
    let root = parse.syntax();
    let names = root.tree.names(parse.errors().len(), guesses(root.tree.text(0)));
    let (bindings, references) = names.unwrap_or_else(|refused| panic!("{refused}"));
    resolution(&root, &bindings, &references)
}
