//! What is known of a text: its tree, its errors, its names, and its diagnostics.

use crate::change::Change;
use crate::protocol::{Code, Failure};
use rnix::ast::{Dynamic, Expr, InterpolPart, Str};
use rnix::diagnostics::{names_and_diagnostics, Diagnostic};
use rnix::scopes::{Binding, Reference, Resolution};
use rnix::syntax::ast::AstNode as _;
use rnix::{Parse, Refused, Root, SyntaxKind, SyntaxNode, SyntaxToken, TextRange, TextSize};
use std::cell::OnceCell;

/// The tree of a text, what its names refer to, and what is wrong with it.
pub struct Analysis {
    /// The tree and the errors.
    pub parse: Parse<Root>,
    // Both come from one call: an editor shows the diagnostics of each text, and nearly always asks about its names.
    found: OnceCell<(Resolution, Vec<Diagnostic>)>,
}

/// A name in a text, and its numbers in the resolution. What is bound by an `inherit` has both numbers.
#[derive(Clone, Debug)]
pub struct Name {
    /// What writes the name: an identifier, a string or a `${}`.
    pub node: SyntaxNode,
    /// The binding that it writes.
    pub written: Option<usize>,
    /// The reference that it is.
    pub reference: Option<usize>,
}

impl Analysis {
    /// Parses a text.
    ///
    /// # Errors
    /// Memory runs out.
    pub fn new(text: &str) -> Result<Analysis, Failure> {
        Analysis::of(Root::try_parse(text))
    }

    /// Parses a text that comes from an earlier one by a change, from the parse of the earlier one.
    ///
    /// # Errors
    /// Memory runs out.
    pub fn after(earlier: &Parse<Root>, change: &Change, text: &str) -> Result<Analysis, Failure> {
        Analysis::of(earlier.try_reparse(change.old.clone(), &text[change.new.clone()]))
    }

    fn of(parse: Result<Parse<Root>, Refused>) -> Result<Analysis, Failure> {
        Ok(Analysis {
            parse: parse.map_err(|refused| Failure::new(Code::InternalError, refused.to_string()))?,
            found: OnceCell::new(),
        })
    }

    /// Returns the root of the tree.
    pub fn root(&self) -> SyntaxNode {
        self.parse.syntax()
    }

    /// Returns whether the text has errors.
    pub fn has_errors(&self) -> bool {
        !self.parse.errors().is_empty()
    }

    /// Returns what the names of the text refer to.
    pub fn names(&self) -> &Resolution {
        &self.found().0
    }

    /// Returns what is wrong with the text.
    pub fn diagnostics(&self) -> &[Diagnostic] {
        &self.found().1
    }

    fn found(&self) -> &(Resolution, Vec<Diagnostic>) {
        self.found.get_or_init(|| names_and_diagnostics(&self.parse))
    }

    /// Returns the binding of a number.
    pub fn binding(&self, number: usize) -> Option<&Binding> {
        self.names().bindings.get(number)
    }

    /// Returns the reference of a number.
    pub fn reference(&self, number: usize) -> Option<&Reference> {
        self.names().references.get(number)
    }

    /// Returns the tokens that contain an offset, or meet there.
    pub fn tokens_at(&self, offset: TextSize) -> impl Iterator<Item = SyntaxToken> {
        let root = self.root();
        let offset = offset.min(root.text_range().end());
        root.token_at_offset(offset)
    }

    /// Returns the name at an offset, or right before it.
    pub fn name_at(&self, offset: TextSize) -> Option<Name> {
        let nodes = self.tokens_at(offset).filter_map(|token| token.parent());
        let mut names = nodes.filter_map(|node| self.name_of(node)).collect::<Vec<_>>();
        names.sort_by_key(|name| name.written.is_none() && name.reference.is_none());
        names.into_iter().next()
    }

    // A node as a name, if it is an identifier, or a string or `${}` that is a name.
    fn name_of(&self, node: SyntaxNode) -> Option<Name> {
        let range = node.text_range();
        let names = self.names();
        let name = Name {
            written: names.bindings.iter().position(|one| one.name.text_range() == range),
            reference: names.references.iter().position(|one| one.name.text_range() == range),
            node,
        };
        let is_known = name.written.is_some() || name.reference.is_some();
        (is_known || name.node.kind() == SyntaxKind::NODE_IDENT).then_some(name)
    }

    /// Returns the number of the first binding of what a name is bound to: the one that it writes, or the one that it refers to.
    pub fn bound_to(&self, name: &Name) -> Option<usize> {
        match name.written {
            Some(number) => Some(self.binding(number)?.first),
            None => self.reference(name.reference?)?.binding,
        }
    }

    /// Returns the number of the binding that is written at a range.
    pub fn binding_at(&self, range: TextRange) -> Option<usize> {
        let mut bindings = self.names().bindings.iter();
        bindings.position(|binding| binding.name.text_range() == range)
    }

    /// Returns where a binding is written, in each of its parts.
    pub fn written_at(&self, number: usize) -> Vec<TextRange> {
        let parts = self.names().bindings.iter().filter(|part| part.first == number);
        parts.map(|part| part.name.text_range()).collect()
    }

    /// Returns where a binding is referred to.
    pub fn referred_at(&self, number: usize) -> Vec<TextRange> {
        let uses = self.names().uses(number);
        uses.map(|reference| reference.name.text_range()).collect()
    }
}

/// Returns an expression without the parentheses around it.
pub fn without_parens(mut expr: Expr) -> Expr {
    while let Expr::Paren(paren) = &expr {
        match paren.expr() {
            Some(inner) => expr = inner,
            None => break,
        }
    }
    expr
}

/// Returns what a name is: without quotes and `${}`, and with escapes replaced.
pub fn name_text(node: &SyntaxNode) -> String {
    let inner = match Dynamic::cast(node.clone()).and_then(|name| name.expr()) {
        Some(expr) => without_parens(expr).syntax().clone(),
        None => node.clone(),
    };
    let parts = Str::cast(inner.clone()).map(|string| string.normalized_parts());
    match parts.as_deref() {
        Some([]) => String::new(),
        Some([InterpolPart::Literal(text)]) => text.clone(),
        _ => inner.to_string(),
    }
}
