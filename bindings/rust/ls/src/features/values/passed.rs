//! What calls in a file pass to the functions of the file.

use super::{Meaning, Values};
use crate::analysis::{name_text, Analysis};
use crate::calls::{call_around, with_parens};
use crate::sources::Part;
use rnix::ast::{AttrpathValue, Lambda};
use rnix::syntax::ast::AstNode as _;
use rnix::{SyntaxKind, SyntaxNode};

// The function whose body is a node in parentheses.
fn function_around(node: &SyntaxNode) -> Option<Lambda> {
    let function = Lambda::cast(node.parent()?)?;
    let is_body = function.body().is_some_and(|body| body.syntax() == node);
    is_body.then_some(function)
}

// The outermost of the functions that are the body of each other, from one on, in parentheses; and how many there are around it.
fn outermost(function: &Lambda) -> (SyntaxNode, usize) {
    let (mut node, mut count) = (with_parens(function.syntax()), 0);
    while let Some(around) = function_around(&node) {
        (node, count) = (with_parens(around.syntax()), count + 1);
    }
    (node, count)
}

// The number of the binding of a `let` or a `rec` set whose whole value is a node.
fn binding_of(analysis: &Analysis, node: &SyntaxNode) -> Option<usize> {
    let entry = AttrpathValue::cast(node.parent()?)?;
    let path: Vec<_> = entry.attrpath()?.attrs().collect();
    match path.as_slice() {
        [name] => analysis.binding_at(name.syntax().text_range()),
        _ => None,
    }
}

// The argument that a call passes to a function after so many others.
fn argument(function: &SyntaxNode, count: usize) -> Option<SyntaxNode> {
    let mut call = call_around(function, true)?;
    for _ in 0..count {
        call = call_around(call.syntax(), true)?;
    }
    Some(call.argument()?.syntax().clone())
}

impl<'a> Values<'a, '_> {
    // What calls of the function of a parameter pass for it, where the function is called in place or by a name that is bound to it.
    pub(super) fn passed(&self, parameter: &Part<'a>) -> Vec<Meaning<'a>> {
        let function = parameter.node.ancestors().find_map(Lambda::cast);
        let (Some(function), Some(analysis)) = (function, parameter.source.analysis()) else {
            return Vec::new();
        };
        let (outer, count) = outermost(&function);
        let number = binding_of(analysis, &outer).filter(|_| self.has_entries(analysis.names().references.len()));
        let names = number.into_iter().flat_map(|number| analysis.names().uses(number));
        let names = names.map(|one| one.name.clone());
        let arguments = names.chain([outer]).filter_map(|called| argument(&called, count));
        let arguments = arguments.map(|node| Meaning::Expr(parameter.source.part(node)));
        if parameter.node.kind() != SyntaxKind::NODE_PAT_ENTRY {
            return arguments.collect();
        }
        let name = parameter
            .node
            .first_child()
            .map(|name| name_text(&name))
            .unwrap_or_default();
        let attributes = arguments.flat_map(|argument| self.select(&argument, &name));
        attributes.map(|attribute| attribute.meaning).collect()
    }
}
