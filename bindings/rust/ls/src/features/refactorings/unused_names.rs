//! Removes all names that a text binds and never uses.

use super::Selection;
use crate::analysis::Analysis;
use crate::edits::Edit;
use crate::features::actions::{inherited_range, removed_range, with_space};
use crate::features::comments::has_comment;
use crate::features::findings::UNUSED;
use crate::features::fixes::Fix;
use rnix::ast::Inherit;
use rnix::syntax::ast::AstNode as _;
use rnix::{SyntaxKind, SyntaxNode, TextRange};
use std::collections::HashSet;

// The numbers of the names that nothing uses.
fn unused(analysis: &Analysis) -> Vec<usize> {
    let found = analysis.diagnostics().iter().filter(|one| one.code == UNUSED);
    let places: HashSet<TextRange> = found.map(|one| one.range).collect();
    let numbered = analysis.names().bindings.iter().enumerate();
    let unused = numbered.filter(|(_, binding)| places.contains(&binding.name.text_range()));
    unused.map(|(number, _)| number).collect()
}

// What is removed with some names of one `inherit`: all of it if it has no others.
fn inherited_ranges(text: &str, inherit: &SyntaxNode, names: &HashSet<TextRange>) -> Vec<TextRange> {
    let Some(inherit) = Inherit::cast(inherit.clone()).filter(|inherit| !has_comment(inherit.syntax())) else {
        return Vec::new();
    };
    let own: Vec<SyntaxNode> = inherit.attrs().map(|attr| attr.syntax().clone()).collect();
    let removed: Vec<&SyntaxNode> = own.iter().filter(|name| names.contains(&name.text_range())).collect();
    if removed.len() == own.len() {
        return vec![with_space(text, inherit.syntax().text_range())];
    }
    removed
        .into_iter()
        .map(|name| inherited_range(text, &inherit, name))
        .collect()
}

// What is removed with the names, without those that cannot be removed.
fn ranges(selection: &Selection, numbers: &[usize]) -> Vec<TextRange> {
    let bindings = &selection.analysis.names().bindings;
    let firsts: HashSet<usize> = numbers.iter().copied().collect();
    let parts = bindings.iter().filter(|part| firsts.contains(&part.first));
    let names: Vec<&SyntaxNode> = parts.map(|part| &part.name).collect();
    let places: HashSet<TextRange> = names.iter().map(|name| name.text_range()).collect();
    let (mut ranges, mut inherits) = (Vec::new(), HashSet::new());
    for name in names {
        match name.parent().filter(|parent| parent.kind() == SyntaxKind::NODE_INHERIT) {
            Some(inherit) if inherits.insert(inherit.text_range()) => {
                ranges.extend(inherited_ranges(selection.text, &inherit, &places));
            }
            Some(_) => {}
            None => ranges.extend(removed_range(selection.text, name)),
        }
    }
    without_overlaps(ranges)
}

// The outer ones of ranges in order.
fn without_overlaps(mut ranges: Vec<TextRange>) -> Vec<TextRange> {
    ranges.sort_by_key(|range| (range.start(), std::cmp::Reverse(range.end())));
    let mut kept: Vec<TextRange> = Vec::new();
    for range in ranges {
        match kept.last_mut() {
            Some(last) if range.start() < last.end() => *last = last.cover(range),
            _ => kept.push(range),
        }
    }
    kept
}

/// Returns the action that removes all unused names of the text, where it can: those in the selection alone have one each. It is offered where one of
/// them is selected, or if the client asks for it.
pub fn removed(selection: &Selection) -> Option<Fix> {
    let numbers = unused(selection.analysis);
    let is_near = |number: &usize| {
        let name = selection
            .analysis
            .binding(*number)
            .map(|binding| binding.name.text_range());
        name.is_some_and(|name| name.intersect(selection.range).is_some())
    };
    if numbers.is_empty() || !(selection.is_explicit || numbers.iter().any(is_near)) {
        return None;
    }
    let edits: Vec<Edit> = ranges(selection, &numbers)
        .into_iter()
        .map(|range| (range, String::new()))
        .collect();
    let is_kept = !edits.is_empty() && selection.edited(&edits)?.keeps_rest();
    is_kept.then(|| Fix {
        title: "Remove all unused names".to_owned(),
        edits,
    })
}

#[cfg(test)]
mod tests {
    use super::super::tests::after;
    use super::removed;

    #[test]
    fn all_unused_names_are_removed() {
        let text = |marked| after(removed, marked).unwrap();
        assert_eq!(text("let |a = 1; b = 2; c = 3; in b"), "let b = 2; in b");
        assert_eq!(text("{ |a, b, c ? 1, ... }: let d = 1; in b"), "{ b, ... }: let in b");
        assert_eq!(
            text("let inherit (x) a |b c; inherit (x) d e; in c"),
            "let inherit (x) c; in c"
        );
        assert_eq!(text("let |a.b = c: c; a.d = let e = 1; in 2; in 1"), "let in 1");
        assert_eq!(
            text("let\n  |a = 1;\n  b = 2;\n  c = 3;\nin\nb"),
            "let\n  b = 2;\nin\nb"
        );
    }

    #[test]
    fn what_cannot_be_removed_stays() {
        assert_eq!(after(removed, "{ |a }: 1"), None);
        assert_eq!(after(removed, "let |a = 1; in a"), None);
        assert_eq!(after(removed, "let a = 1; in |2"), None);
        assert_eq!(after(removed, "{ |a }: let b = 1; in 2").unwrap(), "{ a }: let in 2");
    }
}
