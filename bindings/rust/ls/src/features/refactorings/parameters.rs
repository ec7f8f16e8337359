//! Adds a name that nothing binds to the parameters of the file.

use super::Selection;
use crate::calls::function_of;
use crate::edits::Edit;
use crate::features::fixes::Fix;
use crate::features::globals::is_global;
use rnix::ast::{Lambda, Param, Pattern};
use rnix::syntax::ast::AstNode as _;
use rnix::{SyntaxKind, TextRange, TextSize};

/// Returns the pattern of a function.
pub fn pattern_of(lambda: &Lambda) -> Option<Pattern> {
    match lambda.param()? {
        Param::Pattern(pattern) => Some(pattern),
        Param::IdentParam(_) => None,
    }
}

fn token_end(pattern: &Pattern, kind: SyntaxKind) -> Option<TextRange> {
    let mut children = pattern.syntax().element_ref().children();
    children
        .find(|child| child.kind() == kind)
        .map(|token| token.text_range())
}

// What comes between two entries: what is between the last two, or after the brace before the only one.
fn separator(selection: &Selection, pattern: &Pattern) -> Option<String> {
    let entries: Vec<TextRange> = pattern.pat_entries().map(|entry| entry.syntax().text_range()).collect();
    let last = entries.last()?;
    let before = match entries.len().checked_sub(2) {
        Some(index) => entries[index].end(),
        None => token_end(pattern, SyntaxKind::TOKEN_L_BRACE)?.end(),
    };
    let between = selection.part(TextRange::new(before, last.start()));
    let is_list = between.trim() == ",";
    Some(match between.rfind('\n') {
        _ if is_list => between.to_owned(),
        Some(newline) if entries.len() == 1 => format!(",{}", &between[newline..]),
        _ => ", ".to_owned(),
    })
}

// The edit that adds an entry to a pattern.
fn addition(selection: &Selection, pattern: &Pattern, name: &str) -> Option<Edit> {
    let insert = |at: TextSize, text: String| Some((TextRange::empty(at), text));
    if let Some(last) = pattern.pat_entries().last() {
        let separator = separator(selection, pattern)?;
        return insert(last.syntax().text_range().end(), format!("{separator}{name}"));
    }
    if let Some(dots) = pattern.ellipsis_token() {
        return insert(dots.text_range().start(), format!("{name}, "));
    }
    let start = token_end(pattern, SyntaxKind::TOKEN_L_BRACE)?.end();
    let between = TextRange::new(start, token_end(pattern, SyntaxKind::TOKEN_R_BRACE)?.start());
    let is_empty = selection.part(between).trim().is_empty();
    is_empty.then(|| (between, format!(" {name} ")))
}

/// Returns the action that adds the name at the selection to the pattern of the function that the file is, if nothing binds the name.
pub fn added(selection: &Selection) -> Option<Fix> {
    let analysis = selection.analysis;
    let lambda = function_of(analysis.parse.tree().expr()?)?;
    let pattern = pattern_of(&lambda)?;
    let name = analysis.name_at(selection.range.start())?;
    let reference = analysis.reference(name.reference?)?;
    let text = reference.name.to_string();
    let is_unbound = reference.binding.is_none() && !reference.is_open && !is_global(&text) && !text.starts_with("__");
    if !is_unbound || reference.name.kind() != SyntaxKind::NODE_IDENT {
        return None;
    }
    let edits = vec![addition(selection, &pattern, &text)?];
    let is_bound = selection.edited(&edits)?.binds(&text);
    is_bound.then(|| Fix {
        title: format!("Add `{text}` to the parameters"),
        edits,
    })
}

#[cfg(test)]
mod tests {
    use super::super::tests::{after, titled};
    use super::added;

    #[test]
    fn a_name_is_added_in_the_style_of_the_others() {
        let text = |marked| after(added, marked).unwrap();
        assert_eq!(text("{ a, b }: [ a b |c ]"), "{ a, b, c }: [ a b c ]");
        assert_eq!(text("{ a, ... }@x: c|"), "{ a, c, ... }@x: c");
        assert_eq!(text("{ a ? 1 }: |c"), "{ a ? 1, c }: c");
        assert_eq!(text("{\n  a,\n  b,\n}:\n|c"), "{\n  a,\n  b,\n  c,\n}:\nc");
        assert_eq!(text("{ a\n, b\n}: |c"), "{ a\n, b\n, c\n}: c");
        assert_eq!(text("{\n  a\n}: |c"), "{\n  a,\n  c\n}: c");
        assert_eq!(text("{ }: |c"), "{ c }: c");
        assert_eq!(text("{ ... }: |c c"), "{ c, ... }: c c");
        assert_eq!(text("({}: |c)"), "({ c }: c)");
        assert_eq!(text("let b = 1; in { a }: b |c"), "let b = 1; in { a, c }: b c");
        assert_eq!(titled(added, "{ a }: |c").unwrap().0, "Add `c` to the parameters");
    }

    #[test]
    fn what_is_bound_or_may_be_is_not_added() {
        for marked in [
            "{ a }: |a",
            "{ a }: with a; |c",
            "{ a }: |map",
            "{ a }: |__add",
            "a: |c",
            "{ a = |c; }",
            "{ a }: a.|c",
            "{ a }: [ |c (with a; c) ]",
            "{ a }: |1",
        ] {
            assert_eq!(after(added, marked), None, "{marked}");
        }
    }
}
