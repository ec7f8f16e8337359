//! Quick fixes for syntax errors, what the lints find, and unused names, and the other code actions.

use super::comments::has_comment;
use super::findings::{finding, shown, UNUSED};
use super::fixes::{correction, proposal, Fix};
use super::meaning::edited;
use super::refactorings::{self, wants};
use super::rename::keeps_meaning;
use crate::analysis::{name_text, Analysis};
use crate::edits::Edit;
use crate::json::{array, object, Value};
use crate::protocol::{range_of, Outcome};
use crate::request::Request;
use rnix::ast::{Inherit, Pattern};
use rnix::diagnostics::Diagnostic;
use rnix::syntax::ast::AstNode as _;
use rnix::{SyntaxKind, SyntaxNode, TextRange, TextSize};

/// An answer has at most this many quick fixes for errors or unused names, since each of them is tried out, and as many that lints propose.
const MOST: usize = 20;

/// For each error or name for which a fix is tried, the text is parsed a few times. These texts have at most this many bytes in all, but for one.
const MOST_BYTES: usize = 2_000_000;

// For how many errors or unused names of a text an answer tries fixes.
fn most_tries(text: &str) -> usize {
    (MOST_BYTES / text.len().max(1)).clamp(1, MOST)
}

/// Returns a range with the white space after it, or its whole lines if nothing else is in them.
pub fn with_space(text: &str, range: TextRange) -> TextRange {
    let (start, end) = (usize::from(range.start()), usize::from(range.end()));
    let before = text[..start].rfind('\n').map_or(0, |newline| newline + 1);
    let blank = |text: &str| text.len() - text.trim_start_matches([' ', '\t']).len();
    let after = end + blank(&text[end..]);
    let is_alone = text[before..start].trim().is_empty();
    let at = |offset: usize| TextSize::try_from(offset).unwrap_or_default();
    match text[after..]
        .strip_prefix("\r\n")
        .or_else(|| text[after..].strip_prefix('\n'))
    {
        Some(rest) if is_alone => TextRange::new(at(before), at(text.len() - rest.len())),
        _ => TextRange::new(range.start(), at(after)),
    }
}

/// Returns what is removed with a name of an `inherit`: its white space, or the whole entry if it is the only name.
pub fn inherited_range(text: &str, inherit: &Inherit, name: &SyntaxNode) -> TextRange {
    if inherit.attrs().count() == 1 {
        return with_space(text, inherit.syntax().text_range());
    }
    let range = name.text_range();
    let before = &text[..usize::from(range.start())];
    let start = before.trim_end_matches([' ', '\t', '\n', '\r']).len();
    TextRange::new(TextSize::try_from(start).unwrap_or_default(), range.end())
}

// What is removed with an entry of a pattern that takes other arguments too: the comma and white space after it.
fn argument_range(text: &str, entry: &SyntaxNode) -> Option<TextRange> {
    let pattern = Pattern::cast(entry.parent()?)?;
    pattern.ellipsis_token()?;
    let rest = &text[usize::from(entry.text_range().end())..];
    let rest = rest.trim_start().strip_prefix(',')?.trim_start();
    let end = TextSize::try_from(text.len() - rest.len()).ok()?;
    Some(TextRange::new(entry.text_range().start(), end))
}

/// Returns what is removed with a part of a binding.
pub fn removed_range(text: &str, name: &SyntaxNode) -> Option<TextRange> {
    let parent = name.parent()?;
    match parent.kind() {
        SyntaxKind::NODE_ATTRPATH => Some(with_space(text, parent.parent()?.text_range())),
        SyntaxKind::NODE_INHERIT if !has_comment(&parent) => Some(inherited_range(text, &Inherit::cast(parent)?, name)),
        SyntaxKind::NODE_PAT_ENTRY => argument_range(text, &parent),
        SyntaxKind::NODE_PAT_BIND => Some(parent.text_range()),
        _ => None,
    }
}

// The quick fix that removes a binding.
fn removal(analysis: &Analysis, text: &str, number: usize) -> Option<Fix> {
    let parts = analysis.names().bindings.iter().filter(|part| part.first == number);
    let ranges = parts
        .map(|part| removed_range(text, &part.name))
        .collect::<Option<Vec<_>>>()?;
    let name = name_text(&analysis.binding(number)?.name);
    let edits: Vec<Edit> = ranges.into_iter().map(|range| (range, String::new())).collect();
    let is_kept = edited(analysis, text, &edits)?.keeps_rest();
    is_kept.then(|| Fix {
        title: format!("Remove `{name}`"),
        edits,
    })
}

// The quick fix that marks a parameter as unused.
fn mark(analysis: &Analysis, number: usize) -> Option<Fix> {
    let name = &analysis.binding(number)?.name;
    if name.parent()?.kind() != SyntaxKind::NODE_IDENT_PARAM {
        return None;
    }
    let edits = vec![(name.text_range(), format!("_{name}"))];
    keeps_meaning(analysis, &edits).then(|| Fix {
        title: format!("Rename `{name}` to `_{name}`"),
        edits,
    })
}

// The quick fix that removes the name of a diagnostic, or marks it as unused.
fn disposal(analysis: &Analysis, text: &str, found: &Diagnostic) -> Option<Fix> {
    let number = analysis.binding_at(found.range)?;
    removal(analysis, text, number).or_else(|| mark(analysis, number))
}

// A quick fix for a diagnostic as a code action.
fn quick_fix(request: &Request, found: &Diagnostic, fix: &Fix) -> Value {
    let diagnostic = finding(request.document, request.analysis, request.client, found);
    object([
        ("title", fix.title.as_str().into()),
        ("kind", "quickfix".into()),
        ("diagnostics", array([diagnostic])),
        ("isPreferred", true.into()),
        ("edit", request.workspace_edit(&fix.edits)),
    ])
}

// The diagnostics in a range that are shown, with their numbers.
fn found_in<'r>(request: &Request<'r>, range: TextRange) -> impl Iterator<Item = (usize, &'r Diagnostic)> {
    let shown = shown(request.analysis, request.settings);
    shown.filter(move |(_, found)| found.range.intersect(range).is_some())
}

// The quick fixes for the errors or the unused names in a range, which are tried out.
fn tried(request: &Request, range: TextRange) -> Vec<Value> {
    let (analysis, text) = (request.analysis, request.text().content());
    let has_errors = analysis.has_errors();
    let action = |(number, found)| {
        let fix = if has_errors {
            correction(analysis, text, number)?
        } else {
            disposal(analysis, text, found)?
        };
        Some(quick_fix(request, found, &fix))
    };
    let in_range = found_in(request, range).filter(|(_, found)| has_errors || found.code == UNUSED);
    in_range.take(most_tries(text)).filter_map(action).collect()
}

// The quick fixes that lints propose in a range. In a text with errors they find nothing.
fn proposals(request: &Request, range: TextRange) -> Vec<Value> {
    if request.analysis.has_errors() {
        return Vec::new();
    }
    let text = request.text().content();
    let action = |(_, found)| Some(quick_fix(request, found, &proposal(found, text)?));
    found_in(request, range).filter_map(action).take(MOST).collect()
}

/// Returns the response to `textDocument/codeAction`: the quick fixes for what is wrong in the range, and what else can be done there.
///
/// # Errors
/// The parameters have no range.
pub fn actions(request: &Request) -> Outcome {
    let range = range_of(request.text(), request.params.get("range"))?;
    let mut found = Vec::new();
    if wants(request, "quickfix") {
        found.extend(tried(request, range));
        found.extend(proposals(request, range));
    }
    let tries = most_tries(request.text().content());
    found.extend(refactorings::actions(request, range, tries));
    Ok(array(found))
}

#[cfg(test)]
mod tests {
    use super::*;
    use crate::edits::applied;

    // The text after the first fix of the first unused name.
    fn fixed(text: &str) -> Option<String> {
        let analysis = Analysis::new(text).unwrap();
        let mut found = analysis.diagnostics().iter();
        let fix = disposal(&analysis, text, found.find(|one| one.code == UNUSED).unwrap())?;
        applied(text, &fix.edits)
    }

    #[test]
    fn fewer_fixes_are_tried_in_long_texts() {
        let counts = [0, 100_000, 1_000_000, 10_000_000].map(|len| most_tries(&"a".repeat(len)));
        assert_eq!(counts, [20, 20, 2, 1]);
    }

    #[test]
    fn an_entry_is_removed_with_its_line() {
        assert_eq!(fixed("let a = 1; b = 2; in b").unwrap(), "let b = 2; in b");
        assert_eq!(fixed("let\n  a = 1;\n  b = 2;\nin b").unwrap(), "let\n  b = 2;\nin b");
        assert_eq!(fixed("let\n  a = {\n  }; # of a\nin b").unwrap(), "let\n  # of a\nin b");
        assert_eq!(fixed("let a.b = 1; a.c = a: a; in 1").unwrap(), "let in 1");
    }

    #[test]
    fn an_inherited_name_is_removed_alone_or_with_its_entry() {
        assert_eq!(fixed("let inherit (x) a b; in b").unwrap(), "let inherit (x) b; in b");
        assert_eq!(fixed("let inherit (x) a b; in a").unwrap(), "let inherit (x) a; in a");
        assert_eq!(fixed("let inherit (x) a; in 1").unwrap(), "let in 1");
    }

    #[test]
    fn an_argument_is_removed_where_others_are_taken_too() {
        assert_eq!(fixed("{ a, b ? 1, ... }: b").unwrap(), "{ b ? 1, ... }: b");
        assert_eq!(fixed("{ b\n, a ? 1\n, ...\n}: b").unwrap(), "{ b\n, ...\n}: b");
        assert_eq!(fixed("{ a }: 1"), None);
        assert_eq!(fixed("{ b }@a: b").unwrap(), "{ b }: b");
    }

    #[test]
    fn a_parameter_is_marked_unless_a_use_would_refer_to_it() {
        assert_eq!(fixed("a: 1").unwrap(), "_a: 1");
        assert_eq!(fixed("a: _a"), None);
    }
}
