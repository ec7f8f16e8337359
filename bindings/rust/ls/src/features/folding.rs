//! What can be folded: nodes, strings and comments of several lines.

use crate::json::{array, object_of, Value};
use crate::protocol::Outcome;
use crate::request::Request;
use rnix::{ElementRef, SyntaxKind, TextRange};

/// A first and a last line, and whether they hold a comment.
type Fold = (usize, usize, bool);

// Whether nodes of a kind are folded. The last line of such a node has its closing bracket and stays in sight.
fn is_bracketed(kind: SyntaxKind) -> bool {
    use SyntaxKind::*;
    matches!(
        kind,
        NODE_ATTR_SET
            | NODE_LEGACY_LET
            | NODE_LIST
            | NODE_PAREN
            | NODE_PATTERN
            | NODE_STRING
            | NODE_INTERPOL
            | NODE_DYNAMIC
    )
}

// The lines of a range, but for the last one, if that has a closing bracket.
fn lines(request: &Request, range: TextRange, has_bracket: bool) -> (usize, usize) {
    let line = |offset: rnix::TextSize| request.text().line_at(offset.into());
    (
        line(range.start()),
        line(range.end()).saturating_sub(usize::from(has_bracket)),
    )
}

// The range of a node that is folded, and whether its last line stays in sight.
fn folded(node: ElementRef<'_>) -> Option<(TextRange, bool)> {
    let range = node.text_range();
    match node.kind() {
        SyntaxKind::NODE_LET_IN => {
            let end = node.children().find(|child| child.kind() == SyntaxKind::TOKEN_IN)?;
            Some((TextRange::new(range.start(), end.text_range().start()), true))
        }
        SyntaxKind::NODE_INHERIT => Some((range, false)),
        kind => is_bracketed(kind).then_some((range, true)),
    }
}

// Whether nothing but white space comes before a token in its line.
fn is_first(request: &Request, token: ElementRef<'_>) -> bool {
    let start = usize::from(token.text_range().start());
    let line = request.text().line(request.text().line_at(start));
    request.text().content()[line.start..start].trim().is_empty()
}

// Adds the lines of a comment: to those of the comment in the line above, if each has its lines for itself.
fn add_comment(request: &Request, token: ElementRef<'_>, folds: &mut Vec<Fold>) {
    let (start, end) = lines(request, token.text_range(), false);
    match folds.last_mut() {
        Some((_, last, true)) if *last + 1 == start && is_first(request, token) => *last = end,
        _ => folds.push((start, end, true)),
    }
}

// The first fold of each line, which has the outermost node, if it has several lines.
fn chosen(mut folds: Vec<Fold>) -> Vec<Fold> {
    folds.retain(|(start, end, _)| start < end);
    folds.sort_by_key(|(start, end, _)| (*start, std::cmp::Reverse(*end)));
    folds.dedup_by_key(|(start, ..)| *start);
    folds
}

/// Returns the response to `textDocument/foldingRange`.
///
/// # Errors
/// Never.
pub fn folds(request: &Request) -> Outcome {
    let (mut nodes, mut comments) = (Vec::new(), Vec::new());
    for element in request.analysis.root().elements() {
        if element.kind() == SyntaxKind::TOKEN_COMMENT {
            add_comment(request, element, &mut comments);
        } else if !element.is_token() {
            nodes.extend(folded(element).map(|(range, has_bracket)| {
                let (start, end) = lines(request, range, has_bracket);
                (start, end, false)
            }));
        }
    }
    nodes.append(&mut comments);
    Ok(array(chosen(nodes).into_iter().map(|(start, end, is_comment)| {
        object_of([
            ("startLine", Some(start.into())),
            ("endLine", Some(end.into())),
            ("kind", is_comment.then(|| Value::from("comment"))),
        ])
    })))
}
