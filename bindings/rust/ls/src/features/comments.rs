//! The comment before an entry: a documentation comment, as RFC 145 of Nix has them, or other comments in the lines before it.

use rnix::ast::AttrpathValue;
use rnix::syntax::ast::AstNode as _;
use rnix::{NodeOrToken, SyntaxKind, SyntaxNode, SyntaxToken};

// The text of a comment without its marks, in lines.
fn lines_of(comment: &str) -> Vec<String> {
    if let Some(line) = comment.strip_prefix('#') {
        return vec![line.strip_prefix(' ').unwrap_or(line).trim_end().to_owned()];
    }
    let inner = comment.strip_prefix("/*").unwrap_or(comment);
    let inner = inner.strip_suffix("*/").unwrap_or(inner).trim_start_matches('*');
    let lines = inner.lines().map(|line| {
        let line = line.trim();
        line.strip_prefix("* ")
            .unwrap_or(if line == "*" { "" } else { line })
            .to_owned()
    });
    lines.collect()
}

// How many spaces all lines begin with that are not blank.
fn common_indentation<'l>(lines: impl Iterator<Item = &'l str>) -> usize {
    let filled = lines.filter(|line| !line.trim().is_empty());
    let spaces = filled.map(|line| line.len() - line.trim_start_matches(' ').len());
    spaces.min().unwrap_or(0)
}

// The text of a documentation comment: without the white space that its lines have in common, and without a star before each.
fn document_text(comment: &str) -> Option<String> {
    let inner = comment.strip_prefix("/**")?.strip_suffix("*/")?;
    let (first, rest) = inner.split_once('\n').unwrap_or((inner, ""));
    let indentation = common_indentation(rest.lines());
    let indented = rest.lines().map(|line| line.get(indentation..).unwrap_or_default());
    let lines: Vec<&str> = indented.map(str::trim_end).collect();
    let is_starred = |line: &&str| line.is_empty() || *line == "*" || line.starts_with("* ");
    let skipped = if lines.iter().all(is_starred) { 2 } else { 0 };
    let shown = lines.iter().map(|line| line.get(skipped..).unwrap_or_default());
    let all: Vec<&str> = std::iter::once(first.trim()).chain(shown).collect();
    let text = all.join("\n").trim_matches('\n').trim_end().to_owned();
    (!inner.starts_with('*') && !text.is_empty()).then_some(text)
}

// The documentation comment before a node, with nothing but white space between.
fn document_before(node: &SyntaxNode) -> Option<String> {
    let mut token = node.first_token()?.prev_token()?;
    if token.kind() == SyntaxKind::TOKEN_WHITESPACE {
        token = token.prev_token()?;
    }
    let is_comment = token.kind() == SyntaxKind::TOKEN_COMMENT;
    is_comment.then(|| document_text(token.text())).flatten()
}

/// Returns what is said of an entry: the documentation comment before it or before its value, or the comments in the lines before it.
pub fn documentation(entry: &SyntaxNode) -> Option<String> {
    let value = || AttrpathValue::cast(entry.clone())?.value();
    let of_value = || document_before(value()?.syntax());
    document_before(entry)
        .or_else(of_value)
        .or_else(|| comment_before(entry))
}

// Whether white space ends a line, and is no empty line.
fn is_line_end(token: &SyntaxToken) -> bool {
    token.kind() == SyntaxKind::TOKEN_WHITESPACE && token.text().matches('\n').count() == 1
}

// Whether a comment comes first in its line.
fn is_first(comment: &SyntaxToken) -> bool {
    comment.prev_token().map_or(true, |before| {
        before.kind() == SyntaxKind::TOKEN_WHITESPACE && before.text().contains('\n')
    })
}

// The comments right before a node, each first in its line, without their marks.
fn comment_before(node: &SyntaxNode) -> Option<String> {
    let mut comments = Vec::new();
    let mut token = node.first_token()?.prev_token();
    while let Some(space) = token {
        let comment = if is_line_end(&space) {
            space.prev_token()
        } else {
            Some(space)
        };
        let Some(comment) = comment.filter(|token| token.kind() == SyntaxKind::TOKEN_COMMENT && is_first(token)) else {
            break;
        };
        comments.push(lines_of(comment.text()));
        token = comment.prev_token();
    }
    let lines: Vec<String> = comments.into_iter().rev().flatten().collect();
    let text = lines.join("\n").trim().to_owned();
    (!text.is_empty()).then_some(text)
}

/// Returns whether a comment is a child of a node.
pub fn has_comment(node: &SyntaxNode) -> bool {
    let mut tokens = node.children_with_tokens().filter_map(NodeOrToken::into_token);
    tokens.any(|token| token.kind() == SyntaxKind::TOKEN_COMMENT)
}

#[cfg(test)]
mod tests {
    use super::*;
    use rnix::Root;

    // The comment before the last entry.
    fn comment(text: &str) -> Option<String> {
        let nodes = Root::parse(text).syntax().descendants();
        let entry = nodes
            .filter(|node| node.kind() == SyntaxKind::NODE_ATTRPATH_VALUE)
            .last();
        documentation(&entry.unwrap())
    }

    #[test]
    fn the_comments_right_before_an_entry_are_joined() {
        assert_eq!(comment("{\n  # one\n  #two\n  a = 1;\n}").unwrap(), "one\ntwo");
        assert_eq!(comment("{\n  /* one */\n  a = 1;\n}").unwrap(), "one");
        assert_eq!(
            comment("{\n  /**\n   * one\n   *\n   * two\n   */\n  a = 1;\n}").unwrap(),
            "one\n\ntwo"
        );
    }

    #[test]
    fn a_documentation_comment_keeps_its_markdown() {
        let text = "{\n  /**\n    Adds.\n\n    # Example\n    ```nix\n      f 1\n    ```\n  */\n\n  a = 1;\n}";
        assert_eq!(comment(text).unwrap(), "Adds.\n\n# Example\n```nix\n  f 1\n```");
        assert_eq!(comment("{ /** one */ a = 1; }").unwrap(), "one");
        assert_eq!(comment("{ a = /** one\n  two */ b: b; }").unwrap(), "one\ntwo");
        assert_eq!(comment("{\n  # other\n  /** one */\n  a = 1;\n}").unwrap(), "one");
    }

    #[test]
    fn other_comments_are_not_taken() {
        assert_eq!(comment("{\n  # one\n\n  a = 1;\n}"), None);
        assert_eq!(comment("{\n  b = 1; # of b\n  a = 1;\n}"), None);
        assert_eq!(comment("{\n  #\n  a = 1;\n}"), None);
        assert_eq!(comment("{\n  /**/\n  a = 1;\n}"), None);
        assert_eq!(comment("{\n  /***/\n  a = 1;\n}"), None);
        assert_eq!(comment("{ a = 1; }"), None);
    }
}
