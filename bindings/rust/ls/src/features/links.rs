//! The files that paths in a text name, and the addresses of pages in it.

use crate::json::{object, Value};
use crate::paths::{self, is_path};
use crate::protocol::Outcome;
use crate::request::Request;
use crate::sources::Source;
use crate::uri::uri_of_file;
use rnix::{SyntaxKind, SyntaxNode, TextRange, TextSize};
use std::path::PathBuf;

/// An answer has this many links at most, since each file is looked for on the disk.
const MOST: usize = 1000;

/// What a link leads to.
enum Target {
    /// The file of a path.
    File(SyntaxNode),
    /// An address.
    Page(String),
}

/// Returns the file that a path names, if there is one.
pub fn file_at(request: &Request, path: &SyntaxNode) -> Option<PathBuf> {
    let part = Source::Open(request.document).part(path.clone());
    paths::file_at(&request.sources.named(&part)?)
}

/// Returns the URI of the file that a path names, if there is one.
pub fn target_of(request: &Request, path: &SyntaxNode) -> Option<String> {
    uri_of_file(&file_at(request, path)?)
}

// Whether a text is the address of a page.
fn is_page(text: &str) -> bool {
    let rest = text.strip_prefix("https://").or_else(|| text.strip_prefix("http://"));
    let is_sign = |byte: u8| byte.is_ascii_graphic() && !b"\"'<>\\^`{|}".contains(&byte);
    rest.is_some_and(|rest| rest.starts_with(|c: char| c.is_ascii_alphanumeric()) && rest.bytes().all(is_sign))
}

// The page of a repository that an input of a flake names, as `github:NixOS/nixpkgs`.
fn page_of_input(text: &str) -> Option<String> {
    let (kind, path) = text.split_once(':')?;
    let host = match kind {
        "github" => "https://github.com",
        "gitlab" => "https://gitlab.com",
        _ => return None,
    };
    let path = path.split_once('?').map_or(path, |(path, _)| path);
    let mut parts = path.splitn(3, '/').filter(|part| !part.is_empty());
    let (owner, name) = (parts.next()?, parts.next()?);
    Some(format!("{host}/{owner}/{name}")).filter(|page| is_page(page))
}

// The address that a node is: without quotes, or in `"` without escapes and interpolations.
fn page(node: &SyntaxNode) -> Option<(TextRange, String)> {
    let (range, written) = (node.text_range(), node.element_ref().text());
    let (range, text) = match node.kind() {
        SyntaxKind::NODE_LITERAL => (range, written),
        SyntaxKind::NODE_STRING => {
            let quote = TextSize::of('"');
            let inner = TextRange::new(range.start() + quote, range.end() - quote);
            (inner, written.strip_prefix('"')?.strip_suffix('"')?)
        }
        _ => return None,
    };
    let page = if is_page(text) {
        text.to_owned()
    } else {
        page_of_input(text)?
    };
    Some((range, page))
}

// The range of a link at a node, and what it leads to.
fn link_at(node: SyntaxNode) -> Option<(TextRange, Target)> {
    if is_path(&node) {
        return Some((node.text_range(), Target::File(node)));
    }
    page(&node).map(|(range, page)| (range, Target::Page(page)))
}

/// Returns the response to `textDocument/documentLink`: the paths that name files, and the addresses of pages.
///
/// # Errors
/// None.
pub fn links(request: &Request) -> Outcome {
    let found = request.analysis.root().descendants().filter_map(link_at).take(MOST);
    let links = found.filter_map(|(range, target)| {
        let target = match target {
            Target::File(path) => target_of(request, &path)?,
            Target::Page(page) => page,
        };
        Some(object([("range", request.range(range)), ("target", target.into())]))
    });
    Ok(Value::Array(links.collect()))
}

#[cfg(test)]
mod tests {
    use super::{is_page, page_of_input};

    #[test]
    fn addresses_of_pages_are_found() {
        for text in ["https://a.b/c?d=e#f", "http://localhost:80/~x/(y)"] {
            assert!(is_page(text), "{text}");
        }
        for text in [
            "https://",
            "https:///x",
            "ftp://a.b",
            "https://a.b/ c",
            "https://a.b/${c}",
            "https://ä.b",
        ] {
            assert!(!is_page(text), "{text}");
        }
    }

    #[test]
    fn inputs_of_flakes_have_pages() {
        let page = |text| page_of_input(text);
        assert_eq!(
            page("github:NixOS/nixpkgs").unwrap(),
            "https://github.com/NixOS/nixpkgs"
        );
        assert_eq!(page("github:a/b/c/d?dir=e").unwrap(), "https://github.com/a/b");
        assert_eq!(page("gitlab:a/b").unwrap(), "https://gitlab.com/a/b");
        for text in ["github:a", "github:", "path:a/b", "github:a/ b", "nixpkgs"] {
            assert_eq!(page(text), None, "{text}");
        }
    }
}
