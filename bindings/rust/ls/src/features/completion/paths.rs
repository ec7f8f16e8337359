//! The files in the folder of a path that is being typed.

use super::Item;
use crate::paths::plain;
use crate::protocol::size;
use crate::request::Request;
use crate::uri::file_of;
use rnix::{SyntaxKind, TextRange, TextSize};
use std::path::PathBuf;

const FILE: usize = 17;
const FOLDER: usize = 19;

/// So many entries of a folder are looked at.
const MOST: usize = 10_000;

// Whether a character may be in a path without quotes.
fn is_path(character: char) -> bool {
    character.is_ascii_alphanumeric() || "._-+".contains(character)
}

// The path that a text ends with, if one is being typed: with what is known of the folder.
fn typed(text: &str) -> Option<&str> {
    let start = text
        .trim_end_matches(|character| is_path(character) || "/~<".contains(character))
        .len();
    let path = &text[start..];
    let begins = ["./", "../", "/", "~/", "<"].iter().any(|sign| path.starts_with(sign));
    // A `/` alone is an operator more often than a path.
    (begins && path.contains('/') && !path.contains("//") && path != "/").then_some(path)
}

// Whether an offset is in a comment or a string.
fn is_in_text(request: &Request, offset: TextSize) -> bool {
    use SyntaxKind::*;
    let token = request.analysis.tokens_at(offset).next();
    token.is_some_and(|token| {
        matches!(
            token.kind(),
            TOKEN_COMMENT | TOKEN_STRING_CONTENT | TOKEN_STRING_START | TOKEN_URI
        )
    })
}

// The folder that a path up to its last `/` names.
fn folder(request: &Request, path: &str) -> Option<PathBuf> {
    if let Some(path) = path.strip_prefix('<') {
        let mut folders = request.workspace.search().candidates(path.trim_end_matches('/'));
        return folders.find(|folder| folder.is_dir());
    }
    if let Some(path) = path.strip_prefix("~/") {
        return Some(PathBuf::from(std::env::var_os("HOME")?).join(path));
    }
    let document = file_of(&request.document.uri)?;
    Some(plain(&document.parent()?.join(path)))
}

fn item(entry: &std::fs::DirEntry, is_hidden: bool) -> Option<Item> {
    let name = entry.file_name().into_string().ok()?;
    let is_folder = std::fs::metadata(entry.path()).is_ok_and(|about| about.is_dir());
    let is_shown = name.chars().all(is_path) && name.starts_with('.') == is_hidden;
    let (kind, detail) = if is_folder { (FOLDER, "folder") } else { (FILE, "file") };
    is_shown.then(|| Item::new(&name, kind, detail.to_owned()))
}

/// Returns what is in the folder of the path that ends at an offset, and the range of what has been typed of its last name, if a path is being typed there.
pub fn items(request: &Request, offset: TextSize) -> Option<(Vec<Item>, TextRange)> {
    let line = request.text().line(request.text().line_at(offset.into()));
    let text = &request.text().content()[line.start..offset.into()];
    let path = typed(text).filter(|_| !is_in_text(request, offset))?;
    let (before, last) = path.rsplit_once('/')?;
    let entries = folder(request, &format!("{before}/")).and_then(|folder| std::fs::read_dir(folder).ok());
    let entries = entries.into_iter().flatten().take(MOST).filter_map(Result::ok);
    let items = entries
        .filter_map(|entry| item(&entry, last.starts_with('.')))
        .collect();
    Some((items, TextRange::new(offset - size(last.len()), offset)))
}

#[cfg(test)]
mod tests {
    use super::typed;

    #[test]
    fn a_path_that_is_typed_is_found() {
        for (text, path) in [
            ("import ./", "./"),
            ("[ ../a-b/c.n", "../a-b/c.n"),
            ("a = /etc/", "/etc/"),
            ("~/x", "~/x"),
            ("import <nixpkgs/", "<nixpkgs/"),
        ] {
            assert_eq!(typed(text), Some(path));
        }
        for text in [
            "",
            "a",
            "a/",
            "a.b/",
            "a/b",
            ".",
            "..",
            "a //",
            "a /",
            "a ./${b}/",
            "<nixpkgs",
            "a <",
        ] {
            assert_eq!(typed(text), None, "{text}");
        }
    }
}
