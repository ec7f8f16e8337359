//! Paths of files, and the files that paths in a text name.

use rnix::{SyntaxKind, SyntaxNode};
use std::path::{Component, Path, PathBuf};

/// What `NIX_PATH` says: where the paths in `<>` are looked for, in order.
#[derive(Clone, Debug, Default, PartialEq, Eq)]
pub struct SearchPath {
    // What a path begins with, and the folder or file that stands for it. Without a beginning, it is a folder that has the path.
    entries: Vec<(String, PathBuf)>,
}

/// Returns a path without `.` and `..`. A link to a folder is not followed, as Nix does not follow it either when it joins paths.
pub fn plain(path: &Path) -> PathBuf {
    let mut made = PathBuf::new();
    for part in path.components() {
        match part {
            Component::CurDir => {}
            Component::ParentDir => {
                made.pop();
            }
            part => made.push(part),
        }
    }
    made
}

/// Returns the path of a file without links, which all its names share. For a file that does not exist, this is its name in its folder.
pub fn real(path: &Path) -> PathBuf {
    let in_folder = || Some(path.parent()?.canonicalize().ok()?.join(path.file_name()?));
    let found = path.canonicalize().ok();
    found.or_else(in_folder).unwrap_or_else(|| plain(path))
}

/// Returns the file that a path leads to: the default.nix in a folder. Returns `None` if there is none.
pub fn file_at(path: &Path) -> Option<PathBuf> {
    if !std::fs::metadata(path).ok()?.is_dir() {
        return Some(path.to_owned());
    }
    Some(path.join("default.nix")).filter(|file| file.is_file())
}

/// Returns whether a node is a path without interpolation, and not one in the home folder.
pub fn is_path(node: &SyntaxNode) -> bool {
    use SyntaxKind::*;
    let is_path = matches!(node.kind(), NODE_PATH_ABS | NODE_PATH_REL | NODE_PATH_SEARCH);
    is_path && node.children().next().is_none()
}

/// Returns the path that a node names in a file of a folder. One in `<>` is looked for on the disk.
pub fn named(node: &SyntaxNode, folder: &Path, search: &SearchPath) -> Option<PathBuf> {
    let text = Some(node).filter(|node| is_path(node))?.to_string();
    match text.strip_prefix('<') {
        Some(name) => search.find(name.strip_suffix('>')?),
        None => Some(plain(&folder.join(text))),
    }
}

// An entry of the search path: a beginning and a path, or a path alone. What is no absolute path, such as a URL or a channel, is left out.
fn entry_of(text: &str) -> Option<(String, PathBuf)> {
    let (prefix, path) = text.split_once('=').unwrap_or(("", text));
    path.starts_with('/')
        .then(|| (prefix.to_owned(), plain(Path::new(path))))
}

// What a name such as `nixpkgs/lib` leads to in an entry of the search path, if it begins with the beginning of the entry.
fn below(prefix: &str, path: &Path, name: &str) -> Option<PathBuf> {
    let rest = match name.strip_prefix(prefix)? {
        rest if prefix.is_empty() => rest,
        "" => return Some(path.to_owned()),
        rest => rest.strip_prefix('/')?,
    };
    Some(plain(&path.join(rest)))
}

impl SearchPath {
    /// Reads the value of `NIX_PATH`.
    pub fn new(text: &str) -> SearchPath {
        // What follows the colon of a URL is no entry: it begins with `//`.
        SearchPath::of(text.split(':').filter(|entry| !entry.starts_with("//")))
    }

    /// Reads entries such as `nixpkgs=/home/me/nixpkgs`.
    pub fn of<'e>(entries: impl Iterator<Item = &'e str>) -> SearchPath {
        SearchPath {
            entries: entries.filter_map(entry_of).collect(),
        }
    }

    /// Returns the first file or folder that has a name such as `nixpkgs/lib`.
    pub fn find(&self, name: &str) -> Option<PathBuf> {
        self.candidates(name).find(|path| path.exists())
    }

    /// Returns what a name may lead to, which need not exist.
    pub fn candidates<'s>(&'s self, name: &'s str) -> impl Iterator<Item = PathBuf> + 's {
        let entries = self.entries.iter();
        entries.filter_map(move |(prefix, path)| below(prefix, path, name))
    }
}

#[cfg(test)]
mod tests {
    use super::*;

    #[test]
    fn paths_are_joined_without_the_disk() {
        assert_eq!(plain(Path::new("/a/./b/../c/")), PathBuf::from("/a/c"));
        assert_eq!(plain(Path::new("/../a")), PathBuf::from("/a"));
    }

    #[test]
    fn the_search_path_has_entries_with_and_without_a_beginning() {
        let room = std::env::temp_dir().join(format!("rnix-search-{}", std::process::id()));
        std::fs::create_dir_all(room.join("all/pkgs/lib")).unwrap();
        std::fs::create_dir_all(room.join("other")).unwrap();
        let at = |path: &str| room.join(path);
        let shown = |path: &str| at(path).display().to_string();
        let text = format!(
            "nixpkgs={}:none=https://a.b/c:gone=/none:{}",
            shown("all/pkgs"),
            shown("")
        );
        let search = SearchPath::new(&text);
        assert_eq!(search.find("nixpkgs"), Some(at("all/pkgs")));
        assert_eq!(search.find("nixpkgs/lib"), Some(at("all/pkgs/lib")));
        assert_eq!(search.find("nixpkgs-unstable"), None);
        assert_eq!(search.find("other"), Some(at("other")));
        assert_eq!(search.find("gone"), None);
        assert_eq!(search.find("none"), None);
        std::fs::remove_dir_all(room).unwrap();
    }
}
