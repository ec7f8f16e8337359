//! What is known of the files of the workspace.

use super::summary::Summary;
use std::collections::{BTreeMap, BTreeSet, HashMap};
use std::fs;
use std::os::unix::fs::MetadataExt;
use std::path::{Path, PathBuf};
use std::rc::Rc;

/// The index has this many files at most; others are left out.
const MOST_FILES: usize = 100_000;

/// What changes whenever a file does.
#[derive(Clone, Copy, Debug, PartialEq, Eq)]
pub struct Stamp {
    written: (i64, i64),
    changed: (i64, i64),
    bytes: u64,
    number: u64,
}

/// A file of the index.
#[derive(Debug)]
struct Indexed {
    stamp: Stamp,
    summary: Rc<Summary>,
    // The number of the last walk that found it.
    walk: usize,
}

/// The files of the workspace, by their paths without links.
#[derive(Debug, Default)]
pub struct Index {
    files: BTreeMap<PathBuf, Indexed>,
    // For each file or folder the files that call it.
    callers: HashMap<PathBuf, BTreeSet<PathBuf>>,
}

impl Stamp {
    /// Returns that of a regular file; a link is none.
    pub fn of(path: &Path) -> Option<Stamp> {
        let about = fs::symlink_metadata(path).ok().filter(|about| about.is_file())?;
        Some(Stamp {
            written: (about.mtime(), about.mtime_nsec()),
            changed: (about.ctime(), about.ctime_nsec()),
            bytes: about.len(),
            number: about.ino(),
        })
    }
}

impl Index {
    /// Returns the files with their summaries, in the order of their paths.
    pub fn files(&self) -> impl Iterator<Item = (&Path, &Rc<Summary>)> {
        self.files.iter().map(|(path, file)| (path.as_path(), &file.summary))
    }

    /// Returns whether a file is in the index.
    pub fn contains(&self, path: &Path) -> bool {
        self.files.contains_key(path)
    }

    /// Returns the summary of a file, if it is that of a stamp.
    pub fn summary(&self, path: &Path, stamp: Stamp) -> Option<&Rc<Summary>> {
        let file = self.files.get(path).filter(|file| file.stamp == stamp);
        file.map(|file| &file.summary)
    }

    /// Returns the paths that are called and are not those of files of the index, or of folders for which one of these stands.
    pub fn other_targets(&self) -> impl Iterator<Item = &Path> {
        let targets = self.callers.keys().map(PathBuf::as_path);
        targets.filter(|path| !self.is_called(path))
    }

    /// Returns whether a path is that of a file of the index, or of a folder for which one of these stands.
    pub fn is_called(&self, path: &Path) -> bool {
        self.contains(path) || self.contains(&path.join("default.nix"))
    }

    /// Returns the files that call a file or a folder.
    pub fn callers(&self, target: &Path) -> impl Iterator<Item = &Path> {
        let callers = self.callers.get(target).into_iter().flatten();
        callers.map(PathBuf::as_path)
    }

    /// Adds a file, or replaces what is known of it, unless there are too many.
    pub fn insert(&mut self, path: PathBuf, stamp: Stamp, summary: Summary, walk: usize) {
        if self.files.len() >= MOST_FILES && !self.files.contains_key(&path) {
            return;
        }
        self.remove(&path);
        for call in summary.calls.iter() {
            let callers = self.callers.entry(call.target.clone()).or_default();
            callers.insert(path.clone());
        }
        let summary = Rc::new(summary);
        self.files.insert(path, Indexed { stamp, summary, walk });
    }

    /// Marks a file as found by a walk.
    pub fn mark(&mut self, path: &Path, walk: usize) {
        if let Some(file) = self.files.get_mut(path) {
            file.walk = walk;
        }
    }

    /// Removes a file.
    pub fn remove(&mut self, path: &Path) {
        let Some(file) = self.files.remove(path) else {
            return;
        };
        for call in file.summary.calls.iter() {
            if let Some(callers) = self.callers.get_mut(&call.target) {
                callers.remove(path);
                if callers.is_empty() {
                    self.callers.remove(&call.target);
                }
            }
        }
    }

    // Removes the files in a folder that pass a test, and one of the path itself.
    fn remove_where(&mut self, folder: &Path, test: impl Fn(&Indexed) -> bool) {
        let inside = self.files.range(folder.to_owned()..);
        let inside = inside.take_while(|(path, _)| path.starts_with(folder));
        let gone: Vec<PathBuf> = inside
            .filter(|(_, file)| test(file))
            .map(|(path, _)| path.clone())
            .collect();
        gone.iter().for_each(|path| self.remove(path));
    }

    /// Removes the files in a folder, and one of the path itself.
    pub fn remove_below(&mut self, folder: &Path) {
        self.remove_where(folder, |_| true);
    }

    /// Removes the files in a folder that were last found before a walk.
    pub fn remove_before(&mut self, folder: &Path, walk: usize) {
        self.remove_where(folder, |file| file.walk < walk);
    }
}

#[cfg(test)]
mod tests {
    use super::super::summary::Call;
    use super::*;

    const STAMP: Stamp = Stamp {
        written: (0, 0),
        changed: (0, 0),
        bytes: 0,
        number: 0,
    };

    fn calling(targets: &[&str]) -> Summary {
        let call = |target: &&str| Call {
            target: PathBuf::from(target),
            arguments: Box::default(),
        };
        Summary {
            symbols: Box::default(),
            calls: targets.iter().map(call).collect(),
        }
    }

    fn callers(index: &Index, target: &str) -> Vec<String> {
        let callers = index.callers(Path::new(target));
        callers.map(|path| path.display().to_string()).collect()
    }

    #[test]
    fn callers_follow_the_files() {
        let mut index = Index::default();
        index.insert("/a".into(), STAMP, calling(&["/x", "/x", "/y"]), 1);
        index.insert("/b".into(), STAMP, calling(&["/x"]), 1);
        assert_eq!(callers(&index, "/x"), ["/a", "/b"]);
        index.insert("/a".into(), STAMP, calling(&["/y"]), 1);
        assert_eq!(callers(&index, "/x"), ["/b"]);
        index.remove(Path::new("/a"));
        index.remove(Path::new("/b"));
        assert!(index.callers.is_empty());
    }

    #[test]
    fn files_in_a_folder_are_removed_alone() {
        let mut index = Index::default();
        for path in ["/a/b/c", "/a/b/d/e", "/a/b-c", "/a/bc", "/a/b.nix"] {
            index.insert(path.into(), STAMP, Summary::default(), 1);
        }
        index.mark(Path::new("/a/b/c"), 2);
        index.remove_before(Path::new("/a/b"), 2);
        let paths = |index: &Index| {
            index
                .files()
                .map(|(path, _)| path.display().to_string())
                .collect::<Vec<_>>()
        };
        assert_eq!(paths(&index), ["/a/b/c", "/a/b-c", "/a/b.nix", "/a/bc"]);
        index.remove_below(Path::new("/a/b"));
        assert_eq!(paths(&index), ["/a/b-c", "/a/b.nix", "/a/bc"]);
    }
}
