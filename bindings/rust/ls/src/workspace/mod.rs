//! The files of the workspace: what the server knows of those that no document has open.
//!
//! An index of them is built in small steps while no message waits. It follows what the client says of files; before an answer names a place in a file,
//! the file must be as it was when the index saw it, or is read again.

mod globs;
mod ignores;
mod index;
pub mod summary;
mod walk;

use crate::documents::Documents;
use crate::json::{object, Value};
use crate::paths::{real, SearchPath};
use crate::sources::{read, Sources, MOST_BYTES};
use crate::text::{Encoding, Text};
use crate::uri::{file_of, uri_of_file};
use index::{Index, Stamp};
use rnix::Root;
use std::cell::RefCell;
use std::collections::{BTreeSet, VecDeque};
use std::fs;
use std::path::{Path, PathBuf};
use std::rc::Rc;
use summary::Summary;
use walk::{would_find, Walk};

/// For one answer, at most this many paths are looked at on the disk that may be links to a file.
const MOST_LINKS: usize = 1000;

/// A folder of the workspace.
#[derive(Clone, Debug, PartialEq, Eq)]
struct Folder {
    // The path by which the client names it, and the one without links.
    given: PathBuf,
    real: PathBuf,
}

/// The workspace.
#[derive(Default)]
pub struct Workspace {
    folders: Vec<Folder>,
    search: SearchPath,
    index: Index,
    walks: VecDeque<Walk>,
    // How many walks have begun.
    count: usize,
    // Files that are to be looked at, by their paths without links.
    found: VecDeque<PathBuf>,
    // Paths of which the client says that something has changed there.
    changed: VecDeque<PathBuf>,
    // Files that a request has found to be others than the index knows.
    stale: RefCell<Vec<PathBuf>>,
}

// The paths that are named in an array of folders.
fn paths_in(folders: Option<&Value>) -> Vec<PathBuf> {
    let folders = folders.and_then(Value::as_array).unwrap_or_default();
    let uris = folders.iter().filter_map(|folder| folder.get("uri")?.as_str());
    uris.filter_map(file_of).collect()
}

// The paths of the folders that the parameters of `initialize` name.
fn first_paths(params: &Value) -> Vec<PathBuf> {
    let folders = paths_in(params.get("workspaceFolders"));
    if !folders.is_empty() {
        return folders;
    }
    let root = params.get("rootUri").and_then(Value::as_str).and_then(file_of);
    root.into_iter().collect()
}

// A folder that a client names; the top of the disk is none, since it has everything.
fn folder_of(given: PathBuf) -> Option<Folder> {
    let real = given.canonicalize().ok()?;
    let is_folder = real.is_dir() && real.parent().is_some();
    is_folder.then_some(Folder { given, real })
}

// The paths by which a file is called: its own, and that of its folder if it stands for this.
fn targets_of(file: &Path) -> Vec<&Path> {
    let folder = file.parent().filter(|_| file.ends_with("default.nix"));
    std::iter::once(file).chain(folder).collect()
}

impl Workspace {
    /// Starts with the folders that the parameters of `initialize` name.
    pub fn new(params: &Value, search: SearchPath) -> Workspace {
        let mut workspace = Workspace {
            search,
            ..Workspace::default()
        };
        first_paths(params)
            .into_iter()
            .for_each(|path| workspace.add_folder(path));
        workspace
    }

    fn add_folder(&mut self, given: PathBuf) {
        let Some(folder) = folder_of(given).filter(|folder| !self.folders.contains(folder)) else {
            return;
        };
        self.walk_through(&folder.real);
        self.folders.push(folder);
    }

    // Adds a walk through a folder, unless one waits already.
    fn walk_through(&mut self, top: &Path) {
        let mut later = self.walks.iter().skip(1);
        if !later.any(|walk| walk.top == top) {
            self.count += 1;
            self.walks.push_back(Walk::new(top.to_owned(), self.count));
        }
    }

    /// Follows `workspace/didChangeWorkspaceFolders`.
    pub fn change_folders(&mut self, params: &Value) {
        for path in paths_in(params.at(&["event", "removed"])) {
            self.folders.retain(|folder| folder.given != path);
            let top = real(&path);
            self.walks.retain(|walk| walk.top != top);
            self.index.remove_below(&top);
        }
        let added = paths_in(params.at(&["event", "added"]));
        added.into_iter().for_each(|path| self.add_folder(path));
    }

    /// Follows `workspace/didChangeWatchedFiles`.
    pub fn files_changed(&mut self, params: &Value) {
        let changes = params.get("changes").and_then(Value::as_array).unwrap_or_default();
        let uris = changes.iter().filter_map(|change| change.get("uri")?.as_str());
        self.changed.extend(uris.filter_map(file_of));
    }

    /// Looks at a file again that is no longer open.
    pub fn closed(&mut self, uri: &str) {
        self.changed.extend(file_of(uri));
    }

    /// Looks at all files again, for a client that does not say which change.
    pub fn look_again(&mut self) {
        let tops: Vec<PathBuf> = self.folders.iter().map(|folder| folder.real.clone()).collect();
        tops.iter().for_each(|top| self.walk_through(top));
    }

    /// Looks for paths in `<>` by another search path from now on. If it differs, all files are summarized again.
    pub fn search_in(&mut self, search: &SearchPath) {
        if self.search != *search {
            self.search = search.clone();
            self.changed.retain(|path| !self.index.contains(path));
            self.changed.extend(self.index.files().map(|(path, _)| path.to_owned()));
        }
    }

    /// Does a small step of what is to be done. Returns whether there was something to do. No step takes much longer than to parse one file.
    pub fn step(&mut self, documents: &Documents, encoding: Encoding) -> bool {
        self.found.extend(self.stale.take());
        if let Some(path) = self.changed.pop_front() {
            self.forget_link(&path);
            self.follow(&real(&path), documents, encoding);
        } else if let Some(path) = self.found.pop_front() {
            self.look_at(path, documents, encoding);
        } else {
            return self.walk();
        }
        true
    }

    // Forgets the files at a path that is a link now, and no longer what it was.
    fn forget_link(&mut self, path: &Path) {
        let is_link = fs::symlink_metadata(path).is_ok_and(|about| about.is_symlink());
        if let (true, Some(folder), Some(name)) = (is_link, path.parent(), path.file_name()) {
            self.index.remove_below(&real(folder).join(name));
        }
    }

    // Follows a change at a path. What is left out may be other files than before, and a folder may have new ones.
    fn follow(&mut self, path: &Path, documents: &Documents, encoding: Encoding) {
        let tops: Vec<PathBuf> = self.folders.iter().map(|folder| folder.real.clone()).collect();
        let mut around = tops.iter().filter(|top| path.starts_with(top));
        let about = fs::symlink_metadata(path).ok();
        let is_folder = about.as_ref().is_some_and(|about| about.is_dir());
        if is_folder || path.ends_with(".gitignore") {
            around.for_each(|top| self.walk_through(top));
        } else if about.is_none() {
            self.index.remove_below(path);
        } else if self.index.contains(path) || around.any(|top| would_find(top, path)) {
            // Two changes within a tick of the clock may leave the same stamp.
            self.summarize(path.to_owned(), documents, encoding);
        }
    }

    // Summarizes a file, if it is not as the index knows it.
    fn look_at(&mut self, path: PathBuf, documents: &Documents, encoding: Encoding) {
        let stamp = Stamp::of(&path);
        let is_known = stamp.is_some_and(|stamp| self.index.summary(&path, stamp).is_some());
        if !is_known {
            self.summarize(path, documents, encoding);
        }
    }

    // Summarizes a file. What is no regular file is removed, and what cannot be read has no names. The text of an open one is another.
    fn summarize(&mut self, path: PathBuf, documents: &Documents, encoding: Encoding) {
        let Some(stamp) = Stamp::of(&path) else {
            return self.index.remove(&path);
        };
        if documents.of_file(&path).is_none() {
            let summary = self.summary_of(&path, encoding);
            let walk = self.walks.front().map_or(self.count, |walk| walk.number);
            self.index.insert(path, stamp, summary, walk);
        }
    }

    // The summary of a file as the disk has it.
    fn summary_of(&self, path: &Path, encoding: Encoding) -> Summary {
        let text = read(path, MOST_BYTES).map(|text| Text::new(text, encoding));
        let parsed = text.and_then(|text| Some((Root::try_parse(text.content()).ok()?.tree(), text)));
        match parsed {
            Some((root, text)) => Summary::new(root, &text, path.parent(), &self.search),
            None => Summary::default(),
        }
    }

    // Does a step of a walk.
    fn walk(&mut self) -> bool {
        let Some(walk) = self.walks.front_mut() else {
            return false;
        };
        match walk.step() {
            Some(files) => {
                let number = walk.number;
                files.iter().for_each(|file| self.index.mark(file, number));
                self.found.extend(files);
            }
            None => {
                self.index.remove_before(&walk.top, walk.number);
                self.walks.pop_front();
            }
        }
        true
    }

    /// Returns where the paths in `<>` are looked for.
    pub fn search(&self) -> &SearchPath {
        &self.search
    }

    /// Returns the closed files of the index, each with what was last known of it.
    pub fn files<'w>(&'w self, documents: &'w Documents) -> impl Iterator<Item = (&'w Path, &'w Rc<Summary>)> {
        let files = self.index.files();
        files.filter(|(path, _)| documents.of_file(path).is_none())
    }

    /// Returns the places that pass an argument to the function of a file, by its path without links.
    pub fn passed(&self, sources: &Sources, file: &Path, name: &str) -> Vec<Value> {
        let mut targets = targets_of(file);
        let links = self.links_to(&targets, sources.documents());
        targets.extend(links.iter().map(PathBuf::as_path));
        let callers = self.callers(&targets, sources);
        let places = callers.iter().flat_map(|(uri, summary)| {
            let spans = summary.passed(&targets, name);
            spans.map(move |span| object([("uri", uri.as_str().into()), ("range", span.value())]))
        });
        places.collect()
    }

    // The other paths by which files call one of some files or folders: through links, as these are now.
    fn links_to(&self, targets: &[&Path], documents: &Documents) -> Vec<PathBuf> {
        let summaries = documents.known().map(|document| Summary::of(document, &self.search));
        let open = summaries.flat_map(|summary| summary.calls.iter().map(|call| call.target.as_path()));
        let open = open.filter(|path| !self.index.is_called(path));
        let others: BTreeSet<&Path> = self.index.other_targets().chain(open).collect();
        let links = others
            .into_iter()
            .filter(|path| !targets.contains(path))
            .take(MOST_LINKS);
        let links = links.filter(|path| targets.contains(&real(path).as_path()));
        links.map(Path::to_owned).collect()
    }

    // The files that may call one of some files or folders, as they are now: open ones, and closed ones that were last known to do so.
    fn callers(&self, targets: &[&Path], sources: &Sources) -> Vec<(String, Rc<Summary>)> {
        let documents = sources.documents();
        let open = documents.known().map(|document| {
            let summary = Summary::of(document, &self.search);
            (document.uri.clone(), Rc::clone(summary))
        });
        let paths: BTreeSet<&Path> = targets.iter().flat_map(|target| self.index.callers(target)).collect();
        let paths = paths.into_iter().filter(|path| documents.of_file(path).is_none());
        let closed = paths.filter_map(|path| Some((self.uri(path)?, self.summary(path, sources.encoding()))));
        open.chain(closed).collect()
    }

    /// Returns what is known of a closed file as it is now.
    pub fn summary(&self, path: &Path, encoding: Encoding) -> Rc<Summary> {
        let known = Stamp::of(path).and_then(|stamp| self.index.summary(path, stamp));
        match known {
            Some(summary) => Rc::clone(summary),
            None => {
                self.stale.borrow_mut().push(path.to_owned());
                Rc::new(self.summary_of(path, encoding))
            }
        }
    }

    // The folder that a file is in, and the path from there.
    fn place<'w>(&'w self, path: &'w Path) -> Option<(&'w Folder, &'w Path)> {
        let place = |folder: &'w Folder| Some((folder, path.strip_prefix(&folder.real).ok()?));
        self.folders.iter().find_map(place)
    }

    /// Returns the URI of a file, under the name by which the client knows its folder.
    pub fn uri(&self, path: &Path) -> Option<String> {
        match self.place(path) {
            Some((folder, inside)) => uri_of_file(&folder.given.join(inside)),
            None => uri_of_file(path),
        }
    }

    /// Returns the path of a file from its folder of the workspace.
    pub fn inside<'w>(&'w self, path: &'w Path) -> &'w Path {
        self.place(path).map_or(path, |(_, inside)| inside)
    }
}
