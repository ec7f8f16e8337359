//! The texts of files, open or closed, for one request.

use crate::analysis::Analysis;
use crate::documents::{Document, Documents};
use crate::json::Value;
use crate::paths::{named, real, SearchPath};
use crate::protocol::location;
use crate::text::{Encoding, Text};
use crate::uri::{file_of, uri_of_file};
use rnix::{SyntaxNode, TextRange};
use std::cell::{Cell, RefCell};
use std::collections::HashMap;
use std::fs;
use std::path::{Path, PathBuf};
use std::rc::Rc;

/// A closed file with more bytes is not read: parsing it would take too long.
pub const MOST_BYTES: u64 = 2_000_000;

/// For one request, at most this many closed files are read, with so many bytes in all.
const MOST_FILES: usize = 30;
const MOST_BYTES_IN_ALL: u64 = 4_000_000;

/// A file that no document has open.
pub struct Closed {
    uri: String,
    text: Text,
    analysis: Analysis,
}

/// A file.
#[derive(Clone)]
pub enum Source<'a> {
    /// A document.
    Open(&'a Document),
    /// A file as the disk has it.
    Closed(Rc<Closed>),
}

/// A node of a file.
#[derive(Clone)]
pub struct Part<'a> {
    /// The file.
    pub source: Source<'a>,
    /// The node.
    pub node: SyntaxNode,
}

/// The files that a request looks at, each read once.
pub struct Sources<'a> {
    documents: &'a Documents,
    search: &'a SearchPath,
    encoding: Encoding,
    closed: RefCell<HashMap<PathBuf, Option<Rc<Closed>>>>,
    bytes_left: Cell<u64>,
}

/// Returns the text of a file, unless it is none, too large or not UTF-8. Reading anything but a regular file might wait forever.
pub fn read(path: &Path, most_bytes: u64) -> Option<String> {
    let about = fs::metadata(path).ok()?;
    let is_read = about.is_file() && about.len() <= most_bytes;
    is_read.then(|| fs::read_to_string(path).ok()).flatten()
}

impl<'a> Source<'a> {
    /// Returns the name of the file.
    pub fn uri(&self) -> &str {
        match self {
            Source::Open(document) => &document.uri,
            Source::Closed(closed) => &closed.uri,
        }
    }

    /// Returns the text.
    pub fn text(&self) -> &Text {
        match self {
            Source::Open(document) => &document.text,
            Source::Closed(closed) => &closed.text,
        }
    }

    /// Returns what is known of the text, unless memory runs out.
    pub fn analysis(&self) -> Option<&Analysis> {
        match self {
            Source::Open(document) => document.analysis().ok(),
            Source::Closed(closed) => Some(&closed.analysis),
        }
    }

    /// Returns the path of the file.
    pub fn path(&self) -> Option<PathBuf> {
        file_of(self.uri())
    }

    /// Returns the root of the tree.
    pub fn root(&self) -> Option<Part<'a>> {
        self.analysis().map(|analysis| self.part(analysis.root()))
    }

    /// Returns a node of this file.
    pub fn part(&self, node: SyntaxNode) -> Part<'a> {
        let source = self.clone();
        Part { source, node }
    }

    /// Returns a range of the file as JSON.
    pub fn location(&self, range: TextRange) -> Value {
        location(self.uri(), self.text(), range)
    }
}

impl Part<'_> {
    /// Returns the range of the node with the name of its file, as JSON.
    pub fn location(&self) -> Value {
        self.source.location(self.node.text_range())
    }
}

impl<'a> Sources<'a> {
    /// The files for a request.
    pub fn new(documents: &'a Documents, search: &'a SearchPath, encoding: Encoding) -> Sources<'a> {
        Sources {
            documents,
            search,
            encoding,
            closed: RefCell::default(),
            bytes_left: Cell::new(MOST_BYTES_IN_ALL),
        }
    }

    /// Returns the open documents.
    pub fn documents(&self) -> &'a Documents {
        self.documents
    }

    /// Returns what columns count.
    pub fn encoding(&self) -> Encoding {
        self.encoding
    }

    /// Returns the path that a node names.
    pub fn named(&self, part: &Part) -> Option<PathBuf> {
        named(&part.node, part.source.path()?.parent()?, self.search)
    }

    /// Returns the file of a path, as its document has it, if it is open.
    pub fn at(&self, path: &Path) -> Option<Source<'a>> {
        let file = real(path);
        if let Some(document) = self.documents.of_file(&file) {
            return (!document.is_lost()).then_some(Source::Open(document));
        }
        let known = self.closed.borrow().get(&file).cloned();
        let closed = known.unwrap_or_else(|| {
            let closed = self.closed_at(path).map(Rc::new);
            self.closed.borrow_mut().insert(file, closed.clone());
            closed
        });
        closed.map(Source::Closed)
    }

    // Reads a file, if not too many have been read.
    fn closed_at(&self, path: &Path) -> Option<Closed> {
        let left = self.bytes_left.get();
        let is_room = self.closed.borrow().len() < MOST_FILES;
        let text = is_room.then(|| read(path, left.min(MOST_BYTES))).flatten()?;
        self.bytes_left.set(left.saturating_sub(text.len() as u64));
        Some(Closed {
            uri: uri_of_file(path)?,
            analysis: Analysis::new(&text).ok()?,
            text: Text::new(text, self.encoding),
        })
    }
}
