//! The documents that the client has open.

use crate::analysis::Analysis;
use crate::change::Change;
use crate::features::delta::Sent;
use crate::json::Value;
use crate::paths::real;
use crate::protocol::{positions_of, uri_of, Failure};
use crate::text::{Encoding, Text};
use crate::uri::{canonical, file_of};
use crate::workspace::summary::Summary;
use rnix::{Parse, Root};
use std::cell::{OnceCell, RefCell};
use std::collections::HashMap;
use std::path::{Path, PathBuf};
use std::rc::Rc;

mod unfinished;

/// An open document.
pub struct Document {
    /// Its name.
    pub uri: String,
    /// Its version, as the client counts.
    pub version: Option<Value>,
    /// Its text.
    pub text: Text,
    /// The semantic tokens that the client has, maybe those of an earlier version.
    pub sent: RefCell<Option<Sent>>,
    /// The path of the file without links, if it is one.
    pub file: Option<PathBuf>,
    /// What the text gives to other files, once it has been looked at.
    pub summary: OnceCell<Rc<Summary>>,
    // Whether the text has changed since its diagnostics were sent.
    is_new: bool,
    // Whether a change could not be applied, so that the client has another text; and whether the client knows that.
    is_lost: bool,
    is_told: bool,
    // The parse of the last text that was parsed, and how it has changed since; none if the whole text was replaced.
    earlier: RefCell<Option<(Parse<Root>, Change)>>,
    analysis: OnceCell<Result<Analysis, Failure>>,
}

/// The open documents.
#[derive(Default)]
pub struct Documents {
    open: HashMap<String, Document>,
    // The names of the documents of files, by their paths without links.
    files: HashMap<PathBuf, String>,
}

impl Document {
    /// Returns what is known of the text. It is parsed from the parse of an earlier text, if there is one.
    ///
    /// # Errors
    /// Memory runs out.
    pub fn analysis(&self) -> Result<&Analysis, Failure> {
        let text = self.text.content();
        let analysis = self.analysis.get_or_init(|| match self.earlier.take() {
            Some((parse, change)) => Analysis::after(&parse, &change, text),
            None => Analysis::new(text),
        });
        analysis.as_ref().map_err(Failure::clone)
    }

    /// Returns whether the text is not known.
    pub fn is_lost(&self) -> bool {
        self.is_lost
    }

    // Applies one change of the text: a new text, or one for a range.
    fn apply(&mut self, change: &Value, encoding: Encoding) -> Result<(), Failure> {
        let new = change.get("text").and_then(Value::as_str);
        let new = new.ok_or_else(|| Failure::params("a change has no text"))?;
        match change.get("range") {
            None | Some(Value::Null) => {
                self.text = Text::new(new.to_owned(), encoding);
                self.forget();
                self.earlier.take();
            }
            Some(range) => {
                let (start, end) = positions_of(range)?;
                let change = self.text.replace(start, end, new);
                self.keep(change);
            }
        }
        Ok(())
    }

    // Applies changes in order, from the last one that is a whole text on.
    fn apply_all(&mut self, changes: &[Value], encoding: Encoding) -> Result<(), Failure> {
        let is_whole = |change: &Value| matches!(change.get("range"), None | Some(Value::Null));
        let whole = changes.iter().rposition(is_whole);
        if self.is_lost && whole.is_none() {
            return Err(lost(&self.uri));
        }
        changes[whole.unwrap_or(0)..]
            .iter()
            .try_for_each(|change| self.apply(change, encoding))
    }

    fn lose(&mut self) {
        self.is_told = self.is_lost && self.is_told;
        self.is_lost = true;
        self.is_new = false;
    }

    // Forgets what is known of the text.
    fn forget(&mut self) -> Option<Analysis> {
        self.summary.take();
        self.analysis.take()?.ok()
    }

    // Keeps the parse of the text before a change.
    fn keep(&mut self, change: Change) {
        let earlier = match (self.forget(), self.earlier.take()) {
            (Some(analysis), _) => Some((analysis.parse, change)),
            (None, Some((parse, earlier))) => Some((parse, earlier.then(&change))),
            (None, None) => None,
        };
        self.earlier = RefCell::new(earlier);
    }
}

impl Documents {
    /// Opens a document.
    ///
    /// # Errors
    /// The parameters have no name or no text. The text of a document with the name that is open already is not known then.
    pub fn open(&mut self, params: &Value, encoding: Encoding) -> Result<(), Failure> {
        let uri = uri_of(params)?.to_owned();
        let name = canonical(&uri);
        let Some(text) = params.at(&["textDocument", "text"]).and_then(Value::as_str) else {
            if let Some(document) = self.open.get_mut(&name) {
                document.lose();
            }
            return Err(Failure::params("textDocument.text is missing"));
        };
        let file = file_of(&uri).map(|path| real(&path));
        if let Some(file) = &file {
            self.files.insert(file.clone(), name.clone());
        }
        let document = Document {
            uri,
            file,
            version: params.at(&["textDocument", "version"]).cloned(),
            text: Text::new(text.to_owned(), encoding),
            sent: RefCell::default(),
            is_new: true,
            is_lost: false,
            is_told: false,
            earlier: RefCell::default(),
            analysis: OnceCell::new(),
            summary: OnceCell::new(),
        };
        self.open.insert(name, document);
        Ok(())
    }

    /// Applies changes to a document, in order.
    ///
    /// # Errors
    /// The document is not open, or a change is malformed. The client then has another text, so the document is lost until a whole text comes.
    pub fn change(&mut self, params: &Value, encoding: Encoding) -> Result<(), Failure> {
        let Ok(uri) = uri_of(params) else {
            self.lose_all();
            return uri_of(params).map(|_| ());
        };
        let document = self.open.get_mut(&canonical(uri)).ok_or_else(not_open)?;
        let changes = params.get("contentChanges").and_then(Value::as_array);
        let changes = changes.ok_or_else(|| Failure::params("contentChanges is missing"));
        let outcome = changes.and_then(|changes| document.apply_all(changes, encoding));
        match outcome {
            Ok(()) => {
                document.version = params.at(&["textDocument", "version"]).cloned();
                (document.is_new, document.is_lost) = (true, false);
            }
            Err(_) => document.lose(),
        }
        outcome
    }

    /// Marks a document as lost, whose text may have changed in a way that is not known, if it is open.
    pub fn lose(&mut self, uri: &str) {
        self.open.get_mut(&canonical(uri)).into_iter().for_each(Document::lose);
    }

    /// Marks all documents as lost.
    pub fn lose_all(&mut self) {
        self.open.values_mut().for_each(Document::lose);
    }

    /// Returns the name of a lost document, once for each time that it is lost.
    pub fn next_lost(&mut self) -> Option<String> {
        let document = self
            .open
            .values_mut()
            .find(|document| document.is_lost && !document.is_told)?;
        document.is_told = true;
        Some(document.uri.clone())
    }

    /// Closes a document, and returns its name.
    ///
    /// # Errors
    /// It is not open.
    pub fn close(&mut self, params: &Value) -> Result<String, Failure> {
        let name = canonical(uri_of(params)?);
        let document = self.open.remove(&name).ok_or_else(not_open)?;
        self.files.retain(|_, other| *other != name);
        Ok(document.uri)
    }

    /// Returns the document that parameters name.
    ///
    /// # Errors
    /// It is not open, or lost.
    pub fn get(&self, params: &Value) -> Result<&Document, Failure> {
        let document = self.open.get(&canonical(uri_of(params)?)).ok_or_else(not_open)?;
        if document.is_lost {
            return Err(lost(&document.uri));
        }
        Ok(document)
    }

    /// Has what settings decide be found again: the diagnostics of all documents, except of those that are lost, and the files that they call.
    pub fn renew_all(&mut self) {
        for document in self.open.values_mut() {
            document.is_new = !document.is_lost;
            document.summary.take();
        }
    }

    /// Returns the document of a file, by its path without links.
    pub fn of_file(&self, file: &Path) -> Option<&Document> {
        self.open.get(self.files.get(file)?)
    }

    /// Returns the documents whose texts are known, in the order of their names.
    pub fn known(&self) -> impl Iterator<Item = &Document> {
        let mut known: Vec<&Document> = self.open.values().filter(|document| !document.is_lost).collect();
        known.sort_by_key(|document| &document.uri);
        known.into_iter()
    }

    /// Returns a document whose diagnostics are to be sent, once for each change.
    pub fn next_new(&mut self) -> Option<&Document> {
        let document = self.open.values_mut().find(|document| document.is_new)?;
        document.is_new = false;
        Some(document)
    }
}

fn not_open() -> Failure {
    Failure::params("the document is not open")
}

/// Why requests about a document are refused.
pub fn lost(uri: &str) -> Failure {
    Failure::refused(format!(
        "a message that may have changed {uri} could not be read, so the server no longer knows its text: close it and open it again"
    ))
}

#[cfg(test)]
mod tests;
