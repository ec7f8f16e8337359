//! A document in which a name is still to be typed.

use super::Document;
use crate::change::Change;
use crate::text::{Encoding, Text};
use std::cell::{OnceCell, RefCell};

/// What stands for the name: alone, and with what ends an entry.
const NAMES: [&str; 2] = ["x", "x;"];

impl Document {
    // The document with a text at an offset.
    fn with(&self, offset: usize, added: &str, encoding: Encoding) -> Document {
        let (before, after) = self.text.content().split_at(offset);
        let change = Change::new(offset..offset, added.len());
        let earlier = self.analysis().ok().map(|analysis| (analysis.parse.clone(), change));
        Document {
            uri: self.uri.clone(),
            version: None,
            text: Text::new(format!("{before}{added}{after}"), encoding),
            sent: RefCell::default(),
            file: self.file.clone(),
            summary: OnceCell::new(),
            is_new: false,
            is_lost: false,
            is_told: false,
            earlier: RefCell::new(earlier),
            analysis: OnceCell::new(),
        }
    }

    /// Returns the document as it becomes when a name is typed at an offset, with a semicolon if it has fewer errors then. Without a name, what follows may
    /// be read in another way.
    pub fn with_name(&self, offset: usize, encoding: Encoding) -> Option<Document> {
        let errors = |document: &Document| document.analysis().map_or(usize::MAX, |it| it.parse.errors().len());
        let documents = NAMES.iter().map(|name| self.with(offset, name, encoding));
        documents.min_by_key(errors)
    }
}
