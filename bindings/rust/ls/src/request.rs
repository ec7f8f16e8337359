//! A request about an open document.

use crate::analysis::{Analysis, Name};
use crate::client::Client;
use crate::documents::Document;
use crate::edits::{self, Edit};
use crate::json::{array, object, Value};
use crate::protocol::{location, position_of, range, size, Failure};
use crate::settings::Settings;
use crate::sources::{Part, Source, Sources};
use crate::text::Text;
use crate::workspace::Workspace;
use rnix::{SyntaxNode, TextRange, TextSize};

/// A request about a document.
pub struct Request<'a> {
    /// The document.
    pub document: &'a Document,
    /// Its tree and names.
    pub analysis: &'a Analysis,
    /// What the client can do.
    pub client: &'a Client,
    /// What the user has set.
    pub settings: &'a Settings,
    /// The parameters.
    pub params: &'a Value,
    /// The other files.
    pub sources: &'a Sources<'a>,
    /// What is known of the files of the workspace.
    pub workspace: &'a Workspace,
}

impl Request<'_> {
    /// Returns the text of the document.
    pub fn text(&self) -> &Text {
        &self.document.text
    }

    /// Returns the offset of the position that the parameters name.
    ///
    /// # Errors
    /// They name none.
    pub fn offset(&self) -> Result<TextSize, Failure> {
        let position = position_of(self.params.get("position"))?;
        Ok(size(self.text().offset(position)))
    }

    /// Returns the name at the position that the parameters name.
    ///
    /// # Errors
    /// They name no position.
    pub fn name(&self) -> Result<Option<Name>, Failure> {
        Ok(self.analysis.name_at(self.offset()?))
    }

    /// Returns a range of the document as JSON.
    pub fn range(&self, place: TextRange) -> Value {
        range(self.text(), place)
    }

    /// Returns a range of the document with its URI as JSON.
    pub fn location(&self, place: TextRange) -> Value {
        location(&self.document.uri, self.text(), place)
    }

    /// Returns the number of the line of an offset, counted from 1.
    pub fn line_number(&self, offset: TextSize) -> usize {
        self.text().line_at(offset.into()) + 1
    }

    /// Returns a node of the document.
    pub fn part(&self, node: SyntaxNode) -> Part<'_> {
        Source::Open(self.document).part(node)
    }

    /// Returns the line of a node in words, with the file if that is another one.
    pub fn line_of(&self, part: &Part) -> String {
        let line = part.source.text().line_at(part.node.text_range().start().into()) + 1;
        if part.source.uri() == self.document.uri {
            return format!("line {line}");
        }
        let file = part.source.path().unwrap_or_default();
        format!("line {line} of {}", self.workspace.inside(&file).display())
    }

    /// Returns edits of the document.
    pub fn edits(&self, edits: &[Edit]) -> Value {
        array(edits.iter().map(|(place, new)| edits::shown(self.text(), *place, new)))
    }

    /// Returns edits of the document as a workspace edit.
    pub fn workspace_edit(&self, edits: &[Edit]) -> Value {
        let edits = self.edits(edits);
        let uri = self.document.uri.as_str();
        if !self.client.takes_versions {
            let changes = Value::Object(vec![(uri.to_owned().into(), edits)]);
            return object([("changes", changes)]);
        }
        let version = self.document.version.clone().unwrap_or(Value::Null);
        let document = object([("uri", uri.into()), ("version", version)]);
        let change = object([("textDocument", document), ("edits", edits)]);
        object([("documentChanges", array([change]))])
    }
}
