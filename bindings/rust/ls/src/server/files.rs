//! The files of the workspace: requests about them, what the client says of them, and the index.

use super::{guarded, Server, Stage};
use crate::features::workspace_symbols;
use crate::json::{array, object, Value};
use crate::outgoing::Purpose;
use crate::protocol::Outcome;
use crate::sources::Sources;
use crate::workspace::Workspace;
use std::io::{self, Write};

/// The function that returns the response to a request about the workspace.
pub type Feature = fn(&Workspace, &Sources, &Value) -> Outcome;

/// Returns the function of a method, if it is about the workspace.
pub fn feature(method: &str) -> Option<Feature> {
    match method {
        "workspace/symbol" => Some(workspace_symbols::symbols),
        _ => None,
    }
}

// The parameters of a request that the client say which files change.
fn watched() -> Value {
    let watchers = ["**/*.nix", "**/.gitignore"].map(|pattern| object([("globPattern", pattern.into())]));
    let registration = object([
        ("id", "files".into()),
        ("method", "workspace/didChangeWatchedFiles".into()),
        ("registerOptions", object([("watchers", array(watchers))])),
    ]);
    object([("registrations", array([registration]))])
}

impl<W: Write> Server<W> {
    // Opens the folders that the parameters of `initialize` name.
    pub(super) fn open_workspace(&mut self, params: &Value) {
        self.workspace = Workspace::new(params, self.settings.nix_path.clone());
    }

    // Asks the client to say which files change, if it can.
    pub(super) fn watch_files(&mut self) -> io::Result<()> {
        if !self.client.watches_files {
            return Ok(());
        }
        let method = "client/registerCapability";
        let request = self.outgoing.request(Purpose::WatchFiles, method, watched());
        self.send(&request)
    }

    // Takes the answer on watching files. If the client does not watch them, they are looked at again after each save.
    pub(super) fn watching_answered(&mut self, answer: &Value) {
        if answer.get("error").is_some() {
            self.client.watches_files = false;
        }
    }

    // Follows what the client says of files. One that does not say which change may have changed some when it saves one.
    pub(super) fn files_notified(&mut self, method: &str, params: &Value) {
        match method {
            "textDocument/didSave" if !self.client.watches_files => self.workspace.look_again(),
            "workspace/didChangeWatchedFiles" => self.workspace.files_changed(params),
            "workspace/didChangeWorkspaceFolders" => self.workspace.change_folders(params),
            _ => {}
        }
    }

    // Does a step of the index. Returns whether there was something to do.
    pub(super) fn index(&mut self) -> io::Result<bool> {
        if self.stage != Stage::Initialized {
            return Ok(false);
        }
        let (workspace, documents, encoding) = (&mut self.workspace, &self.documents, self.client.encoding);
        match guarded(|| Ok(workspace.step(documents, encoding))) {
            Ok(has_step) => Ok(has_step),
            Err(failure) => self.log(&failure).map(|()| true),
        }
    }
}
