//! The settings that the client sends, and what the server asks for.

use super::{Server, WARNING};
use crate::json::{array, object, Value};
use crate::outgoing::Purpose;
use crate::settings::SECTION;
use std::io::{self, Write};

/// So many complaints about settings wait to be sent.
const MOST_COMPLAINTS: usize = 100;

impl<W: Write> Server<W> {
    /// Takes settings. What is wrong with them is said later.
    pub(super) fn configure(&mut self, sent: &Value) {
        let room = MOST_COMPLAINTS.saturating_sub(self.complaints.len());
        let complaints = self.settings.change(sent);
        self.complaints.extend(complaints.into_iter().take(room));
    }

    /// Takes settings that have changed. A client that sends none wants to be asked.
    pub(super) fn settings_changed(&mut self, params: &Value) -> io::Result<()> {
        match params.get("settings") {
            None | Some(Value::Null) => self.ask_for_settings(),
            Some(sent) => self.apply_settings(sent),
        }
    }

    // Takes settings, and has the diagnostics and the index follow them.
    fn apply_settings(&mut self, sent: &Value) -> io::Result<()> {
        self.configure(sent);
        self.workspace.search_in(&self.settings.nix_path);
        self.documents.renew_all();
        if self.client.asks_for_diagnostics && self.client.takes_refresh {
            let refresh = self
                .outgoing
                .request(Purpose::Refresh, "workspace/diagnostic/refresh", Value::Null);
            self.send(&refresh)?;
        }
        Ok(())
    }

    /// Asks for the settings, if the client can be asked.
    pub(super) fn ask_for_settings(&mut self) -> io::Result<()> {
        if !self.client.has_configuration {
            return Ok(());
        }
        let params = object([("items", array([object([("section", SECTION.into())])]))]);
        let request = self
            .outgoing
            .request(Purpose::Settings, "workspace/configuration", params);
        self.send(&request)
    }

    /// Takes the answer to a request for the settings.
    pub(super) fn settings_answered(&mut self, answer: &Value) -> io::Result<()> {
        let items = answer.get("result").and_then(Value::as_array).unwrap_or_default();
        items.iter().try_for_each(|sent| self.apply_settings(sent))
    }

    /// Says one thing that is wrong with the settings. Returns whether there was one.
    pub(super) fn complain(&mut self) -> io::Result<bool> {
        let complaint = self.complaints.pop_front();
        if let Some(complaint) = &complaint {
            self.log_message(WARNING, complaint)?;
        }
        Ok(complaint.is_some())
    }

    /// Reads the file of options, and says if that fails. Returns whether it failed.
    pub(super) fn read_options(&mut self) -> io::Result<bool> {
        let failure = self.settings.options_failure();
        if let Some(failure) = &failure {
            self.log_message(WARNING, failure)?;
        }
        Ok(failure.is_some())
    }
}
