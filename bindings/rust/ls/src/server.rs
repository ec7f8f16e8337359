//! The main loop of the server: it reads messages one by one, and responds to requests in their order.

mod configuration;
mod files;

use crate::client::Client;
use crate::documents::{lost, Documents};
use crate::features::{
    actions, completion, definition, diagnostics, folding, formatting, hover, links, navigation, rename, selection,
    symbols, tokens,
};
use crate::json::{object, Value};
use crate::outgoing::{Outgoing, Purpose};
use crate::protocol::{notification, response, uri_of, Code, Failure, Outcome};
use crate::queue::{Incoming, Queue};
use crate::request::Request;
use crate::settings::Settings;
use crate::sources::Sources;
use crate::transport;
use crate::workspace::Workspace;
use std::collections::VecDeque;
use std::io::{self, Read, Write};
use std::panic::{catch_unwind, AssertUnwindSafe};

/// The types of messages to the client.
const ERROR: usize = 1;
const WARNING: usize = 2;

/// Where the server is in its life.
#[derive(Clone, Copy, PartialEq, Eq)]
enum Stage {
    Started,
    Initialized,
    ShutDown,
}

/// A server with its open documents.
struct Server<W> {
    output: W,
    stage: Stage,
    client: Client,
    documents: Documents,
    settings: Settings,
    // What is to be said of the settings.
    complaints: VecDeque<String>,
    workspace: Workspace,
    outgoing: Outgoing,
}

/// Whether the server goes on, or ends with a status.
enum Next {
    Continue,
    End(u8),
}

// The function that returns the response to a request about a document.
fn feature(method: &str) -> Option<fn(&Request) -> Outcome> {
    Some(match method.strip_prefix("textDocument/")? {
        "codeAction" => actions::actions,
        "completion" => completion::completions,
        "definition" => definition::definition,
        "diagnostic" => diagnostics::asked,
        "documentHighlight" => navigation::highlights,
        "documentLink" => links::links,
        "documentSymbol" => symbols::symbols,
        "foldingRange" => folding::folds,
        "formatting" => formatting::whole,
        "hover" => hover::hover,
        "prepareRename" => rename::prepare,
        "rangeFormatting" => formatting::in_range,
        "references" => navigation::references,
        "rename" => rename::rename,
        "selectionRange" => selection::selections,
        "semanticTokens/full" => tokens::full,
        "semanticTokens/full/delta" => tokens::delta,
        "semanticTokens/range" => tokens::in_range,
        _ => return None,
    })
}

// Calls a function; its panic becomes an error.
fn guarded<T>(call: impl FnOnce() -> Result<T, Failure>) -> Result<T, Failure> {
    let fault = |_| Err(Failure::new(Code::InternalError, "a fault of the server"));
    catch_unwind(AssertUnwindSafe(call)).unwrap_or_else(fault)
}

impl<W: Write> Server<W> {
    fn send(&mut self, message: &Value) -> io::Result<()> {
        transport::write(&mut self.output, &message.written())
    }

    // Tells the client of what went wrong with a notification, which has no answer.
    fn log(&mut self, failure: &Failure) -> io::Result<()> {
        self.log_message(ERROR, &failure.message)
    }

    fn log_message(&mut self, kind: usize, message: &str) -> io::Result<()> {
        let message = format!("rnix-ls: {message}").into();
        let params = object([("type", kind.into()), ("message", message)]);
        self.send(&notification("window/logMessage", params))
    }

    // Returns the response to a request about a document or the workspace.
    fn ask(&self, method: &str, params: &Value) -> Outcome {
        let sources = Sources::new(&self.documents, self.workspace.search(), self.client.encoding);
        if let Some(feature) = files::feature(method) {
            return guarded(|| feature(&self.workspace, &sources, params));
        }
        let unknown = || Failure::new(Code::MethodNotFound, format!("there is no method {method}"));
        let feature = feature(method).ok_or_else(unknown)?;
        let document = self.documents.get(params)?;
        guarded(|| {
            feature(&Request {
                document,
                analysis: document.analysis()?,
                client: &self.client,
                settings: &self.settings,
                params,
                sources: &sources,
                workspace: &self.workspace,
            })
        })
    }

    fn initialize(&mut self, params: &Value) -> Value {
        self.stage = Stage::Initialized;
        self.client = Client::new(params);
        self.configure(params.get("initializationOptions").unwrap_or(&Value::Null));
        self.open_workspace(params);
        self.client.greeting()
    }

    // Asks the client for what it can be asked for.
    fn initialized(&mut self) -> io::Result<()> {
        self.ask_for_settings()?;
        self.watch_files()
    }

    // Takes the answer to a request of the server. What answers none is ignored.
    fn answered(&mut self, id: &Value, answer: &Value) -> io::Result<()> {
        match self.outgoing.answered(id) {
            Some(Purpose::Settings) => self.settings_answered(answer),
            Some(Purpose::WatchFiles) => {
                self.watching_answered(answer);
                Ok(())
            }
            Some(Purpose::Refresh) | None => Ok(()),
        }
    }

    fn request(&mut self, method: &str, params: &Value) -> Outcome {
        match (self.stage, method) {
            (Stage::Started, "initialize") => Ok(self.initialize(params)),
            (Stage::Started, _) => Err(Failure::new(Code::ServerNotInitialized, "`initialize` comes first")),
            (Stage::Initialized, "initialize") => {
                Err(Failure::new(Code::InvalidRequest, "`initialize` comes only once"))
            }
            (Stage::Initialized, "shutdown") => {
                self.stage = Stage::ShutDown;
                Ok(Value::Null)
            }
            (Stage::Initialized, _) => self.ask(method, params),
            (Stage::ShutDown, _) => Err(Failure::new(Code::InvalidRequest, "after `shutdown` only `exit` comes")),
        }
    }

    fn notified(&mut self, method: &str, params: &Value) -> io::Result<()> {
        let encoding = self.client.encoding;
        let outcome = match method {
            _ if self.stage != Stage::Initialized => Ok(()),
            "textDocument/didOpen" => guarded(|| self.documents.open(params, encoding)),
            "textDocument/didChange" => guarded(|| self.documents.change(params, encoding)),
            "textDocument/didClose" => return self.closed(params),
            "initialized" => return self.initialized(),
            "workspace/didChangeConfiguration" => return self.settings_changed(params),
            _ => {
                self.files_notified(method, params);
                Ok(())
            }
        };
        match outcome {
            Ok(()) => Ok(()),
            Err(failure) => self.report(&failure),
        }
    }

    // Logs what went wrong with a notification, but not what follows from a loss that has been reported, such as each further change.
    fn report(&mut self, failure: &Failure) -> io::Result<()> {
        if failure.code == Code::InternalError {
            self.documents.lose_all();
        }
        if failure.code != Code::RequestFailed {
            self.log(failure)?;
        }
        self.report_lost()
    }

    // Says of each document that has been lost why nothing is known of it, and removes its diagnostics.
    fn report_lost(&mut self) -> io::Result<()> {
        while let Some(uri) = self.documents.next_lost() {
            let params = object([("type", WARNING.into()), ("message", lost(&uri).message.into())]);
            self.send(&notification("window/showMessage", params))?;
            self.send(&notification(
                "textDocument/publishDiagnostics",
                diagnostics::none_for(&uri),
            ))?;
        }
        Ok(())
    }

    // A message that is not UTF-8 is refused.
    fn refuse_damaged(&mut self, message: &Value) -> io::Result<Next> {
        self.lose_by(message);
        let id = message.get("id").cloned().unwrap_or(Value::Null);
        let next = self.refuse(id, Code::ParseError, "the message is not UTF-8")?;
        self.report_lost()?;
        Ok(next)
    }

    // Marks what a message may have changed that is not carried out: a document that it names, or any if the name or the method cannot be read.
    fn lose_by(&mut self, message: &Value) {
        let readable = |text: &&str| !text.contains(char::REPLACEMENT_CHARACTER);
        let uri = message
            .get("params")
            .and_then(|params| uri_of(params).ok())
            .filter(readable);
        match (message.get("method").and_then(Value::as_str).filter(readable), uri) {
            (Some("textDocument/didChange" | "textDocument/didOpen"), Some(uri)) => self.documents.lose(uri),
            (Some("textDocument/didChange" | "textDocument/didOpen") | None, _) => self.documents.lose_all(),
            _ => {}
        }
    }

    // What is no message may have been a change of any document.
    fn refuse_bad(&mut self, failure: &Failure) -> io::Result<Next> {
        self.documents.lose_all();
        let next = self.refuse(Value::Null, failure.code, &failure.message)?;
        self.report_lost()?;
        Ok(next)
    }

    fn closed(&mut self, params: &Value) -> io::Result<()> {
        match self.documents.close(params) {
            Ok(uri) => {
                self.workspace.closed(&uri);
                let params = diagnostics::none_for(&uri);
                self.send(&notification("textDocument/publishDiagnostics", params))
            }
            Err(failure) => self.log(&failure),
        }
    }

    // Sends the diagnostics of one document that has changed. Returns whether there was one.
    fn publish(&mut self) -> io::Result<bool> {
        let Some(document) = self.documents.next_new().filter(|_| !self.client.asks_for_diagnostics) else {
            return Ok(false);
        };
        match guarded(|| diagnostics::published(document, &self.client, &self.settings)) {
            Ok(params) => self.send(&notification("textDocument/publishDiagnostics", params))?,
            Err(failure) => self.log(&failure)?,
        }
        Ok(true)
    }

    fn message(&mut self, message: &Value) -> io::Result<Next> {
        let (id, params) = (message.get("id"), message.get("params").unwrap_or(&Value::Null));
        match (message.get("method").and_then(Value::as_str), id) {
            (Some(method), Some(id)) => {
                let outcome = self.request(method, params);
                self.send(&response(id.clone(), outcome))?;
                // A notification that is sent as a request is not carried out.
                self.lose_by(message);
                self.report_lost()?;
            }
            (Some("exit"), None) => return Ok(Next::End(u8::from(self.stage != Stage::ShutDown))),
            (Some(method), None) => self.notified(method, params)?,
            (None, Some(id)) if message.get("result").or(message.get("error")).is_some() => {
                self.answered(id, message)?;
            }
            _ => {
                let failure = Failure::new(Code::InvalidRequest, "the message is no request");
                self.send(&response(Value::Null, Err(failure)))?;
                self.lose_by(message);
                self.report_lost()?;
            }
        }
        Ok(Next::Continue)
    }

    // Responds to a request that is not computed.
    fn refuse(&mut self, id: Value, code: Code, reason: &str) -> io::Result<Next> {
        self.send(&response(id, Err(Failure::new(code, reason))))?;
        Ok(Next::Continue)
    }

    fn take(&mut self, incoming: Incoming) -> io::Result<Next> {
        match incoming {
            Incoming::Message(message) => self.message(&message),
            Incoming::Cancelled(id) => self.refuse(id, Code::RequestCancelled, "the request was cancelled"),
            Incoming::Stale(id) => self.refuse(id, Code::ContentModified, "the document has changed since"),
            Incoming::Damaged(message) => self.refuse_damaged(&message),
            Incoming::Bad(failure) => self.refuse_bad(&failure),
            Incoming::End => Ok(Next::End(u8::from(self.stage != Stage::ShutDown))),
        }
    }

    // Does one step of what is to be done while no message waits. Returns whether there was one.
    fn work(&mut self) -> io::Result<bool> {
        for step in [Server::complain, Server::publish, Server::read_options, Server::index] {
            if step(self)? {
                return Ok(true);
            }
        }
        Ok(false)
    }

    fn serve(&mut self, queue: &mut Queue) -> io::Result<u8> {
        loop {
            if let Some(incoming) = queue.next_now() {
                if let Next::End(status) = self.take(incoming)? {
                    return Ok(status);
                }
            } else if !self.work()? {
                queue.wait();
            }
        }
    }
}

/// Serves a client until it ends the server or is gone. Returns the exit status: 0 after `shutdown`, and 1 otherwise.
pub fn serve(input: impl Read + Send + 'static, output: impl Write) -> u8 {
    let mut server = Server {
        output,
        stage: Stage::Started,
        client: Client::new(&Value::Null),
        documents: Documents::default(),
        settings: Settings::new(),
        complaints: VecDeque::new(),
        workspace: Workspace::default(),
        outgoing: Outgoing::default(),
    };
    server.serve(&mut Queue::new(input)).unwrap_or(1)
}

#[cfg(test)]
mod tests {
    use super::*;

    #[test]
    fn a_panic_becomes_an_error() {
        assert_eq!(guarded(|| Ok(1)).ok(), Some(1));
        let fault = guarded(|| -> Result<(), Failure> { panic!("a fault") });
        assert_eq!(fault.unwrap_err().code, Code::InternalError);
    }
}
