//! The messages of the client, read by a thread of its own.
//!
//! Messages that have arrived wait here, so that a request can still be cancelled, or be answered without an effort if the client has changed the
//! document since, and diagnostics are computed only once no message waits.

use crate::json::Value;
use crate::protocol::{uri_of, Code, Failure};
use crate::transport::{self, Frame};
use crate::uri::same;
use std::borrow::Cow;
use std::collections::VecDeque;
use std::io::{BufReader, Read};
use std::panic::{catch_unwind, AssertUnwindSafe};
use std::sync::{Arc, Condvar, Mutex, MutexGuard, PoisonError};
use std::thread;

/// No more messages are taken from the client while those that wait have this many bytes, or are this many.
const MOST_BYTES: usize = 1 << 24;
const MOST_WAITING: usize = 1000;

/// What the client has sent.
#[derive(Debug)]
pub enum Incoming {
    /// A message.
    Message(Value),
    /// A message with bytes that are not UTF-8, which are replaced.
    Damaged(Value),
    /// A request that the client has cancelled.
    Cancelled(Value),
    /// A request about a document that the client has changed since.
    Stale(Value),
    /// What is no message.
    Bad(Failure),
    /// The client is gone.
    End,
}

/// The messages that wait, each with its bytes.
#[derive(Default)]
struct Waiting {
    messages: VecDeque<(Incoming, usize)>,
    bytes: usize,
}

/// The messages that wait, and a signal when some have been added or taken.
#[derive(Default)]
struct Shared {
    waiting: Mutex<Waiting>,
    signal: Condvar,
}

/// The messages that wait.
pub struct Queue {
    shared: Arc<Shared>,
}

// A body as a message.
fn message(body: &[u8]) -> Incoming {
    let text = String::from_utf8_lossy(body);
    match Value::read(&text) {
        Ok(value) if matches!(text, Cow::Borrowed(_)) => Incoming::Message(value),
        Ok(value) => Incoming::Damaged(value),
        Err(error) => {
            let reason = format!("the message is not JSON: {} at byte {}", error.message, error.at);
            Incoming::Bad(Failure::new(Code::ParseError, reason))
        }
    }
}

fn bad(reason: &str) -> Incoming {
    Incoming::Bad(Failure::new(Code::ParseError, reason))
}

// Reads messages until the input ends.
fn read_all(input: impl Read, shared: &Shared) {
    let mut input = BufReader::new(input);
    // Whether the last message was none, so that bytes after it may be the rest of it.
    let mut was_bad = false;
    loop {
        let frame = transport::read(&mut input);
        if matches!(frame, Ok(Frame::Resumed(_))) && !was_bad {
            shared.add(bad("bytes that belong to no message come before a header"), 0);
        }
        let (incoming, bytes) = match frame {
            Ok(Frame::Body(body) | Frame::Resumed(body)) => (message(&body), body.len()),
            Ok(Frame::BadHeader) => {
                let reason = "a header has no Content-Length, or one that is no number or too large";
                (bad(reason), 0)
            }
            Ok(Frame::End) | Err(_) => return,
        };
        was_bad = matches!(incoming, Incoming::Bad(_));
        shared.add(incoming, bytes);
    }
}

// The id of the request that a message cancels.
fn cancelled(message: &Incoming) -> Option<Value> {
    match message {
        Incoming::Message(value) if value.get("method")?.as_str() == Some("$/cancelRequest") => {
            value.at(&["params", "id"]).cloned()
        }
        _ => None,
    }
}

// Whether a method tells what a text is. Such a message is not left out, whatever comes later, even if it has an id.
fn tells_text(method: &str) -> bool {
    matches!(method, "textDocument/didChange" | "textDocument/didOpen")
}

// Whether a message is the request of an id.
fn is_request(message: &Incoming, id: &Value) -> bool {
    match message {
        Incoming::Message(value) => {
            let method = value.get("method").and_then(Value::as_str);
            value.get("id") == Some(id) && method.is_some_and(|method| !tells_text(method))
        }
        _ => false,
    }
}

// The URI of the document that a message changes, or may have changed if it could be read.
fn changed(message: &Incoming) -> Option<&str> {
    match message {
        Incoming::Message(value) | Incoming::Damaged(value)
            if value.get("method")?.as_str() == Some("textDocument/didChange") =>
        {
            uri_of(value.get("params")?).ok()
        }
        _ => None,
    }
}

// The id of a message that asks about a document, or about any, and whose answer is of no use after a change of it. Clients use names that complete a
// word while more of it is typed.
fn passing(message: &Incoming, uri: Option<&str>) -> Option<Value> {
    let Incoming::Message(value) = message else {
        return None;
    };
    let method = value.get("method")?.as_str().filter(|method| !tells_text(method))?;
    let feature = method.strip_prefix("textDocument/")?;
    let own = uri_of(value.get("params")?).ok()?;
    let is_passing = feature != "completion" && uri.map_or(true, |uri| same(uri, own));
    value.get("id").filter(|_| is_passing).cloned()
}

impl Waiting {
    fn is_full(&self) -> bool {
        self.bytes >= MOST_BYTES || self.messages.len() >= MOST_WAITING
    }

    fn add(&mut self, incoming: Incoming, bytes: usize) {
        if let Some(id) = cancelled(&incoming) {
            let mut messages = self.messages.iter_mut();
            if let Some((message, _)) = messages.find(|(message, _)| is_request(message, &id)) {
                *message = Incoming::Cancelled(id);
            }
            return;
        }
        match (&incoming, changed(&incoming)) {
            (_, Some(uri)) => self.pass(Some(uri)),
            (Incoming::Bad(_), None) => self.pass(None),
            _ => {}
        }
        self.bytes += bytes;
        self.messages.push_back((incoming, bytes));
    }

    // Marks the requests about a document that changes now, or about any. Those before its last change have been marked.
    fn pass(&mut self, uri: Option<&str>) {
        for (message, _) in self.messages.iter_mut().rev() {
            if uri.is_some_and(|uri| changed(message).is_some_and(|changed| same(changed, uri))) {
                return;
            }
            if let Some(id) = passing(message, uri) {
                *message = Incoming::Stale(id);
            }
        }
    }

    fn take(&mut self) -> Option<Incoming> {
        let (incoming, bytes) = self.messages.pop_front()?;
        self.bytes -= bytes;
        Some(incoming)
    }
}

impl Shared {
    fn lock(&self) -> MutexGuard<'_, Waiting> {
        self.waiting.lock().unwrap_or_else(PoisonError::into_inner)
    }

    // Waits while the messages pass a test.
    fn wait_while(&self, test: impl Fn(&Waiting) -> bool) -> MutexGuard<'_, Waiting> {
        let waiting = self.signal.wait_while(self.lock(), |waiting| test(waiting));
        waiting.unwrap_or_else(PoisonError::into_inner)
    }

    // Adds a message once there is room.
    fn add(&self, incoming: Incoming, bytes: usize) {
        self.wait_while(Waiting::is_full).add(incoming, bytes);
        self.signal.notify_one();
    }
}

impl Queue {
    /// Starts to read an input.
    pub fn new(input: impl Read + Send + 'static) -> Queue {
        let shared = Arc::new(Shared::default());
        let reader = Arc::clone(&shared);
        thread::spawn(move || {
            // A fault in the reader ends the server, as the end of the input does.
            let _ = catch_unwind(AssertUnwindSafe(|| read_all(input, &reader)));
            reader.add(Incoming::End, 0);
        });
        Queue { shared }
    }

    /// Returns the next message that has arrived, or `None` if there is none now.
    pub fn next_now(&mut self) -> Option<Incoming> {
        let incoming = self.shared.lock().take();
        self.shared.signal.notify_one();
        incoming
    }

    /// Waits until a message arrives.
    pub fn wait(&mut self) {
        drop(self.shared.wait_while(|waiting| waiting.messages.is_empty()));
    }
}

#[cfg(test)]
mod tests {
    use super::*;

    // What becomes of messages, one letter for each: a message, stale or cancelled.
    fn kept(messages: &[&str]) -> String {
        let mut waiting = Waiting::default();
        for text in messages {
            waiting.add(message(text.as_bytes()), text.len());
        }
        let mut letters = String::new();
        while let Some(incoming) = waiting.take() {
            letters.push(match incoming {
                Incoming::Message(_) => 'm',
                Incoming::Stale(_) => 's',
                Incoming::Cancelled(_) => 'c',
                Incoming::Damaged(_) => 'd',
                Incoming::Bad(_) | Incoming::End => 'b',
            });
        }
        assert_eq!(waiting.bytes, 0);
        letters
    }

    fn about(method: &str, id: &str, uri: &str) -> String {
        format!("{{{id}\"method\":\"textDocument/{method}\",\"params\":{{\"textDocument\":{{\"uri\":\"{uri}\"}}}}}}")
    }

    #[test]
    fn a_request_is_stale_after_a_change_of_its_document() {
        let (hover, change) = (about("hover", "\"id\":1,", "a"), about("didChange", "", "a"));
        let tokens = about("semanticTokens/full/delta", "\"id\":\"x\",", "a");
        assert_eq!(kept(&[&change, &hover, &tokens]), "mmm");
        assert_eq!(kept(&[&hover, &change, &hover, &change, &tokens]), "smsmm");
        let (other, open) = (about("didChange", "", "b"), about("didOpen", "", "a"));
        assert_eq!(kept(&[&open, &hover, &other, &hover, &change, &other]), "msmsmm");
    }

    #[test]
    fn completion_is_never_stale() {
        let (names, change) = (about("completion", "\"id\":1,", "a"), about("didChange", "", "a"));
        assert_eq!(kept(&[&names, &change]), "mm");
    }

    #[test]
    fn what_tells_a_text_is_kept_even_with_an_id() {
        for method in ["didOpen", "didChange"] {
            let (tell, change) = (about(method, "\"id\":1,", "a"), about("didChange", "", "a"));
            assert_eq!(kept(&[&tell, &change, "{"]), "mmb");
            assert_eq!(
                kept(&[&tell, "{\"method\":\"$/cancelRequest\",\"params\":{\"id\":1}}"]),
                "m"
            );
        }
    }

    #[test]
    fn a_request_is_cancelled_by_its_id() {
        let (one, two) = (about("hover", "\"id\":1,", "a"), about("hover", "\"id\":\"1\",", "a"));
        let cancel = |id: &str| format!("{{\"method\":\"$/cancelRequest\",\"params\":{{\"id\":{id}}}}}");
        assert_eq!(kept(&[&one, &two, &cancel("\"1\""), &cancel("7")]), "mc");
        assert_eq!(kept(&[&one, &about("didChange", "", "a"), &cancel("1")]), "sm");
    }
}
