//! The parts of requests and responses.

use crate::json::{object, Value};
use crate::text::{Position, Text};
use rnix::{TextRange, TextSize};

/// Why a request is answered with an error, by the codes of the protocol.
#[derive(Clone, Copy, Debug, PartialEq, Eq)]
pub enum Code {
    /// The message is not JSON.
    ParseError = -32700,
    /// The message is no request, or comes at the wrong time.
    InvalidRequest = -32600,
    /// There is no such method.
    MethodNotFound = -32601,
    /// The parameters are not those of the method.
    InvalidParams = -32602,
    /// A fault of the server.
    InternalError = -32603,
    /// The request comes before `initialize`.
    ServerNotInitialized = -32002,
    /// The client has cancelled the request.
    RequestCancelled = -32800,
    /// The client has changed the document since the request.
    ContentModified = -32801,
    /// The request is valid, and cannot be done.
    RequestFailed = -32803,
}

/// An error as the answer of a request.
#[derive(Clone, Debug, PartialEq, Eq)]
pub struct Failure {
    /// The code.
    pub code: Code,
    /// The message for people.
    pub message: String,
}

/// The outcome of a request.
pub type Outcome = Result<Value, Failure>;

impl Failure {
    /// Creates a failure.
    pub fn new(code: Code, message: impl Into<String>) -> Failure {
        Failure {
            code,
            message: message.into(),
        }
    }

    /// Parameters that are not those of the method.
    pub fn params(message: &str) -> Failure {
        Failure::new(Code::InvalidParams, message)
    }

    /// What cannot be done, with the reason.
    pub fn refused(reason: impl Into<String>) -> Failure {
        Failure::new(Code::RequestFailed, reason)
    }
}

/// Returns the answer to a request.
pub fn response(id: Value, outcome: Outcome) -> Value {
    let (name, value) = match outcome {
        Ok(result) => ("result", result),
        Err(failure) => {
            let error = object([
                ("code", (failure.code as i64).into()),
                ("message", failure.message.into()),
            ]);
            ("error", error)
        }
    };
    object([("jsonrpc", "2.0".into()), ("id", id), (name, value)])
}

/// Returns a notification.
pub fn notification(method: &str, params: Value) -> Value {
    object([("jsonrpc", "2.0".into()), ("method", method.into()), ("params", params)])
}

/// Returns the URI of the document that parameters name.
///
/// # Errors
/// There is none.
pub fn uri_of(params: &Value) -> Result<&str, Failure> {
    let uri = params.at(&["textDocument", "uri"]).and_then(Value::as_str);
    uri.ok_or_else(|| Failure::params("textDocument.uri is missing"))
}

/// Returns a position.
///
/// # Errors
/// It is none.
pub fn position_of(value: Option<&Value>) -> Result<Position, Failure> {
    let count = |name| value.and_then(|value| value.get(name)).and_then(Value::as_count);
    match (count("line"), count("character")) {
        (Some(line), Some(column)) => Ok(Position { line, column }),
        _ => Err(Failure::params("a position has a line and a character, from 0 on")),
    }
}

/// Returns the start and the end of a range.
///
/// # Errors
/// It is none.
pub fn positions_of(range: &Value) -> Result<(Position, Position), Failure> {
    Ok((position_of(range.get("start"))?, position_of(range.get("end"))?))
}

/// Returns a range of a text.
///
/// # Errors
/// It is none.
pub fn range_of(text: &Text, range: Option<&Value>) -> Result<TextRange, Failure> {
    let range = range.ok_or_else(|| Failure::params("a range is missing"))?;
    let (start, end) = positions_of(range)?;
    let (start, end) = (size(text.offset(start)), size(text.offset(end)));
    Ok(TextRange::new(start.min(end), start.max(end)))
}

/// Returns an offset of a text; texts have fewer than 2^32 bytes.
pub fn size(offset: usize) -> TextSize {
    TextSize::try_from(offset).unwrap_or_default()
}

/// Returns a range of a text as JSON.
pub fn range(text: &Text, range: TextRange) -> Value {
    let at = |offset: TextSize| text.position(offset.into());
    Value::Range(at(range.start()), at(range.end()))
}

/// Returns a range of a document as JSON.
pub fn location(uri: &str, text: &Text, place: TextRange) -> Value {
    object([("uri", uri.into()), ("range", range(text, place))])
}
