//! The diagnostics of a document: its errors, or what the lints find, and its unused names.

use super::findings::{finding, severity, shown, ERROR, HINT, WARNING};
use crate::client::Client;
use crate::documents::Document;
use crate::json::{array, object, object_of, Value};
use crate::protocol::{range, size, Failure, Outcome};
use crate::request::Request;
use crate::settings::Settings;
use rnix::diagnostics::Diagnostic;
use rnix::TextRange;
use std::collections::hash_map::DefaultHasher;
use std::hash::{Hash as _, Hasher as _};

const INFORMATION: usize = 3;

/// How many diagnostics a document has at most; one more says how many are left out.
const MOST: usize = 1000;

/// Returns what the server says of the diagnostics that clients ask for.
pub fn provider() -> Value {
    object([
        ("identifier", "rnix".into()),
        ("interFileDependencies", false.into()),
        ("workspaceDiagnostics", false.into()),
    ])
}

// The diagnostics of a document that the settings do not leave out.
fn listed(document: &Document, client: &Client, settings: &Settings) -> Result<Value, Failure> {
    let analysis = document.analysis()?;
    let found: Vec<&Diagnostic> = shown(analysis, settings).map(|(_, one)| one).collect();
    let of = |wanted| found.iter().copied().filter(move |one| severity(one) == wanted);
    // If some are left out, errors come before warnings, and these before hints.
    let ordered = [ERROR, WARNING, HINT].into_iter().flat_map(of);
    let first = ordered.map(|one| finding(document, analysis, client, one)).take(MOST);
    let left_out = found.len().saturating_sub(MOST);
    let rest = (left_out > 0).then(|| more(document, left_out));
    Ok(array(first.chain(rest)))
}

/// Returns the parameters of `textDocument/publishDiagnostics` for a document.
///
/// # Errors
/// Memory runs out.
pub fn published(document: &Document, client: &Client, settings: &Settings) -> Result<Value, Failure> {
    Ok(object_of([
        ("uri", Some(document.uri.as_str().into())),
        ("version", document.version.clone()),
        ("diagnostics", Some(listed(document, client, settings)?)),
    ]))
}

/// Returns the response to `textDocument/diagnostic`. Its name follows from the diagnostics: if the client has those of this name, they are not sent again.
///
/// # Errors
/// Memory runs out.
pub fn asked(request: &Request) -> Outcome {
    let items = listed(request.document, request.client, request.settings)?;
    let mut hasher = DefaultHasher::new();
    items.written().hash(&mut hasher);
    let name = format!("{:016x}", hasher.finish());
    let previous = request.params.get("previousResultId").and_then(Value::as_str);
    let is_known = previous == Some(name.as_str());
    let kind = if is_known { "unchanged" } else { "full" };
    Ok(object_of([
        ("kind", Some(kind.into())),
        ("resultId", Some(name.into())),
        ("items", (!is_known).then_some(items)),
    ]))
}

// The diagnostic that says how many others are left out, at the end of the text.
fn more(document: &Document, count: usize) -> Value {
    let end = TextRange::empty(size(document.text.content().len()));
    object([
        ("range", range(&document.text, end)),
        ("severity", INFORMATION.into()),
        ("source", "rnix".into()),
        (
            "message",
            format!("errors, warnings and unused names that are not shown: {count}").into(),
        ),
    ])
}

/// Returns the parameters that remove the diagnostics of a document.
pub fn none_for(uri: &str) -> Value {
    object([("uri", uri.into()), ("diagnostics", array([]))])
}
