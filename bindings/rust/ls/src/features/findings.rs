//! What is wrong with a text, as the protocol writes it.

use crate::analysis::{name_text, Analysis};
use crate::client::Client;
use crate::documents::Document;
use crate::json::{array, object, object_of, Value};
use crate::protocol::{location, range};
use crate::settings::Settings;
use rnix::diagnostics::{Diagnostic, Note, Severity};
use std::borrow::Cow;

/// The code of names that nothing uses.
pub const UNUSED: &str = "unused-name";

/// The severity of what Nix refuses.
pub const ERROR: usize = 1;

/// The severity of what is probably a mistake, or could be said in fewer words.
pub const WARNING: usize = 2;

/// The severity of unused names.
pub const HINT: usize = 4;

/// The tag of what is not needed, which editors show faded.
const UNNECESSARY: usize = 1;

/// A message is cut to this many characters, since names may be long.
const MOST_CHARACTERS: usize = 500;

/// Returns the diagnostics that the settings do not leave out, with their numbers. Syntax errors are never left out.
pub fn shown<'a>(analysis: &'a Analysis, settings: &'a Settings) -> impl Iterator<Item = (usize, &'a Diagnostic)> {
    let has_errors = analysis.has_errors();
    let numbered = analysis.diagnostics().iter().enumerate();
    numbered.filter(move |(_, found)| has_errors || settings.shows(found.code))
}

/// Returns the severity of a diagnostic.
pub fn severity(found: &Diagnostic) -> usize {
    match (found.code, found.severity) {
        (UNUSED, _) => HINT,
        (_, Severity::Error) => ERROR,
        (_, Severity::Warning) => WARNING,
    }
}

// A message that is not too long.
fn cut(message: &str) -> Cow<'_, str> {
    match message.char_indices().nth(MOST_CHARACTERS) {
        Some((end, _)) => format!("{} ..", &message[..end]).into(),
        None => message.into(),
    }
}

// The message on a name that nothing uses, which may be in quotes.
fn unused_message(analysis: &Analysis, found: &Diagnostic) -> Option<String> {
    let token = analysis.root().token_at_offset(found.range.start()).right_biased()?;
    let name = name_text(&token.parent()?);
    Some(format!("`{name}` is not used"))
}

// The message of a diagnostic.
fn message(analysis: &Analysis, found: &Diagnostic) -> String {
    let own = match found.code {
        UNUSED => unused_message(analysis, found),
        _ => None,
    };
    cut(own.as_deref().unwrap_or(&found.message)).into_owned()
}

// A note as a line of the message.
fn line(document: &Document, note: &Note) -> String {
    let message = cut(&note.message);
    match note.range {
        None => format!("\nhelp: {message}"),
        Some(place) => {
            let number = document.text.line_at(place.start().into()) + 1;
            format!("\nnote: {message}, line {number}")
        }
    }
}

// A note about another place.
fn related(document: &Document, note: &Note) -> Option<Value> {
    let place = location(&document.uri, &document.text, note.range?);
    Some(object([
        ("location", place),
        ("message", cut(&note.message).as_ref().into()),
    ]))
}

/// Returns a diagnostic of a document. Notes about other places are in the message if the client does not take them apart from it.
pub fn finding(document: &Document, analysis: &Analysis, client: &Client, found: &Diagnostic) -> Value {
    let is_apart = |note: &&Note| client.takes_related && note.range.is_some();
    let (apart, others): (Vec<&Note>, Vec<&Note>) = found.notes.iter().partition(is_apart);
    let mut message = message(analysis, found);
    message.extend(others.into_iter().map(|note| line(document, note)));
    let places: Vec<Value> = apart.into_iter().filter_map(|note| related(document, note)).collect();
    let is_unused = found.code == UNUSED;
    object_of([
        ("range", Some(range(&document.text, found.range))),
        ("severity", Some(severity(found).into())),
        ("code", Some(found.code.into())),
        ("source", Some("rnix".into())),
        ("message", Some(message.into())),
        ("tags", is_unused.then(|| array([UNNECESSARY.into()]))),
        ("relatedInformation", (!places.is_empty()).then(|| array(places))),
    ])
}
