//! What may come where the cursor is: names, words, attributes, arguments, options and files.

mod arguments;
mod members;
mod names;
mod paths;
mod place;

use crate::edits;
use crate::json::{array, object, object_of, Value};
use crate::protocol::{Failure, Outcome};
use crate::request::Request;
use place::{place_at, Place};
use rnix::{SyntaxNode, TextRange, TextSize};

/// An answer has this many names at most.
const MOST: usize = 1000;

/// The kinds of items.
const FUNCTION: usize = 3;
const VARIABLE: usize = 6;
const PROPERTY: usize = 10;
const KEYWORD: usize = 14;
const SNIPPET: usize = 15;

/// The format of a text with places to fill in.
const WITH_PLACES: usize = 2;

/// What may come.
#[derive(Clone, Debug, Default)]
struct Item {
    label: String,
    kind: usize,
    detail: String,
    // What there is to say of it, in Markdown.
    text: Option<String>,
    // Those with a lower number come first.
    distance: usize,
    // What is written, if it is not the label.
    new: Option<String>,
    // What is written, with places to fill in.
    snippet: Option<String>,
    // What is typed for it, if it is not the label.
    filter: Option<String>,
}

impl Item {
    fn new(label: &str, kind: usize, detail: String) -> Item {
        Item {
            label: label.to_owned(),
            kind,
            detail,
            ..Item::default()
        }
    }
}

// The arguments or options that an entry of a set may set, and words if it has no path.
fn entries(request: &Request, set: &SyntaxNode, path: &[String]) -> Vec<Item> {
    let mut items = members::entries(request, set, path);
    if path.is_empty() {
        items.extend(arguments::items(request, set));
        items.extend(names::words_of_entries(request));
    }
    items
}

fn items_of(request: &Request, place: &Place) -> Vec<Item> {
    match place {
        Place::Name(scoped) => {
            let mut items = names::items(request, scoped);
            items.extend(names::words_at(request, scoped));
            items
        }
        Place::Inherited(set) => members::attributes(request, set, &[]),
        Place::Attribute(base, path) => members::attributes(request, base, path),
        Place::Key(set, path) => entries(request, set, path),
    }
}

// What may come after a dot in a text with errors, once the name after it is typed: without one, what follows the dot is read in another way.
fn finished(request: &Request, place: &Place, at: TextSize) -> Option<Vec<Item>> {
    if !matches!(place, Place::Attribute(..)) || !request.analysis.has_errors() {
        return None;
    }
    let document = request.document.with_name(at.into(), request.sources.encoding())?;
    let analysis = document.analysis().ok()?;
    let request = Request {
        document: &document,
        analysis,
        ..*request
    };
    let (place, _) = place_at(analysis, at + TextSize::new(1))?;
    Some(items_of(&request, &place)).filter(|items| !items.is_empty())
}

// What may come at the position, and the range of what has been typed of it.
fn found(request: &Request) -> Result<Option<(Vec<Item>, TextRange)>, Failure> {
    let offset = request.offset()?;
    if let Some(files) = paths::items(request, offset) {
        return Ok(Some(files));
    }
    let items = |(place, word): (Place, TextRange)| {
        let finished = word.is_empty().then(|| finished(request, &place, offset)).flatten();
        (finished.unwrap_or_else(|| items_of(request, &place)), word)
    };
    Ok(place_at(request.analysis, offset).map(items))
}

fn shown(request: &Request, word: TextRange, item: Item) -> Value {
    let kind = if request.client.takes_markdown {
        "markdown"
    } else {
        "plaintext"
    };
    let about = |text: String| object([("kind", kind.into()), ("value", text.into())]);
    let format = item.snippet.is_some().then_some(WITH_PLACES);
    let new = item.snippet.as_deref().or(item.new.as_deref()).unwrap_or(&item.label);
    let edit = edits::shown(request.text(), word, new);
    object_of([
        ("sortText", Some(format!("{:04}{}", item.distance, item.label).into())),
        ("filterText", item.filter.map(Value::from)),
        ("label", Some(item.label.into())),
        ("kind", Some(item.kind.into())),
        ("detail", Some(item.detail.into())),
        ("documentation", item.text.map(about)),
        ("insertTextFormat", format.map(Value::from)),
        ("textEdit", Some(edit)),
    ])
}

/// Returns the response to `textDocument/completion`. Where there are very many names, it has only those that begin with what has been typed.
///
/// # Errors
/// The parameters name no position.
pub fn completions(request: &Request) -> Outcome {
    let (mut items, word) = found(request)?.unwrap_or_default();
    let is_long = items.len() > MOST;
    if is_long {
        let typed = &request.text().content()[word];
        items.retain(|item| item.label.starts_with(typed));
        items.truncate(MOST);
    }
    let items = items.into_iter().map(|item| shown(request, word, item));
    Ok(object([("isIncomplete", is_long.into()), ("items", array(items))]))
}
