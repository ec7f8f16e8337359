//! What each token is, for colours.

use super::classes::{Class, Classes};
use super::delta::Sent;
use crate::json::{array, object, object_of, Value};
use crate::protocol::{range_of, Failure, Outcome};
use crate::request::Request;
use crate::text::{Cursor, Position};
use rnix::TextRange;
use std::ops::Range;

/// The numbers of tokens, each relative to the one before.
struct Encoder<'t> {
    cursor: Cursor<'t>,
    last: Position,
    numbers: Vec<u32>,
}

impl Encoder<'_> {
    // Adds a token, in parts of one line each. Tokens must come in the order of the text.
    fn add(&mut self, token: Range<usize>, class: Class) {
        let mut start = token.start;
        while start < token.end {
            let position = self.cursor.position(start);
            let end = token.end.min(self.cursor.line_end());
            if start < end {
                let width = self.cursor.position(end).column - position.column;
                self.add_part(position, width, class);
            }
            start = self.cursor.next_line();
        }
    }

    fn add_part(&mut self, position: Position, width: usize, (kind, modifiers): Class) {
        let lines = position.line - self.last.line;
        let columns = if lines == 0 {
            position.column - self.last.column
        } else {
            position.column
        };
        let [lines, columns, width] = [lines, columns, width].map(|number| number as u32);
        self.numbers.extend([lines, columns, width, kind, modifiers]);
        self.last = position;
    }
}

// The numbers of the tokens in a range.
fn encoded(request: &Request, range: TextRange) -> Vec<u32> {
    let text = request.text();
    let mut classes = Classes::new(request.analysis, text.content());
    let mut encoder = Encoder {
        cursor: Cursor::new(text, range.start().into()),
        last: Position { line: 0, column: 0 },
        numbers: Vec::new(),
    };
    let root = request.analysis.root();
    let tokens = root.elements().filter(|element| element.is_token());
    for token in tokens.skip_while(|token| token.text_range().end() <= range.start()) {
        let place = token.text_range();
        if place.start() >= range.end() {
            break;
        }
        if let Some(class) = classes.class(token.kind(), place.start()) {
            encoder.add(place.into(), class);
        }
    }
    encoder.numbers
}

fn all(request: &Request) -> Vec<u32> {
    encoded(request, request.analysis.root().text_range())
}

// Keeps tokens as those that the client has. Returns the name by which it asks for edits of them.
fn keep(request: &Request, numbers: Vec<u32>) -> Value {
    let sent = Sent::new(numbers);
    let name = sent.name().into();
    *request.document.sent.borrow_mut() = Some(sent);
    name
}

// All tokens, with a name if the client asks for edits of them.
fn answer(request: &Request, numbers: Vec<u32>) -> Value {
    let name = request.client.takes_token_edits.then(|| keep(request, numbers.clone()));
    object_of([("resultId", name), ("data", Some(Value::Numbers(numbers)))])
}

// The edits of the tokens that the client has by a name, if it has them.
fn edits_of(request: &Request, name: &str, numbers: &[u32]) -> Option<Value> {
    let sent = request.document.sent.borrow();
    let sent = sent.as_ref().filter(|sent| sent.name() == name)?;
    Some(array(sent.edit(numbers).map(|edit| {
        object([
            ("start", edit.start.into()),
            ("deleteCount", edit.removed.into()),
            ("data", Value::Numbers(edit.added.to_vec())),
        ])
    })))
}

/// Returns the response to `textDocument/semanticTokens/full`.
///
/// # Errors
/// Never.
pub fn full(request: &Request) -> Outcome {
    Ok(answer(request, all(request)))
}

/// Returns the response to `textDocument/semanticTokens/full/delta`: what has changed since the response that the parameters name, if that was the
/// last one, and otherwise all tokens.
///
/// # Errors
/// The parameters name no response.
pub fn delta(request: &Request) -> Outcome {
    let name = request.params.get("previousResultId").and_then(Value::as_str);
    let name = name.ok_or_else(|| Failure::params("previousResultId is missing"))?;
    let numbers = all(request);
    Ok(match edits_of(request, name, &numbers) {
        Some(edits) => object([("resultId", keep(request, numbers)), ("edits", edits)]),
        None => answer(request, numbers),
    })
}

/// Returns the response to `textDocument/semanticTokens/range`.
///
/// # Errors
/// The parameters have no range.
pub fn in_range(request: &Request) -> Outcome {
    let range = range_of(request.text(), request.params.get("range"))?;
    Ok(object([("data", Value::Numbers(encoded(request, range)))]))
}
