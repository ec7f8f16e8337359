//! Ranges that grow along the tree.

use crate::json::{array, object_of, Value};
use crate::protocol::{position_of, size, Failure, Outcome};
use crate::request::Request;
use rnix::{TextRange, TextSize};

/// How many ranges an answer has for one position. Chains of operators nest deeper.
const MOST: usize = 200;

/// How many ranges an answer has for all positions, if they are not more.
const MOST_IN_ALL: usize = 10_000;

// How many ranges an answer has for each of so many positions.
fn most_for_each(positions: usize) -> usize {
    (MOST_IN_ALL / positions.max(1)).clamp(1, MOST)
}

// The ranges around an offset, innermost first: so many at most, of which the last one is the whole text.
fn ranges(request: &Request, offset: TextSize, most: usize) -> Vec<TextRange> {
    let tokens: Vec<_> = request.analysis.tokens_at(offset).collect();
    let token = tokens
        .iter()
        .rev()
        .find(|token| !token.kind().is_trivia())
        .or(tokens.last());
    let Some(token) = token else {
        return vec![request.analysis.root().text_range()];
    };
    let mut ranges = vec![token.text_range()];
    ranges.extend(token.parent_ancestors().map(|node| node.text_range()));
    ranges.dedup();
    if ranges.len() > most {
        ranges.drain(most - 1..ranges.len() - 1);
    }
    ranges
}

// The innermost range, inside its parent, and so on.
fn nested(request: &Request, ranges: Vec<TextRange>) -> Value {
    let outer = ranges.into_iter().rev().fold(None, |parent, range| {
        Some(object_of([("range", Some(request.range(range))), ("parent", parent)]))
    });
    outer.unwrap_or(Value::Null)
}

/// Returns the response to `textDocument/selectionRange`.
///
/// # Errors
/// The parameters have no positions.
pub fn selections(request: &Request) -> Outcome {
    let positions = request.params.get("positions").and_then(Value::as_array);
    let positions = positions.ok_or_else(|| Failure::params("positions is missing"))?;
    let mut answers = Vec::new();
    for position in positions {
        let offset = request.text().offset(position_of(Some(position))?);
        answers.push(nested(
            request,
            ranges(request, size(offset), most_for_each(positions.len())),
        ));
    }
    Ok(array(answers))
}

#[cfg(test)]
mod tests {
    use super::*;

    #[test]
    fn many_positions_have_fewer_ranges_each() {
        assert_eq!(
            [0, 1, 50, 100, 5000, 1_000_000].map(most_for_each),
            [200, 200, 200, 100, 2, 1]
        );
    }
}
