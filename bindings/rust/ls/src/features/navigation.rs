//! Where a name is bound in its text, and where it is used there.

use crate::analysis::{Analysis, Name};
use crate::json::{array, object, Value};
use crate::protocol::{Failure, Outcome};
use crate::request::Request;
use rnix::TextRange;

/// The kinds of highlights.
const READ: usize = 2;
const WRITE: usize = 3;

/// Returns where in its text a name is bound: each part of the binding that it refers to, or its own. A name that an `inherit` binds refers to the one
/// that it inherits.
pub fn bound_places(analysis: &Analysis, name: &Name) -> Vec<TextRange> {
    let referred = name.reference.and_then(|number| analysis.reference(number)?.binding);
    match referred.or_else(|| analysis.bound_to(name)) {
        Some(number) => analysis.written_at(number),
        None => Vec::new(),
    }
}

// Where the name at the position is bound, and where it is used. A name that the text does not bind has the other names of its text instead.
fn occurrences(request: &Request) -> Result<(Vec<TextRange>, Vec<TextRange>), Failure> {
    let Some(name) = request.name()? else {
        return Ok((Vec::new(), Vec::new()));
    };
    let analysis = request.analysis;
    if let Some(number) = analysis.bound_to(&name) {
        return Ok((analysis.written_at(number), analysis.referred_at(number)));
    }
    if name.reference.is_none() {
        return Ok((Vec::new(), Vec::new()));
    }
    let text = name.node.to_string();
    let references = analysis.names().references.iter();
    let alike = references.filter(|one| one.binding.is_none() && one.name.text() == text.as_str());
    Ok((Vec::new(), alike.map(|one| one.name.text_range()).collect()))
}

/// Returns the response to `textDocument/references`.
///
/// # Errors
/// The parameters name no position.
pub fn references(request: &Request) -> Outcome {
    let (written, mut places) = occurrences(request)?;
    if request
        .params
        .at(&["context", "includeDeclaration"])
        .is_some_and(Value::is_true)
    {
        places.extend(written);
    }
    places.sort_by_key(|place| place.start());
    places.dedup();
    Ok(array(places.into_iter().map(|place| request.location(place))))
}

/// Returns the response to `textDocument/documentHighlight`.
///
/// # Errors
/// The parameters name no position.
pub fn highlights(request: &Request) -> Outcome {
    let (written, read) = occurrences(request)?;
    let written = written.into_iter().map(|place| (place, WRITE));
    let mut places: Vec<_> = written.chain(read.into_iter().map(|place| (place, READ))).collect();
    places.sort_by_key(|(place, kind)| (place.start(), *kind));
    let highlight = |(place, kind)| object([("range", request.range(place)), ("kind", Value::from(kind))]);
    Ok(array(places.into_iter().map(highlight)))
}
