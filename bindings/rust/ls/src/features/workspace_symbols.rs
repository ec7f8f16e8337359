//! The names that the files of the workspace give.

use crate::documents::{Document, Documents};
use crate::json::{array, object, object_of, Value};
use crate::protocol::Outcome;
use crate::sources::Sources;
use crate::workspace::summary::{Summary, Symbol};
use crate::workspace::Workspace;
use std::collections::BTreeSet;
use std::path::Path;
use std::rc::Rc;

/// An answer has this many symbols at most.
const MOST: usize = 1000;

/// How well a name fits what is asked for, best first.
#[derive(Clone, Copy, Debug, PartialEq, Eq, PartialOrd, Ord)]
enum Fit {
    /// It is that.
    Whole,
    /// It begins with that.
    Start,
    /// It has that in it.
    Inside,
    /// It has its letters, in this order.
    Scattered,
}

/// A file that gives names: an open one, or a closed one by its path.
struct File<'w> {
    document: Option<&'w Document>,
    path: Option<&'w Path>,
    summary: Rc<Summary>,
}

// How well a name fits a query in lower case.
fn fit(name: &str, query: &str) -> Option<Fit> {
    let name = name.to_lowercase();
    let mut letters = name.chars();
    match name.find(query) {
        Some(0) if name.len() == query.len() => Some(Fit::Whole),
        Some(0) => Some(Fit::Start),
        Some(_) => Some(Fit::Inside),
        None => query
            .chars()
            .all(|letter| letters.any(|other| other == letter))
            .then_some(Fit::Scattered),
    }
}

// The names of some files that fit a query, best first, not more than an answer has; each with the index of its file.
fn fitting<'f>(files: &'f [File], indices: impl Iterator<Item = usize>, query: &str) -> Vec<(usize, &'f Symbol)> {
    let named = indices.flat_map(|index| {
        let symbols = files[index].summary.symbols.iter();
        symbols.filter_map(move |symbol| Some((fit(&symbol.name, query)?, index, symbol)))
    });
    let mut found: Vec<(Fit, usize, &Symbol)> = named.collect();
    found.sort_by_key(|(fit, index, symbol)| (*fit, symbol.name.len(), *index));
    found.truncate(MOST);
    found.into_iter().map(|(_, index, symbol)| (index, symbol)).collect()
}

// The open documents as they are now, and the closed files as they were last known.
fn files_of<'w>(workspace: &'w Workspace, documents: &'w Documents) -> Vec<File<'w>> {
    let open = documents.known().map(|document| File {
        document: Some(document),
        path: document.file.as_deref(),
        summary: Rc::clone(Summary::of(document, workspace.search())),
    });
    let closed = workspace.files(documents).map(|(path, summary)| File {
        document: None,
        path: Some(path),
        summary: Rc::clone(summary),
    });
    open.chain(closed).collect()
}

fn shown(workspace: &Workspace, file: &File, symbol: &Symbol) -> Option<Value> {
    let uri = match file.document {
        Some(document) => document.uri.clone(),
        None => workspace.uri(file.path?)?,
    };
    let place = file.path.map(|path| workspace.inside(path).display().to_string());
    let location = object([("uri", uri.into()), ("range", symbol.span.value())]);
    Some(object_of([
        ("name", Some((*symbol.name).into())),
        ("kind", Some(usize::from(symbol.kind).into())),
        ("location", Some(location)),
        ("containerName", place.map(Value::from)),
    ]))
}

/// Returns the response to `workspace/symbol`: the names that files give which have the letters of the query in this order, best first.
///
/// # Errors
/// Never.
pub fn symbols(workspace: &Workspace, sources: &Sources, params: &Value) -> Outcome {
    let query = params.get("query").and_then(Value::as_str).unwrap_or_default();
    let query = query.to_lowercase();
    let mut files = files_of(workspace, sources.documents());
    let first = fitting(&files, 0..files.len(), &query);
    let named: BTreeSet<usize> = first.into_iter().map(|(index, _)| index).collect();
    // What is shown of a closed file must be as the file is now.
    for file in named.iter().copied() {
        if let (None, Some(path)) = (files[file].document, files[file].path) {
            files[file].summary = workspace.summary(path, sources.encoding());
        }
    }
    let found = fitting(&files, named.into_iter(), &query).into_iter();
    Ok(array(
        found.filter_map(|(index, symbol)| shown(workspace, &files[index], symbol)),
    ))
}

#[cfg(test)]
mod tests {
    use super::*;

    #[test]
    fn names_fit_by_their_letters() {
        assert_eq!(fit("mkShell", "mkshell"), Some(Fit::Whole));
        assert_eq!(fit("mkShell", "mk"), Some(Fit::Start));
        assert_eq!(fit("mkShell", "shell"), Some(Fit::Inside));
        assert_eq!(fit("mkShell", "msl"), Some(Fit::Scattered));
        assert_eq!(fit("mkShell", "lm"), None);
        assert_eq!(fit("mkShell", ""), Some(Fit::Start));
        assert_eq!(fit("Ä", "ä"), Some(Fit::Whole));
    }
}
