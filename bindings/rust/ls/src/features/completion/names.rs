//! The names in scope, and the words of the language.

use super::place::{Scoped, Words};
use super::{Item, FUNCTION, KEYWORD, PROPERTY, SNIPPET, VARIABLE};
use crate::analysis::{name_text, Analysis};
use crate::features::builtins::{builtin, Builtin};
use crate::features::globals::GLOBALS;
use crate::features::identifiers::is_identifier;
use crate::request::Request;
use rnix::scopes::Binding;
use rnix::{SyntaxKind, SyntaxNode};
use std::collections::HashSet;

const CONSTANT: usize = 21;

/// What is shown of names that Nix binds and does not document.
const OF_NIX: &str = "bound by Nix";

/// Words of the language come after names, which have lower numbers.
const LAST: usize = 9999;

/// The words with which an expression begins, and those that go on with one.
const FIRST_WORDS: [&str; 5] = ["assert", "if", "let", "rec", "with"];
const NEXT_WORDS: [&str; 3] = ["else", "in", "then"];

/// Expressions with places to fill in: a name, the text, and the word with which it begins.
const EXPRESSIONS: [(&str, &str, &str); 4] = [
    ("assert ..;", "assert ${1:condition}; $0", "assert"),
    (
        "if .. then .. else",
        "if ${1:condition} then ${2:value} else ${0:other}",
        "if",
    ),
    ("let .. in", "let\n  ${1:name} = ${2:value};\nin\n$0", "let"),
    ("with ..;", "with ${1:set}; $0", "with"),
];
const ENTRIES: [(&str, &str, &str); 2] = [
    ("inherit ..;", "inherit ${1:name};$0", "inherit"),
    ("inherit (..) ..;", "inherit (${1:set}) ${2:name};$0", "inherit"),
];

// Whether the names of a scope are in sight at a place.
fn is_in_sight(scope: &SyntaxNode, place: &Scoped) -> bool {
    let range = scope.text_range();
    let inherits = place.inherit.as_ref().and_then(SyntaxNode::parent);
    if inherits.as_ref() == Some(scope) || place.after <= range.start() {
        return false;
    }
    let mut children = scope.element_ref().children();
    let mut is_closed = || children.any(|child| child.kind() == SyntaxKind::TOKEN_R_BRACE);
    place.after < range.end() || (place.after == range.end() && !is_closed())
}

// The bindings in sight, those of the innermost scope first.
fn bindings_in_sight<'a>(analysis: &'a Analysis, place: &Scoped) -> Vec<&'a Binding> {
    // The bindings of a scope follow one another, so each scope is looked at once.
    let mut last: Option<(&SyntaxNode, bool)> = None;
    let mut is_seen = |scope: &'a SyntaxNode| match last {
        Some((other, is_seen)) if other == scope => is_seen,
        _ => {
            let is_seen = is_in_sight(scope, place);
            last = Some((scope, is_seen));
            is_seen
        }
    };
    let bindings = analysis.names().bindings.iter();
    let mut in_sight: Vec<&Binding> = bindings.filter(|binding| is_seen(&binding.scope)).collect();
    in_sight.sort_by_key(|binding| std::cmp::Reverse(binding.scope.text_range().start()));
    in_sight
}

// What kind of item a binding is, and what binds it.
fn kind_of(binding: &Binding) -> (usize, &'static str) {
    match binding.scope.kind() {
        SyntaxKind::NODE_LAMBDA => (VARIABLE, "parameter"),
        SyntaxKind::NODE_ATTR_SET => (PROPERTY, "attribute of a `rec` set"),
        _ => (VARIABLE, "bound by `let`"),
    }
}

// What kind of item a name is that Nix binds.
fn kind_of_global(name: &str) -> usize {
    match name {
        "builtins" => VARIABLE,
        "false" | "null" | "true" => CONSTANT,
        _ => FUNCTION,
    }
}

/// Returns the item of an attribute of `builtins`.
pub fn item_of(builtin: &Builtin) -> Item {
    let detail = builtin.signature.clone().unwrap_or_else(|| OF_NIX.to_owned());
    Item {
        text: builtin.text.clone(),
        ..Item::new(&builtin.name, kind_of_global(&builtin.name), detail)
    }
}

// The item of a name that Nix binds in every text.
fn item_of_global(name: &str) -> Item {
    let unknown = || Item::new(name, kind_of_global(name), OF_NIX.to_owned());
    builtin(name).map_or_else(unknown, item_of)
}

/// Returns the names in sight, each once: the innermost binding of each, and those of Nix.
pub fn items(request: &Request, place: &Scoped) -> Vec<Item> {
    let (mut items, mut seen): (Vec<Item>, HashSet<String>) = (Vec::new(), HashSet::new());
    let (mut distance, mut scope) = (0, None);
    for binding in bindings_in_sight(request.analysis, place) {
        let name = name_text(&binding.name);
        if scope.as_ref() != Some(&&binding.scope) {
            distance += usize::from(scope.is_some());
            scope = Some(&binding.scope);
        }
        if is_identifier(&name) && seen.insert(name.clone()) {
            let (kind, by) = kind_of(binding);
            let line = request.line_number(binding.name.text_range().start());
            items.push(Item {
                distance,
                ..Item::new(&name, kind, format!("{by}, line {line}"))
            });
        }
    }
    let globals = GLOBALS.iter().filter(|name| !seen.contains(**name));
    items.extend(globals.map(|name| Item {
        distance: distance + 1,
        ..item_of_global(name)
    }));
    items
}

fn words<'w>(words: &'w [&'static str]) -> impl Iterator<Item = Item> + 'w {
    words.iter().map(|word| Item {
        distance: LAST,
        ..Item::new(word, KEYWORD, "keyword".to_owned())
    })
}

// Texts with places to fill in, if the client takes them.
fn snippets(request: &Request, all: &[(&str, &str, &str)]) -> Vec<Item> {
    let taken = all.iter().filter(|_| request.client.takes_snippets);
    let item = |(label, text, word): &(&str, &str, &str)| Item {
        distance: LAST,
        snippet: Some((*text).to_owned()),
        filter: Some((*word).to_owned()),
        ..Item::new(label, SNIPPET, "snippet".to_owned())
    };
    taken.map(item).collect()
}

/// Returns the keywords that may come at a place, and texts that begin with one.
pub fn words_at(request: &Request, place: &Scoped) -> Vec<Item> {
    match place.words {
        Words::First => words(&FIRST_WORDS).chain(snippets(request, &EXPRESSIONS)).collect(),
        Words::Next => words(&NEXT_WORDS).collect(),
        Words::Neither => Vec::new(),
    }
}

/// Returns the words with which an entry may begin.
pub fn words_of_entries(request: &Request) -> Vec<Item> {
    words(&["inherit"]).chain(snippets(request, &ENTRIES)).collect()
}
