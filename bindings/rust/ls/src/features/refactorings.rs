//! Code actions that write a text in another way. Each is tried out: it is offered only if the text then has no errors and its names mean what they meant.

mod extract;
mod from_json;
mod inherits;
pub mod parameters;
mod paths;
mod quotes;
mod strings;
mod unused_names;

use super::fixes::Fix;
use super::meaning::{edited, Edited};
use crate::analysis::Analysis;
use crate::edits::Edit;
use crate::json::{object, Value};
use crate::request::Request;
use rnix::{SyntaxKind, SyntaxNode, TextRange};
use std::cell::Cell;

/// The kinds of code actions.
pub const KINDS: [&str; 4] = [FIX, EXTRACT, REWRITE, REMOVE];
const FIX: &str = "quickfix";
const EXTRACT: &str = "refactor.extract";
const REWRITE: &str = "refactor.rewrite";
const REMOVE: &str = "source.removeUnused";

/// What makes an action of a selection.
type Maker = fn(&Selection) -> Option<Fix>;

/// The actions with their kinds.
const MAKERS: [(&str, Maker); 11] = [
    (FIX, parameters::added),
    (REWRITE, inherits::inherited),
    (REWRITE, inherits::separate),
    (REWRITE, inherits::sorted),
    (REWRITE, paths::flat),
    (REWRITE, paths::packed),
    (REWRITE, strings::rewritten),
    (REWRITE, from_json::converted),
    (REWRITE, quotes::changed),
    (EXTRACT, extract::extracted),
    (REMOVE, unused_names::removed),
];

/// A part of a text that is selected, or a place in it.
pub struct Selection<'a> {
    /// What is known of the text.
    pub analysis: &'a Analysis,
    /// The text.
    pub text: &'a str,
    /// The part.
    pub range: TextRange,
    /// Whether the client asks for what the action of the last kind does, and not for any action.
    pub is_explicit: bool,
    // How often the text may still be parsed with edits.
    tries: Cell<usize>,
}

impl<'a> Selection<'a> {
    /// Creates a selection, for which the text is parsed at most so many times with edits.
    pub fn new(analysis: &'a Analysis, text: &'a str, range: TextRange, tries: usize) -> Selection<'a> {
        Selection {
            analysis,
            text,
            range,
            is_explicit: false,
            tries: Cell::new(tries),
        }
    }

    /// Returns the innermost node of a kind that has the whole selection.
    pub fn node(&self, kind: SyntaxKind) -> Option<SyntaxNode> {
        let tokens: Vec<_> = self.analysis.tokens_at(self.range.start()).collect();
        let around = tokens.iter().rev().flat_map(|token| token.parent_ancestors());
        let mut nodes = around.filter(|node| node.text_range().contains_range(self.range));
        nodes.find(|node| node.kind() == kind)
    }

    /// Returns the text of a range.
    pub fn part(&self, range: TextRange) -> &'a str {
        &self.text[range]
    }

    /// Returns the white space with which the line of an offset begins.
    pub fn indentation(&self, offset: usize) -> &'a str {
        let start = self.text[..offset].rfind('\n').map_or(0, |newline| newline + 1);
        let line = &self.text[start..];
        &line[..line.len() - line.trim_start_matches([' ', '\t']).len()]
    }

    /// Returns whether only white space comes before an offset in its line.
    pub fn is_first_in_line(&self, offset: usize) -> bool {
        let start = self.text[..offset].rfind('\n').map_or(0, |newline| newline + 1);
        self.text[start..offset].trim().is_empty()
    }

    /// Returns the text after edits, unless it has errors, or has been tried too often.
    pub fn edited(&self, edits: &[Edit]) -> Option<Edited> {
        let left = self.tries.get().checked_sub(1)?;
        self.tries.set(left);
        edited(self.analysis, self.text, edits)
    }

    /// Returns an action, if each name then refers to what it referred to before.
    pub fn kept(&self, title: String, edits: Vec<Edit>) -> Option<Fix> {
        let is_kept = self.edited(&edits).is_some_and(|edited| edited.keeps_meaning());
        is_kept.then_some(Fix { title, edits })
    }
}

/// Returns whether the client asks for actions of a kind, if it says which ones it wants. `refactor` stands for `refactor.rewrite` too.
pub fn wants(request: &Request, kind: &str) -> bool {
    let only = request.params.at(&["context", "only"]).and_then(Value::as_array);
    let is_wanted = |wanted: &str| {
        let rest = kind.strip_prefix(wanted);
        wanted.is_empty() || rest.is_some_and(|rest| rest.is_empty() || rest.starts_with('.'))
    };
    let mut kinds = only.unwrap_or_default().iter().filter_map(Value::as_str);
    request.client.takes_actions && (only.is_none() || kinds.any(is_wanted))
}

/// Returns the actions for a selection. The text is parsed at most so many times.
pub fn actions(request: &Request, range: TextRange, tries: usize) -> Vec<Value> {
    let mut selection = Selection::new(request.analysis, request.text().content(), range, tries);
    selection.is_explicit = request.params.at(&["context", "only"]).is_some();
    let wanted = MAKERS.iter().filter(|(kind, _)| wants(request, kind));
    let made = wanted.filter_map(|(kind, maker)| Some((kind, maker(&selection)?)));
    let shown = made.map(|(kind, fix)| {
        object([
            ("title", fix.title.into()),
            ("kind", (*kind).into()),
            ("edit", request.workspace_edit(&fix.edits)),
        ])
    });
    shown.collect()
}

#[cfg(test)]
pub mod tests {
    use super::*;
    use crate::edits::applied;
    use rnix::TextSize;

    /// Returns the title of an action for what is between the first two `|` of a text, or at the only one, and the text after it.
    pub fn titled(maker: Maker, marked: &str) -> Option<(String, String)> {
        let mut parts = marked.splitn(3, '|');
        let first = parts.next().unwrap().to_owned();
        let rest: Vec<&str> = parts.collect();
        let text = first.clone() + &rest.concat();
        let start = TextSize::of(first.as_str());
        let len = if rest.len() > 1 {
            TextSize::of(rest[0])
        } else {
            TextSize::new(0)
        };
        let analysis = Analysis::new(&text).unwrap();
        let selection = Selection::new(&analysis, &text, TextRange::at(start, len), 20);
        let fix = maker(&selection)?;
        Some((fix.title, applied(&text, &fix.edits).unwrap()))
    }

    /// Returns the text after an action.
    pub fn after(maker: Maker, marked: &str) -> Option<String> {
        titled(maker, marked).map(|(_, text)| text)
    }

    #[test]
    fn a_text_is_parsed_so_many_times() {
        let text = "a: a";
        let analysis = Analysis::new(text).unwrap();
        let selection = Selection::new(&analysis, text, TextRange::empty(TextSize::new(0)), 2);
        let counts: Vec<bool> = (0..4).map(|_| selection.edited(&[]).is_some()).collect();
        assert_eq!(counts, [true, true, false, false]);
    }
}
