//! What the names of a text refer to, before and after edits.

use crate::analysis::{name_text, Analysis};
use crate::edits::{applied, Edit};
use rnix::scopes::{resolve, Reference, Resolution};
use rnix::{Parse, Root, SyntaxNode};
use std::ops::Range;

/// Where a name is, in a way that edits do not change.
#[derive(Clone, Debug, PartialEq, Eq, PartialOrd, Ord)]
enum Place {
    /// Outside the edits: its offset in the edited text.
    Outside(usize),
    /// In an edit: the name.
    Inside(String),
}

/// A use of a name: where it is, and where what it refers to is bound.
#[derive(Clone, Debug, PartialEq, Eq, PartialOrd, Ord)]
struct Use {
    place: Place,
    target: Option<Place>,
    is_open: bool,
}

/// The ranges of edits before and after, in order.
struct Spans(Vec<(Range<usize>, Range<usize>)>);

/// A text after edits, which has no errors, and what its names referred to before and refer to now.
pub struct Edited {
    /// Its parse.
    pub parse: Parse<Root>,
    before: Vec<Use>,
    after: Vec<Use>,
}

impl Spans {
    // The spans of edits that are in order.
    fn new(edits: &[Edit]) -> Spans {
        let (mut spans, mut added, mut removed) = (Vec::new(), 0, 0);
        for (place, new) in edits {
            let old = usize::from(place.start())..usize::from(place.end());
            let start = old.start + added - removed;
            added += new.len();
            removed += old.len();
            spans.push((old, start..start + new.len()));
        }
        Spans(spans)
    }

    // The place of a name of the text before.
    fn before(&self, name: &SyntaxNode) -> Place {
        let offset = usize::from(name.text_range().start());
        let count = self.0.partition_point(|(old, _)| old.start <= offset);
        match count.checked_sub(1).map(|index| &self.0[index]) {
            Some((old, _)) if offset < old.end => Place::Inside(name_text(name)),
            Some((old, new)) => Place::Outside(offset - old.end + new.end),
            None => Place::Outside(offset),
        }
    }

    // The place of a name of the text after.
    fn after(&self, name: &SyntaxNode) -> Place {
        let offset = usize::from(name.text_range().start());
        let count = self.0.partition_point(|(_, new)| new.start <= offset);
        match count.checked_sub(1).map(|index| &self.0[index]) {
            Some((_, new)) if offset < new.end => Place::Inside(name_text(name)),
            _ => Place::Outside(offset),
        }
    }
}

// The uses of names, in order and each once.
fn uses(names: &Resolution, place: impl Fn(&SyntaxNode) -> Place) -> Vec<Use> {
    let made = |reference: &Reference| Use {
        place: place(&reference.name),
        target: reference.binding.map(|number| place(&names.bindings[number].name)),
        is_open: reference.is_open,
    };
    in_order(names.references.iter().map(made))
}

fn in_order(uses: impl Iterator<Item = Use>) -> Vec<Use> {
    let mut uses: Vec<Use> = uses.collect();
    uses.sort();
    uses.dedup();
    uses
}

/// Returns a text after edits, or `None` if two of them overlap or it has errors.
pub fn edited(analysis: &Analysis, text: &str, edits: &[Edit]) -> Option<Edited> {
    let mut edits = edits.to_vec();
    edits.sort_by_key(|(place, _)| (place.start(), place.end()));
    let parse = match edits.as_slice() {
        [(place, new)] => analysis.parse.try_reparse(*place, new),
        _ => Root::try_parse(&applied(text, &edits)?),
    };
    let parse = parse.ok()?;
    if !parse.errors().is_empty() {
        return None;
    }
    let spans = Spans::new(&edits);
    let before = uses(analysis.names(), |name| spans.before(name));
    let after = uses(&resolve(&parse), |name| spans.after(name));
    Some(Edited { parse, before, after })
}

impl Edited {
    /// Returns whether each name refers to what it referred to before. Edits may move names, and write them more than once.
    pub fn keeps_meaning(&self) -> bool {
        self.before == self.after
    }

    /// Returns whether each name that the edits have left refers to what it referred to before.
    pub fn keeps_rest(&self) -> bool {
        let is_left = |one: &&Use| matches!(one.place, Place::Outside(_));
        self.before.iter().filter(is_left).eq(self.after.iter())
    }

    /// Returns whether the edits bind a name, which nothing has bound where it is used now, and all else refers to what it referred to before.
    pub fn binds(&self, name: &str) -> bool {
        let new = Some(Place::Inside(name.to_owned()));
        let bound = self.after.iter().cloned().map(|mut one| {
            if one.target == new {
                one.target = None;
            }
            one
        });
        self.before != self.after && in_order(bound) == self.before
    }

    /// Returns whether the edits bind a name and use it, and all else refers to what it referred to before.
    pub fn adds(&self, name: &str) -> bool {
        let new = Place::Inside(name.to_owned());
        let (added, rest): (Vec<&Use>, Vec<&Use>) = self.after.iter().partition(|one| one.place == new);
        let is_bound = added.len() == 1 && added[0].target.as_ref() == Some(&new);
        is_bound && rest.into_iter().eq(self.before.iter())
    }
}

#[cfg(test)]
mod tests {
    use super::*;
    use rnix::{TextRange, TextSize};

    // The text with each part in `<>` replaced by the text after `|` in it.
    fn edited_text(marked: &str) -> Option<Edited> {
        let (mut text, mut edits, mut rest) = (String::new(), Vec::new(), marked);
        while let Some((before, edit)) = rest.split_once('<') {
            text.push_str(before);
            let (edit, after) = edit.split_once('>').unwrap();
            let (old, new) = edit.split_once('|').unwrap();
            let start = TextSize::of(text.as_str());
            text.push_str(old);
            edits.push((TextRange::new(start, TextSize::of(text.as_str())), new.to_owned()));
            rest = after;
        }
        text.push_str(rest);
        edited(&Analysis::new(&text).unwrap(), &text, &edits)
    }

    #[test]
    fn names_may_move() {
        assert!(edited_text("a: { <x = a.x;|inherit (a) x;> }").unwrap().keeps_meaning());
        assert!(edited_text("a: b: <a b|[ b a ]> a").unwrap().keeps_meaning());
        assert!(edited_text("a: <|x: >[ a ]").unwrap().keeps_meaning());
        assert!(!edited_text("a: <|a: >[ a ]").unwrap().keeps_meaning());
        assert!(!edited_text("a: rec { <inherit a;|a = a;> }").unwrap().keeps_meaning());
        assert!(edited_text("a: { <inherit a;|a = a;> }").unwrap().keeps_meaning());
        assert!(!edited_text("a: <with a;|> b").unwrap().keeps_meaning());
        assert!(edited_text("a: <b|(> c").is_none());
    }

    #[test]
    fn what_is_removed_need_not_be_kept() {
        assert!(edited_text("let <a = b;|> c = 1; in c").unwrap().keeps_rest());
        assert!(!edited_text("c: let <c = b;|> in c").unwrap().keeps_rest());
    }

    #[test]
    fn an_unbound_name_is_bound() {
        assert!(edited_text("{ a<|, b> }: [ a b b ]").unwrap().binds("b"));
        assert!(!edited_text("{ a<|, b> }: [ a ]").unwrap().binds("b"));
        assert!(!edited_text("{ a<|, b> }: [ b (with a; b) ]").unwrap().binds("b"));
    }

    #[test]
    fn a_name_is_added_with_its_use() {
        assert!(edited_text("a: <|let b = a 1; in >[ <a 1|b> ]").unwrap().adds("b"));
        assert!(!edited_text("<|let b = a 1; in >a: [ <a 1|b> ]").unwrap().adds("b"));
    }
}
