//! Edits of texts: ranges with their new texts.

use crate::json::{object, Value};
use crate::protocol::{range, size};
use crate::text::Text;
use rnix::{Edits, TextRange};

/// An edit: a range and its new text.
pub type Edit = (TextRange, String);

/// Returns an edit as the protocol writes it.
pub fn shown(text: &Text, place: TextRange, new: &str) -> Value {
    object([("range", range(text, place)), ("newText", new.into())])
}

/// Returns a text after edits, in any order, or `None` if two of them overlap.
pub fn applied(text: &str, edits: &[Edit]) -> Option<String> {
    let mut changed = Edits::new(text);
    let mut all = edits.iter();
    all.try_for_each(|(place, new)| changed.replace(*place, new.as_str()))
        .ok()?;
    Some(changed.apply())
}

/// Returns the edit that makes one text another: what is between the parts with which both begin and end.
pub fn difference(old: &str, new: &str) -> Option<Edit> {
    let is_boundary = |offset: usize| old.is_char_boundary(offset) && new.is_char_boundary(offset);
    let alike = old.bytes().zip(new.bytes()).take_while(|(one, other)| one == other);
    let mut start = alike.count();
    while !is_boundary(start) {
        start -= 1;
    }
    let most = old.len().min(new.len()) - start;
    let ends = old.bytes().rev().zip(new.bytes().rev()).take(most);
    let mut end = ends.take_while(|(one, other)| one == other).count();
    while !old.is_char_boundary(old.len() - end) {
        end -= 1;
    }
    let place = TextRange::new(size(start), size(old.len() - end));
    let added = &new[start..new.len() - end];
    (!place.is_empty() || !added.is_empty()).then(|| (place, added.to_owned()))
}

#[cfg(test)]
mod tests {
    use super::*;
    use crate::random::Numbers;

    #[test]
    fn a_difference_makes_one_text_the_other() {
        let mut numbers = Numbers(6);
        for _ in 0..5000 {
            let (old, new) = (numbers.text(6), numbers.text(6));
            let edits: Vec<Edit> = difference(&old, &new).into_iter().collect();
            assert_eq!(applied(&old, &edits).as_deref(), Some(new.as_str()));
            assert_eq!(edits.is_empty(), old == new);
        }
    }

    #[test]
    fn a_difference_is_short() {
        let (place, new) = difference("a = 1;\n", "a = 12;\n").unwrap();
        assert_eq!(
            (usize::from(place.start()), usize::from(place.end()), new.as_str()),
            (5, 5, "2")
        );
    }
}
