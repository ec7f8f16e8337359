//! Changes of a text one after another, as one change.

use std::ops::Range;

/// A change from one text to another: a range of bytes of the one, and the range of the other that takes its place.
#[derive(Clone, Debug, PartialEq, Eq)]
pub struct Change {
    /// What was replaced.
    pub old: Range<usize>,
    /// What replaced it. It starts where `old` starts.
    pub new: Range<usize>,
}

impl Change {
    /// Returns the change that replaces a range by so many bytes.
    pub fn new(old: Range<usize>, len: usize) -> Change {
        let new = old.start..old.start + len;
        Change { old, new }
    }

    /// Returns the change that has the effect of this one and then another one. What lies between the two is replaced by itself.
    pub fn then(&self, next: &Change) -> Change {
        let start = self.new.start.min(next.old.start);
        let end = self.new.end.max(next.old.end);
        Change {
            old: start..self.old.end + (end - self.new.end),
            new: start..next.new.end + (end - next.old.end),
        }
    }
}

#[cfg(test)]
mod tests {
    use super::*;
    use crate::random::Numbers;

    fn applied(text: &mut String, numbers: &mut Numbers) -> Change {
        let offsets: Vec<usize> = (0..=text.len())
            .filter(|offset| text.is_char_boundary(*offset))
            .collect();
        let (one, other) = (numbers.below(offsets.len()), numbers.below(offsets.len()));
        let old = offsets[one.min(other)]..offsets[one.max(other)];
        let new = numbers.text(4);
        text.replace_range(old.clone(), &new);
        Change::new(old, new.len())
    }

    #[test]
    fn changes_one_after_another_are_one_change() {
        let mut numbers = Numbers(4);
        for _ in 0..2000 {
            let first = numbers.text(20);
            let mut last = first.clone();
            let mut whole = applied(&mut last, &mut numbers);
            for _ in 0..numbers.below(5) {
                whole = whole.then(&applied(&mut last, &mut numbers));
            }
            let mut text = first.clone();
            text.replace_range(whole.old.clone(), &last[whole.new.clone()]);
            assert_eq!(text, last, "{first:?} {whole:?}");
        }
    }
}
