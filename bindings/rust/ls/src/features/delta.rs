//! The semantic tokens that a client has, and what has changed in them since.

use std::sync::atomic::{AtomicU64, Ordering};

/// How many numbers a token has.
const TOKEN: usize = 5;

/// How often tokens were sent.
static COUNT: AtomicU64 = AtomicU64::new(0);

/// Tokens as they were sent, under a name that no others had.
pub struct Sent {
    name: String,
    numbers: Vec<u32>,
}

/// What makes some numbers others: the index of the first that goes, how many go, and those that come in their place.
#[derive(Debug, PartialEq, Eq)]
pub struct Edit<'n> {
    pub start: usize,
    pub removed: usize,
    pub added: &'n [u32],
}

// How many numbers two lists begin with alike.
fn alike<'n>(one: impl Iterator<Item = &'n u32>, other: impl Iterator<Item = &'n u32>) -> usize {
    one.zip(other).take_while(|(one, other)| one == other).count()
}

impl Sent {
    /// Keeps tokens under a new name.
    pub fn new(numbers: Vec<u32>) -> Sent {
        Sent {
            name: COUNT.fetch_add(1, Ordering::Relaxed).to_string(),
            numbers,
        }
    }

    /// Returns the name of the tokens.
    pub fn name(&self) -> &str {
        &self.name
    }

    /// Returns what makes the tokens others: whole tokens, between those that both begin with and those that both end with. Returns `None` if they are
    /// the same.
    pub fn edit<'n>(&self, new: &'n [u32]) -> Option<Edit<'n>> {
        let old = &self.numbers;
        let start = alike(old.iter(), new.iter()) / TOKEN * TOKEN;
        let end = alike(old[start..].iter().rev(), new[start..].iter().rev()) / TOKEN * TOKEN;
        let edit = Edit {
            start,
            removed: old.len() - start - end,
            added: &new[start..new.len() - end],
        };
        (edit.removed > 0 || !edit.added.is_empty()).then_some(edit)
    }
}

#[cfg(test)]
mod tests {
    use super::*;

    // Numbers of tokens, of which each has one number five times.
    fn tokens(numbers: &[u32]) -> Vec<u32> {
        numbers.iter().flat_map(|number| [*number; TOKEN]).collect()
    }

    fn edit(old: &[u32], new: &[u32]) -> Option<(usize, usize, Vec<u32>)> {
        let new = tokens(new);
        let sent = Sent::new(tokens(old));
        let edit = sent.edit(&new)?;
        Some((edit.start / TOKEN, edit.removed / TOKEN, edit.added.to_vec()))
    }

    #[test]
    fn an_edit_has_the_tokens_that_differ() {
        assert_eq!(edit(&[], &[]), None);
        assert_eq!(edit(&[1, 2], &[1, 2]), None);
        assert_eq!(edit(&[1, 2, 3], &[1, 4, 3]), Some((1, 1, tokens(&[4]))));
        assert_eq!(edit(&[1, 2], &[1, 3, 4, 2]), Some((1, 0, tokens(&[3, 4]))));
        assert_eq!(edit(&[1, 3, 4, 2], &[1, 2]), Some((1, 2, vec![])));
        assert_eq!(edit(&[1, 1], &[1, 1, 1]), Some((2, 0, tokens(&[1]))));
        assert_eq!(edit(&[1, 1, 1], &[]), Some((0, 3, vec![])));
    }

    #[test]
    fn an_edit_has_whole_tokens() {
        let sent = Sent::new((0..10).collect());
        let new = [0, 1, 2, 3, 4, 5, 6, 0, 8, 9];
        let wanted = Edit {
            start: 5,
            removed: 5,
            added: &new[5..],
        };
        assert_eq!(sent.edit(&new), Some(wanted));
    }

    #[test]
    fn names_are_never_used_again() {
        assert_ne!(Sent::new(vec![]).name(), Sent::new(vec![]).name());
    }
}
