//! Arrays that a call fills. If one is too small, the call is repeated with larger ones.

use super::{check_version, count_of};
use crate::error::Refused;

/// An array that a call fills.
pub struct Room<T> {
    list: Vec<T>,
}

impl<T: Copy> Room<T> {
    /// Returns an array of this capacity. If there is no memory for it, it has none, and the first call only counts. Each call on a text begins with this.
    pub fn new(guess: usize) -> Room<T> {
        check_version();
        let mut list: Vec<T> = Vec::new();
        let _ = list.try_reserve_exact(guess);
        Room { list }
    }

    /// Returns its start.
    pub fn start(&mut self) -> *mut T {
        self.list.as_mut_ptr()
    }

    /// Returns its capacity.
    pub fn len(&self) -> usize {
        self.list.capacity()
    }

    /// Returns whether it has room for so many items. If not, it gets room for them.
    pub fn holds(&mut self, count: usize) -> Result<bool, Refused> {
        let fits = count <= self.len();
        if !fits {
            self.list.try_reserve_exact(count).map_err(|_| Refused::NoMemory)?;
        }
        Ok(fits)
    }

    /// Returns the first items.
    ///
    /// # Safety
    /// The last call must have written so many.
    pub unsafe fn filled(mut self, count: usize) -> Vec<T> {
        // SAFETY: the caller promises it.
        unsafe { self.list.set_len(count) };
        self.list
    }
}

/// Returns the whole list that a call writes. `guess` is the initial capacity; if it is too small, the call is repeated with enough.
///
/// # Safety
/// The call must return the length of the list, and write as much of it to the start of its array as there is room for.
pub unsafe fn listed<T: Copy>(guess: usize, mut call: impl FnMut(*mut T, usize) -> i64) -> Result<Vec<T>, Refused> {
    let mut list = Room::new(guess);
    loop {
        let count = count_of(call(list.start(), list.len()))?;
        if list.holds(count)? {
            // SAFETY: the call has written the whole list.
            return Ok(unsafe { list.filled(count) });
        }
    }
}

/// Returns a length that a call has written.
pub fn length(count: u64) -> Result<usize, Refused> {
    usize::try_from(count).map_err(|_| Refused::NoMemory)
}

/// Returns both lists that a call writes, as `listed` does for one. The call also takes where to write the length of the second list.
///
/// # Safety
/// The call must return the length of the first list and write that of the second, and write as much of each as there is room for.
pub unsafe fn listed_twice<A: Copy, B: Copy>(
    guesses: (usize, usize),
    mut call: impl FnMut(*mut A, usize, *mut B, usize, *mut u64) -> i64,
) -> Result<(Vec<A>, Vec<B>), Refused> {
    let (mut first, mut second) = (Room::new(guesses.0), Room::new(guesses.1));
    loop {
        let mut second_count = 0;
        let result = call(
            first.start(),
            first.len(),
            second.start(),
            second.len(),
            &mut second_count,
        );
        let counts = (count_of(result)?, length(second_count)?);
        if (first.holds(counts.0)?, second.holds(counts.1)?) == (true, true) {
            // SAFETY: the call has written both lists.
            return Ok(unsafe { (first.filled(counts.0), second.filled(counts.1)) });
        }
    }
}
