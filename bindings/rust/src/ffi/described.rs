//! The diagnostics of a text with their notes, alone or together with its names, and the names of codes.

use super::arrays::{length, listed, Room};
use super::{check_version, count_of, Binding, Kept, Link, Range, Reference, NONE_SUCH};
use crate::error::Refused;

/// A diagnostic: 48 bytes.
#[repr(C)]
#[derive(Clone, Copy, Debug)]
pub struct Diagnostic {
    pub start: u64,
    pub end: u64,
    pub message_start: u64,
    pub message_end: u64,
    pub note_end: u64,
    pub code: u32,
    pub severity: u32,
}

/// A note: 64 bytes.
#[repr(C)]
#[derive(Clone, Copy, Debug)]
pub struct Note {
    pub start: u64,
    pub end: u64,
    pub message_start: u64,
    pub message_end: u64,
    pub replaced_start: u64,
    pub replaced_end: u64,
    pub text_start: u64,
    pub text_end: u64,
}

extern "C" {
    fn rnix_diagnostics(
        text: *const u8,
        len: usize,
        diagnostics: *mut Diagnostic,
        room: usize,
        notes: *mut Note,
        note_room: usize,
        note_count: *mut u64,
        buffer: *mut u8,
        buffer_room: usize,
        buffer_len: *mut u64,
    ) -> i64;
    fn rnix_code_name(code: u32, buffer: *mut u8, room: usize) -> i64;
    fn rnix_analysis(
        text: *const u8,
        len: usize,
        ranges: *const Range,
        range_count: usize,
        links: *const Link,
        link_count: usize,
        error_count: u64,
        bindings: *mut Binding,
        binding_room: usize,
        references: *mut Reference,
        reference_room: usize,
        reference_count: *mut u64,
        diagnostics: *mut Diagnostic,
        room: usize,
        diagnostic_count: *mut u64,
        notes: *mut Note,
        note_room: usize,
        note_count: *mut u64,
        buffer: *mut u8,
        buffer_room: usize,
        buffer_len: *mut u64,
    ) -> i64;
}

/// Diagnostics, their notes, and their joined texts.
pub struct Described {
    pub diagnostics: Vec<Diagnostic>,
    pub notes: Vec<Note>,
    pub texts: Vec<u8>,
}

// How many diagnostics and notes a call has written, and how many bytes of their texts.
struct Counts {
    diagnostics: usize,
    notes: usize,
    texts: usize,
}

// The arrays for diagnostics, their notes and their texts.
struct Rooms {
    diagnostics: Room<Diagnostic>,
    notes: Room<Note>,
    texts: Room<u8>,
}

impl Rooms {
    // Arrays for so many diagnostics.
    fn new(guess: usize) -> Rooms {
        Rooms {
            diagnostics: Room::new(guess),
            notes: Room::new(guess),
            texts: Room::new(guess.saturating_mul(128)),
        }
    }

    // Whether the arrays have room for so much. If not, they get room for it.
    fn hold(&mut self, counts: &Counts) -> Result<bool, Refused> {
        let diagnostics_fit = self.diagnostics.holds(counts.diagnostics)?;
        let notes_fit = self.notes.holds(counts.notes)?;
        Ok(self.texts.holds(counts.texts)? && diagnostics_fit && notes_fit)
    }

    // What the last call has written, which must be so much.
    unsafe fn filled(self, counts: &Counts) -> Described {
        // SAFETY: the caller promises it.
        unsafe {
            Described {
                diagnostics: self.diagnostics.filled(counts.diagnostics),
                notes: self.notes.filled(counts.notes),
                texts: self.texts.filled(counts.texts),
            }
        }
    }
}

/// Returns the diagnostics of a text, which is parsed. `guess` is the initial capacity for them.
pub fn described(text: &str, guess: usize) -> Result<Described, Refused> {
    let mut rooms = Rooms::new(guess);
    loop {
        let (mut note_count, mut buffer_len) = (0, 0);
        // SAFETY: the text and the arrays have these lengths.
        let result = unsafe {
            rnix_diagnostics(
                text.as_ptr(),
                text.len(),
                rooms.diagnostics.start(),
                rooms.diagnostics.len(),
                rooms.notes.start(),
                rooms.notes.len(),
                &mut note_count,
                rooms.texts.start(),
                rooms.texts.len(),
                &mut buffer_len,
            )
        };
        let counts = Counts {
            diagnostics: count_of(result)?,
            notes: length(note_count)?,
            texts: length(buffer_len)?,
        };
        if rooms.hold(&counts)? {
            // SAFETY: the call has written all three lists.
            return Ok(unsafe { rooms.filled(&counts) });
        }
    }
}

/// The names of a text, and its diagnostics.
pub struct Analysed {
    pub bindings: Vec<Binding>,
    pub references: Vec<Reference>,
    pub described: Described,
}

// The arrays for the names of a text and for its diagnostics.
struct AllRooms {
    bindings: Room<Binding>,
    references: Room<Reference>,
    others: Rooms,
}

impl AllRooms {
    // Writes to the arrays, and returns how many bindings and references there are, and how much there is of the rest. What is kept must be of a parse of the
    // text.
    unsafe fn fill(&mut self, kept: Kept<'_>) -> Result<(usize, usize, Counts), Refused> {
        let mut counts = [0; 4];
        let [reference_count, diagnostic_count, note_count, buffer_len] = &mut counts;
        // SAFETY: the text and the arrays have these lengths, and the caller promises the rest.
        let result = unsafe {
            rnix_analysis(
                kept.text.as_ptr(),
                kept.text.len(),
                kept.ranges.as_ptr(),
                kept.ranges.len(),
                kept.links.as_ptr(),
                kept.links.len(),
                kept.error_count as u64,
                self.bindings.start(),
                self.bindings.len(),
                self.references.start(),
                self.references.len(),
                reference_count,
                self.others.diagnostics.start(),
                self.others.diagnostics.len(),
                diagnostic_count,
                self.others.notes.start(),
                self.others.notes.len(),
                note_count,
                self.others.texts.start(),
                self.others.texts.len(),
                buffer_len,
            )
        };
        let others = Counts {
            diagnostics: length(counts[1])?,
            notes: length(counts[2])?,
            texts: length(counts[3])?,
        };
        Ok((count_of(result)?, length(counts[0])?, others))
    }
}

/// Returns the names and the diagnostics of a text. If it has no errors, it is not parsed. The guesses are the initial capacities for the bindings, the
/// references and the diagnostics.
///
/// # Safety
/// What is kept must be of a parse of the text.
pub unsafe fn analysed(kept: Kept<'_>, guesses: [usize; 3]) -> Result<Analysed, Refused> {
    let [bindings, references, diagnostics] = guesses;
    let mut rooms = AllRooms {
        bindings: Room::new(bindings),
        references: Room::new(references),
        others: Rooms::new(diagnostics),
    };
    loop {
        // SAFETY: the caller promises it.
        let (bindings, references, others) = unsafe { rooms.fill(kept) }?;
        let names_fit = (rooms.bindings.holds(bindings)?, rooms.references.holds(references)?) == (true, true);
        if rooms.others.hold(&others)? && names_fit {
            // SAFETY: the call has written all lists.
            return Ok(unsafe {
                Analysed {
                    bindings: rooms.bindings.filled(bindings),
                    references: rooms.references.filled(references),
                    described: rooms.others.filled(&others),
                }
            });
        }
    }
}

/// Returns the name of a code, or `None` if no code has the number.
pub fn code_name(code: u32) -> Option<String> {
    check_version();
    let call = |buffer: *mut u8, room: usize| {
        // SAFETY: the buffer has this length.
        unsafe { rnix_code_name(code, buffer, room) }
    };
    if call(std::ptr::null_mut(), 0) == NONE_SUCH {
        return None;
    }
    // SAFETY: the call fills its array as `listed` requires.
    let name = unsafe { listed(32, call) }.ok()?;
    String::from_utf8(name).ok()
}
