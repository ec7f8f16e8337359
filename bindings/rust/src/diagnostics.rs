//! What is wrong with a text, in words for people: its syntax errors or, if it has none, what the lints find. Also fixes.
//!
//! ```
//! use rnix::diagnostics::{diagnostics, fix, Severity};
//! use rnix::{Root, TextRange};
//!
//! let parse = Root::parse("{ a = 1 }");
//! let found = diagnostics(&parse);
//! assert_eq!(found[0].message, "expected \";\" after the value of \"a\", found \"}\"");
//! assert_eq!((found[0].code, found[0].severity), ("syntax-error", Severity::Error));
//! let fix = fix(&parse, 0).unwrap();
//! assert_eq!((usize::from(fix.range.start()), fix.text.as_str()), (7, ";"));
//!
//! let found = diagnostics(&Root::parse("{ a = 1; a = 2; }"));
//! assert_eq!(found[0].code, "repeated-attribute");
//! assert_eq!(found[0].notes[0].message, "first defined here");
//! assert_eq!(found[0].notes[0].range, Some(TextRange::new(2.into(), 3.into())));
//! ```

use crate::ffi::described::{self, code_name, described, Described};
use crate::scopes::{self, Resolution};
use crate::{ffi, Parse, Root, TextRange, TextSize};
use std::cell::Cell;
use std::sync::OnceLock;

/// How serious a diagnostic is.
#[derive(Clone, Copy, Debug, PartialEq, Eq, PartialOrd, Ord, Hash)]
pub enum Severity {
    /// Nix refuses the text, or this library does not parse all of it.
    Error,
    /// Nix accepts the text, but it is probably a mistake, or could be said in fewer words.
    Warning,
}

/// What is wrong with a range of a text.
#[derive(Clone, Debug, PartialEq, Eq, Hash)]
pub struct Diagnostic {
    /// The range to mark; empty if something is missing at the end.
    pub range: TextRange,
    /// The message, such as `expected ";" after the value of "a", found "}"`.
    pub message: String,
    /// The name of what it reports, such as `syntax-error`, `repeated-attribute` or `unused-name`. It is the same in every version.
    pub code: &'static str,
    /// How serious it is.
    pub severity: Severity,
    /// Notes that may help: what is not closed, where an attribute is defined first, what may be meant.
    pub notes: Vec<Note>,
}

/// A note on a diagnostic.
#[derive(Clone, Debug, PartialEq, Eq, Hash)]
pub struct Note {
    /// The range that it is about, if that is not the range of the diagnostic.
    pub range: Option<TextRange>,
    /// The message.
    pub message: String,
    /// What to write instead, if it proposes something. On a syntax error this is a guess, and [`fix`] says which of the guesses helps.
    pub replacement: Option<Fix>,
}

/// A range of a text, and what to write instead.
#[derive(Clone, Debug, PartialEq, Eq, Hash)]
pub struct Fix {
    /// The bytes that are replaced: none where something is inserted.
    pub range: TextRange,
    /// The new text.
    pub text: String,
}

// How many diagnostics are expected in a text that has so many errors: at most one for each, or, without errors, the few of the lints.
fn guess(text: &str, error_count: usize) -> usize {
    match error_count {
        0 => text.len() / 64 + 16,
        count => count,
    }
}

fn range(start: u64, end: u64) -> TextRange {
    TextRange::new(TextSize::new(start as u32), TextSize::new(end as u32))
}

// The names of all codes, by number.
fn code_names() -> &'static [String] {
    static NAMES: OnceLock<Vec<String>> = OnceLock::new();
    NAMES.get_or_init(|| (0..).map_while(code_name).collect())
}

impl Severity {
    fn of(number: u32) -> Severity {
        match number {
            1 => Severity::Error,
            _ => Severity::Warning,
        }
    }

    /// Returns `error` or `warning`.
    pub fn name(self) -> &'static str {
        match self {
            Severity::Error => "error",
            Severity::Warning => "warning",
        }
    }
}

impl Described {
    // A range of the joined texts.
    fn text(&self, start: u64, end: u64) -> String {
        String::from_utf8_lossy(&self.texts[start as usize..end as usize]).into_owned()
    }

    fn note(&self, note: &described::Note) -> Note {
        let is_about_another = note.start != ffi::NO_NUMBER;
        let proposes = note.replaced_start != ffi::NO_NUMBER;
        Note {
            range: is_about_another.then(|| range(note.start, note.end)),
            message: self.text(note.message_start, note.message_end),
            replacement: proposes.then(|| Fix {
                range: range(note.replaced_start, note.replaced_end),
                text: self.text(note.text_start, note.text_end),
            }),
        }
    }

    // A diagnostic, whose notes begin with the one of a number.
    fn diagnostic(&self, one: &described::Diagnostic, first_note: usize) -> Diagnostic {
        let notes = &self.notes[first_note..one.note_end as usize];
        Diagnostic {
            range: range(one.start, one.end),
            message: self.text(one.message_start, one.message_end),
            code: &code_names()[one.code as usize],
            severity: Severity::of(one.severity),
            notes: notes.iter().map(|note| self.note(note)).collect(),
        }
    }

    fn decoded(&self) -> Vec<Diagnostic> {
        let ends = self.diagnostics.iter().map(|one| one.note_end as usize);
        let first_notes = std::iter::once(0).chain(ends);
        let numbered = self.diagnostics.iter().zip(first_notes);
        numbered.map(|(one, first)| self.diagnostic(one, first)).collect()
    }
}

/// Returns the diagnostics of a text: its syntax errors, in their order, or, if it has none, what the lints find, as
/// `docs/lints.md` lists it, and the unused names. One may stand for several errors in a row. The library parses the text again.
///
/// # Panics
/// If memory runs out.
pub fn diagnostics(parse: &Parse<Root>) -> Vec<Diagnostic> {
    let root = parse.syntax();
    let text = root.tree.text(0);
    let found = described(text, guess(text, parse.errors().len()));
    found.unwrap_or_else(|refused| panic!("{refused}")).decoded()
}

/// Returns what [`resolve`](crate::scopes::resolve) and [`diagnostics`] return. If the text has errors, the library parses it for both once, and otherwise
/// not at all.
///
/// # Panics
/// If memory runs out.
pub fn names_and_diagnostics(parse: &Parse<Root>) -> (Resolution, Vec<Diagnostic>) {
    let (root, error_count) = (parse.syntax(), parse.errors().len());
    let text = root.tree.text(0);
    let (bindings, references) = scopes::guesses(text);
    let guesses = [bindings, references, guess(text, error_count)];
    let found = root.tree.analysed(error_count, guesses);
    let found = found.unwrap_or_else(|refused| panic!("{refused}"));
    (
        scopes::resolution(&root, &found.bindings, &found.references),
        found.described.decoded(),
    )
}

/// Returns a fix for the syntax error of this index in [`diagnostics`], if one is known. With it, the text has fewer errors. The library parses the text,
/// and parses it again with each guess at what was meant, of which there are at most three. A text without syntax errors has no such fix: what the lints
/// propose is in the notes.
///
/// # Panics
/// If memory runs out.
pub fn fix(parse: &Parse<Root>, diagnostic: usize) -> Option<Fix> {
    let root = parse.syntax();
    let text = root.tree.text(0);
    let (answer, fix) = (Cell::new(0), Cell::new(ffi::Fix::default()));
    let call = |buffer: *mut u8, room: usize| {
        // SAFETY: the text and the buffer have these lengths.
        answer.set(unsafe { ffi::rnix_fix(text.as_ptr(), text.len(), diagnostic, fix.as_ptr(), buffer, room) });
        match answer.get() {
            1 => fix.get().text_len as i64,
            ffi::NONE_SUCH => 0,
            other => other,
        }
    };
    // SAFETY: the call fills its array as `listed` requires.
    let new = unsafe { ffi::listed(64, call) }.unwrap_or_else(|refused| panic!("{refused}"));
    (answer.get() == 1).then(|| Fix {
        range: range(fix.get().start, fix.get().end),
        text: String::from_utf8(new).expect("the library writes UTF-8"),
    })
}
