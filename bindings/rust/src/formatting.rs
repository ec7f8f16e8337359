//! Texts with another layout, in the style of Nixpkgs, as `rnix format` writes them.
//!
//! ```
//! assert_eq!(rnix::formatting::formatted("{a=1;}").unwrap(), "{ a = 1; }\n");
//! ```

use crate::error::Refused;
use crate::ffi;
use std::cell::Cell;
use std::fmt;

/// Why a text is not formatted.
#[derive(Clone, Copy, Debug, PartialEq, Eq)]
#[non_exhaustive]
pub enum FormatError {
    /// The text has errors.
    HasErrors,
    /// The new text would differ in more than its layout, or change if formatted again. This is a bug of the formatter.
    Different,
    /// The text was not parsed.
    Refused(Refused),
}

impl fmt::Display for FormatError {
    fn fmt(&self, f: &mut fmt::Formatter<'_>) -> fmt::Result {
        match self {
            FormatError::HasErrors => f.write_str("the text has errors"),
            FormatError::Different => f.write_str("the new text would differ in more than its layout, or change again"),
            FormatError::Refused(refused) => refused.fmt(f),
        }
    }
}

impl std::error::Error for FormatError {}

/// Returns a text without errors in the style of Nixpkgs: the same tokens, comments included, with other white space between them. Strings in `''` are
/// indented with the code; their values stay the same. Patterns may have other commas, and comments with `#` may be in place of those in `/* */`. Apart from
/// this, it is read as the same tree but for white space.
///
/// # Errors
/// The text has errors, or memory runs out.
pub fn formatted(text: &str) -> Result<String, FormatError> {
    let result = Cell::new(0);
    let call = |buffer: *mut u8, room: usize| {
        // SAFETY: the text and the buffer have these lengths.
        result.set(unsafe { ffi::rnix_format(text.as_ptr(), text.len(), buffer, room) });
        match result.get() {
            ffi::HAS_ERRORS | ffi::DIFFERENT => 0,
            count => count,
        }
    };
    // SAFETY: the call fills its array as `listed` requires.
    let bytes = unsafe { ffi::listed(text.len() + text.len() / 4, call) }.map_err(FormatError::Refused)?;
    match result.get() {
        ffi::HAS_ERRORS => Err(FormatError::HasErrors),
        ffi::DIFFERENT => Err(FormatError::Different),
        _ => Ok(String::from_utf8(bytes).expect("the library writes UTF-8")),
    }
}
