//! The functions that `bindings/rnix.h` declares, and wrappers for those that fill arrays.

mod arrays;
pub mod described;

use crate::error::Refused;
use crate::SyntaxKind;
pub use arrays::{listed, listed_twice};

/// The version of the interface that this file declares.
pub const VERSION: u32 = 7;

/// Negative results: why a call was refused.
pub const NOT_UTF8: i64 = -1;
pub const NO_MEMORY: i64 = -2;
pub const NONE_SUCH: i64 = -3;
pub const TOO_LONG: i64 = -4;
pub const HAS_ERRORS: i64 = -5;
pub const DIFFERENT: i64 = -6;

/// The value of an offset or number that is absent.
pub const NO_NUMBER: u64 = u64::MAX;

/// The parent of the root.
pub const NO_PARENT: u32 = u32::MAX;

/// How many kinds an error can want.
pub const WANTED_ROOM: usize = 16;

/// A place of a list of wanted kinds that no kind has.
pub const NOT_WANTED: u8 = u8::MAX;

/// A token: 24 bytes.
#[repr(C)]
#[derive(Clone, Copy, Debug)]
pub struct Token {
    pub start: u64,
    pub end: u64,
    pub kind: u32,
}

/// The range of an element: 8 bytes.
#[repr(C)]
#[derive(Clone, Copy, Debug)]
pub struct Range {
    pub start: u32,
    pub end: u32,
}

/// The rest of an element: 12 bytes. The library writes numbers of kinds alone, so that the kind is one.
#[repr(C)]
#[derive(Clone, Copy, Debug)]
pub struct Link {
    pub parent: u32,
    pub inside: u32,
    pub kind: SyntaxKind,
    pub is_token: u16,
}

/// An error: 40 bytes.
#[repr(C)]
#[derive(Clone, Copy, Debug)]
pub struct Fault {
    pub start: u64,
    pub end: u64,
    pub wanted: [u8; WANTED_ROOM],
    pub variant: u32,
    pub found: u32,
}

/// A part of one of the strings of a text: 32 bytes.
#[repr(C)]
#[derive(Clone, Copy, Debug)]
pub struct StringPart {
    pub string: u64,
    pub start: u64,
    pub end: u64,
    pub is_interpolation: u32,
}

/// A fix: 24 bytes.
#[repr(C)]
#[derive(Clone, Copy, Debug, Default)]
pub struct Fix {
    pub start: u64,
    pub end: u64,
    pub text_len: u64,
}

/// A binding: 48 bytes.
#[repr(C)]
#[derive(Clone, Copy, Debug)]
pub struct Binding {
    pub start: u64,
    pub end: u64,
    pub scope_start: u64,
    pub scope_end: u64,
    pub first: u64,
    pub kind: u32,
    pub scope_kind: u32,
}

/// A reference: 40 bytes.
#[repr(C)]
#[derive(Clone, Copy, Debug)]
pub struct Reference {
    pub start: u64,
    pub end: u64,
    pub binding: u64,
    pub kind: u32,
    pub is_inherited: u32,
    pub is_open: u32,
}

extern "C" {
    fn rnix_version() -> u32;
    pub fn rnix_tokens(text: *const u8, len: usize, tokens: *mut Token, room: usize) -> i64;
    fn rnix_parse_compact(
        text: *const u8,
        len: usize,
        ranges: *mut Range,
        range_room: usize,
        links: *mut Link,
        link_room: usize,
        errors: *mut Fault,
        error_room: usize,
        error_count: *mut u64,
    ) -> i64;
    fn rnix_parse_again(
        text: *const u8,
        len: usize,
        ranges: *const Range,
        range_count: usize,
        links: *const Link,
        link_count: usize,
        error_count: u64,
        start: u64,
        end: u64,
        replacement: *const u8,
        replacement_len: usize,
        new_ranges: *mut Range,
        range_room: usize,
        new_links: *mut Link,
        link_room: usize,
        errors: *mut Fault,
        error_room: usize,
        new_error_count: *mut u64,
    ) -> i64;
    pub fn rnix_strings(
        text: *const u8,
        len: usize,
        parts: *mut StringPart,
        room: usize,
        buffer: *mut u8,
        buffer_room: usize,
        buffer_len: *mut u64,
    ) -> i64;
    pub fn rnix_fix(
        text: *const u8,
        len: usize,
        diagnostic: usize,
        fix: *mut Fix,
        buffer: *mut u8,
        buffer_room: usize,
    ) -> i64;
    pub fn rnix_format(text: *const u8, len: usize, buffer: *mut u8, room: usize) -> i64;
    fn rnix_names_again(
        text: *const u8,
        len: usize,
        ranges: *const Range,
        range_count: usize,
        links: *const Link,
        link_count: usize,
        error_count: u64,
        bindings: *mut Binding,
        binding_room: usize,
        references: *mut Reference,
        reference_room: usize,
        reference_count: *mut u64,
    ) -> i64;
}

/// Returns the count that a call returned, or why it was refused.
pub fn count_of(result: i64) -> Result<usize, Refused> {
    match result {
        NOT_UTF8 => Err(Refused::NotUtf8),
        NO_MEMORY => Err(Refused::NoMemory),
        TOO_LONG => Err(Refused::TooLong),
        _ => Ok(usize::try_from(result).expect("the caller names an element that exists")),
    }
}

// Asserts that the library is of this version, since other ones may have other structs.
fn check_version() {
    // SAFETY: the function takes no pointers.
    let version = unsafe { rnix_version() };
    assert_eq!(version, VERSION, "librnix.a is of another version than this crate");
}

/// The elements of a tree, in two lists of one length, and its errors.
pub struct Parsed {
    pub ranges: Vec<Range>,
    pub links: Vec<Link>,
    pub errors: Vec<Fault>,
}

// The elements and the errors that a call writes. It takes the two arrays for elements and their room, the array for errors and its room, and where to
// write the number of errors.
//
// The call must fill its arrays as `listed_twice` requires, both arrays for elements alike.
unsafe fn parsed_by(
    guesses: (usize, usize),
    mut call: impl FnMut(*mut Range, *mut Link, usize, *mut Fault, usize, *mut u64) -> i64,
) -> Result<Parsed, Refused> {
    let mut links: Vec<Link> = Vec::new();
    // SAFETY: the caller promises it.
    let (ranges, errors) = unsafe {
        listed_twice(guesses, |ranges, len, errors, error_room, error_count| {
            if links.try_reserve_exact(len).is_err() {
                return NO_MEMORY;
            }
            call(ranges, links.as_mut_ptr(), len, errors, error_room, error_count)
        })
    }?;
    // SAFETY: the last call had room for all elements in both arrays, and has initialized as many in one as in the other.
    unsafe { links.set_len(ranges.len()) };
    Ok(Parsed { ranges, links, errors })
}

/// Parses a text. The guesses are the initial capacities for the elements and for the errors.
pub fn parsed(text: &str, guesses: (usize, usize)) -> Result<Parsed, Refused> {
    // SAFETY: the text and the arrays have these lengths.
    unsafe {
        parsed_by(guesses, |ranges, links, room, errors, error_room, error_count| {
            rnix_parse_compact(
                text.as_ptr(),
                text.len(),
                ranges,
                room,
                links,
                room,
                errors,
                error_room,
                error_count,
            )
        })
    }
}

/// What is kept of the parse of a text: the elements, in two lists of one length, and the number of errors.
#[derive(Clone, Copy)]
pub struct Kept<'t> {
    pub text: &'t str,
    pub ranges: &'t [Range],
    pub links: &'t [Link],
    pub error_count: usize,
}

/// Parses a text after an edit that replaces the bytes in a range, which must be one of the text.
///
/// # Safety
/// What is kept must be of a parse of the text.
pub unsafe fn parsed_again(
    kept: Kept<'_>,
    range: std::ops::Range<usize>,
    replacement: &str,
    guesses: (usize, usize),
) -> Result<Parsed, Refused> {
    // SAFETY: the texts and the arrays have these lengths, and the caller promises the rest.
    unsafe {
        parsed_by(guesses, |ranges, links, room, errors, error_room, error_count| {
            rnix_parse_again(
                kept.text.as_ptr(),
                kept.text.len(),
                kept.ranges.as_ptr(),
                kept.ranges.len(),
                kept.links.as_ptr(),
                kept.links.len(),
                kept.error_count as u64,
                range.start as u64,
                range.end as u64,
                replacement.as_ptr(),
                replacement.len(),
                ranges,
                room,
                links,
                room,
                errors,
                error_room,
                error_count,
            )
        })
    }
}

/// Returns the bindings and the references of a text. The guesses are the initial capacities for both.
///
/// # Safety
/// What is kept must be of a parse of the text.
pub unsafe fn names(kept: Kept<'_>, guesses: (usize, usize)) -> Result<(Vec<Binding>, Vec<Reference>), Refused> {
    // SAFETY: the text and the arrays have these lengths, and the caller promises the rest.
    unsafe {
        listed_twice(
            guesses,
            |bindings, room, references, reference_room, reference_count| {
                rnix_names_again(
                    kept.text.as_ptr(),
                    kept.text.len(),
                    kept.ranges.as_ptr(),
                    kept.ranges.len(),
                    kept.links.as_ptr(),
                    kept.links.len(),
                    kept.error_count as u64,
                    bindings,
                    room,
                    references,
                    reference_room,
                    reference_count,
                )
            },
        )
    }
}

#[cfg(test)]
mod tests {
    use super::described::{Diagnostic, Note};
    use super::*;
    use crate::{ParseError, Root};
    use std::mem::{align_of, size_of};

    extern "C" {
        fn rnix_kind_name(kind: u32, buffer: *mut u8, room: usize) -> i64;
        fn rnix_error_texts(text: *const u8, len: usize, buffer: *mut u8, room: usize) -> i64;
    }

    #[test]
    fn structs_have_the_sizes_of_the_header() {
        assert_eq!((size_of::<Token>(), align_of::<Token>()), (24, 8));
        assert_eq!((size_of::<Range>(), align_of::<Range>()), (8, 4));
        assert_eq!((size_of::<Link>(), align_of::<Link>()), (12, 4));
        assert_eq!((size_of::<Fault>(), align_of::<Fault>()), (40, 8));
        assert_eq!((size_of::<StringPart>(), align_of::<StringPart>()), (32, 8));
        assert_eq!((size_of::<Diagnostic>(), align_of::<Diagnostic>()), (48, 8));
        assert_eq!((size_of::<Note>(), align_of::<Note>()), (64, 8));
        assert_eq!((size_of::<Fix>(), align_of::<Fix>()), (24, 8));
        assert_eq!((size_of::<Binding>(), align_of::<Binding>()), (48, 8));
        assert_eq!((size_of::<Reference>(), align_of::<Reference>()), (40, 8));
    }

    #[test]
    fn kinds_have_the_names_of_the_library() {
        for (number, kind) in SyntaxKind::ALL.iter().enumerate() {
            let number = number as u32;
            // SAFETY: the call fills its array as `listed` requires.
            let name = unsafe { listed(32, |room, len| rnix_kind_name(number, room, len)) }.unwrap();
            assert_eq!(String::from_utf8(name).unwrap(), kind.name());
        }
        let end = SyntaxKind::ALL.len() as u32;
        // SAFETY: there is no room, so nothing is written.
        assert!(unsafe { rnix_kind_name(end, std::ptr::null_mut(), 0) } < 0);
    }

    #[test]
    fn errors_are_displayed_as_by_the_library() {
        for text in [
            "",
            "()",
            "a)",
            "{ a, a }: a",
            "a @ { b } @ c: d",
            "{ a =",
            "\"${",
            "inherit",
            "{ a ? }: b",
            "let in",
            "[",
            "{ a. = 1; }",
        ] {
            let errors: Vec<ParseError> = Root::parse(text).errors().to_vec();
            let shown: String = errors.iter().map(|error| format!("{error}\n")).collect();
            // SAFETY: the call fills its array as `listed` requires.
            let texts =
                unsafe { listed(64, |room, len| rnix_error_texts(text.as_ptr(), text.len(), room, len)) }.unwrap();
            assert_eq!(shown, String::from_utf8(texts).unwrap(), "{text}");
        }
    }
}
