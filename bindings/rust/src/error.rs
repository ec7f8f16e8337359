//! Parse errors, and refusals.

use crate::{ffi, SyntaxKind, TextRange, TextSize};
use std::fmt;

/// Why a text was not parsed.
#[derive(Clone, Copy, Debug, PartialEq, Eq)]
#[non_exhaustive]
pub enum Refused {
    /// The text is not UTF-8.
    NotUtf8,
    /// Memory ran out, or the tree has 2^32 elements or more.
    NoMemory,
    /// The text has 2^32 bytes or more.
    TooLong,
}

impl fmt::Display for Refused {
    fn fmt(&self, f: &mut fmt::Formatter<'_>) -> fmt::Result {
        f.write_str(match self {
            Refused::NotUtf8 => "the text is not UTF-8",
            Refused::NoMemory => "out of memory",
            Refused::TooLong => "the text has 2^32 bytes or more",
        })
    }
}

impl std::error::Error for Refused {}

/// A parse error.
#[derive(Clone, Debug, PartialEq)]
#[non_exhaustive]
pub enum ParseError {
    /// An error without a cause. The parser never produces it.
    Unexpected(TextRange),
    /// Extra tokens after the expression.
    UnexpectedExtra(TextRange),
    /// A token of the first kind, at the range, where one of the listed kinds was expected.
    UnexpectedWanted(SyntaxKind, TextRange, Box<[SyntaxKind]>),
    /// A pattern that is bound to a name twice, as in `a @ { b } @ c: d`.
    UnexpectedDoubleBind(TextRange),
    /// An unexpected end of the text.
    UnexpectedEOF,
    /// The end of the text where one of the listed kinds was expected.
    UnexpectedEOFWanted(Box<[SyntaxKind]>),
    /// A formal argument with the same name as an earlier one: its range and its name.
    DuplicatedArgs(TextRange, String),
    /// Expressions are nested too deeply.
    RecursionLimitExceeded,
}

impl fmt::Display for ParseError {
    fn fmt(&self, f: &mut fmt::Formatter<'_>) -> fmt::Result {
        match self {
            ParseError::Unexpected(range) => write!(f, "error node at {range:?}"),
            ParseError::UnexpectedExtra(range) => write!(f, "unexpected token at {range:?}"),
            ParseError::UnexpectedWanted(found, range, wanted) => {
                write!(f, "unexpected {found:?} at {range:?}, wanted any of {wanted:?}")
            }
            ParseError::UnexpectedDoubleBind(range) => write!(f, "unexpected double bind at {range:?}"),
            ParseError::UnexpectedEOF => f.write_str("unexpected end of file"),
            ParseError::UnexpectedEOFWanted(wanted) => write!(f, "unexpected end of file, wanted any of {wanted:?}"),
            ParseError::DuplicatedArgs(range, name) => write!(f, "argument `{name}` is duplicated in {range:?}"),
            ParseError::RecursionLimitExceeded => f.write_str("recursion limit exceeded"),
        }
    }
}

impl std::error::Error for ParseError {}

// The error that the library encoded as numbers.
fn error_of(text: &str, fault: &ffi::Fault) -> ParseError {
    let numbers = fault.wanted.iter().filter(|number| **number != ffi::NOT_WANTED);
    let wanted = numbers.map(|number| SyntaxKind::at(u32::from(*number))).collect();
    let offset = |offset: u64| TextSize::try_from(offset as usize).unwrap_or_default();
    let range = || TextRange::new(offset(fault.start), offset(fault.end));
    match fault.variant {
        0 => ParseError::Unexpected(range()),
        1 => ParseError::UnexpectedExtra(range()),
        2 => ParseError::UnexpectedWanted(SyntaxKind::at(fault.found), range(), wanted),
        3 => ParseError::UnexpectedDoubleBind(range()),
        4 => ParseError::UnexpectedEOF,
        5 => ParseError::UnexpectedEOFWanted(wanted),
        6 => ParseError::DuplicatedArgs(range(), text[range()].to_owned()),
        _ => ParseError::RecursionLimitExceeded,
    }
}

/// Returns the errors of a text that the library encoded.
pub(crate) fn errors_of(text: &str, faults: &[ffi::Fault]) -> Vec<ParseError> {
    faults.iter().map(|fault| error_of(text, fault)).collect()
}
