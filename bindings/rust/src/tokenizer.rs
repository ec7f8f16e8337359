//! The tokenizer.

use crate::error::Refused;
use crate::{ffi, SyntaxKind};

/// A token's kind and text.
pub type Token<'a> = (SyntaxKind, &'a str);

/// Returns an iterator over the tokens of a text; concatenated, they are the text.
///
/// # Panics
/// If memory runs out.
pub fn tokenize(input: &str) -> impl Iterator<Item = Token<'_>> + '_ {
    try_tokenize(input).unwrap_or_else(|refused| panic!("{refused}"))
}

/// Returns an iterator over the tokens of a text; concatenated, they are the text.
///
/// # Errors
/// Memory runs out.
pub fn try_tokenize(input: &str) -> Result<impl Iterator<Item = Token<'_>> + '_, Refused> {
    // SAFETY: the call fills its array as `listed` requires.
    let tokens = unsafe {
        ffi::listed(input.len(), |room, len| {
            ffi::rnix_tokens(input.as_ptr(), input.len(), room, len)
        })
    }?;
    let token = |token: ffi::Token| {
        (
            SyntaxKind::at(token.kind),
            &input[token.start as usize..token.end as usize],
        )
    };
    Ok(tokens.into_iter().map(token))
}
