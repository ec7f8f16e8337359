//! Parts of strings and paths.

use super::Interpol;

/// A part of a string or a path.
#[derive(Clone, Debug, PartialEq, Eq, Hash)]
pub enum InterpolPart<T> {
    /// Literal text.
    Literal(T),
    /// An interpolation, `${..}`.
    Interpolation(Interpol),
}
