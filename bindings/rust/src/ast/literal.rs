//! Kinds of literals.

use super::{Float, Integer, Uri};

/// The kind of a literal, with its token.
#[derive(Clone, Debug, PartialEq, Eq, Hash)]
pub enum LiteralKind {
    /// A floating-point number.
    Float(Float),
    /// An integer.
    Integer(Integer),
    /// A URI.
    Uri(Uri),
}
