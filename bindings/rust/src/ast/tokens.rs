//! Typed tokens.

use super::AstToken;
use crate::SyntaxKind::{self, *};
use crate::SyntaxToken;
use std::num::{ParseFloatError, ParseIntError};

macro_rules! token {
    ($(#[$meta:meta])* $name:ident = $($kind:ident)|+) => {
        $(#[$meta])*
        #[derive(Clone, Debug, PartialEq, Eq, Hash)]
        pub struct $name(SyntaxToken);

        impl AstToken for $name {
            fn can_cast(from: SyntaxKind) -> bool {
                matches!(from, $($kind)|+)
            }

            fn cast(from: SyntaxToken) -> Option<Self> {
                Self::can_cast(from.kind()).then_some($name(from))
            }

            fn syntax(&self) -> &SyntaxToken {
                &self.0
            }
        }

        impl std::fmt::Display for $name {
            fn fmt(&self, f: &mut std::fmt::Formatter<'_>) -> std::fmt::Result {
                std::fmt::Display::fmt(&self.0, f)
            }
        }
    };
}

token! {
    /// Whitespace.
    Whitespace = TOKEN_WHITESPACE
}

token! {
    /// A comment, such as `# a` or `/* a */`.
    Comment = TOKEN_COMMENT
}

token! {
    /// A floating-point number.
    Float = TOKEN_FLOAT
}

token! {
    /// An integer.
    Integer = TOKEN_INTEGER
}

token! {
    /// Literal text of a path.
    PathContent = TOKEN_PATH_ABS | TOKEN_PATH_REL | TOKEN_PATH_HOME | TOKEN_PATH_SEARCH
}

token! {
    /// Literal text of a string, as it is written.
    StrContent = TOKEN_STRING_CONTENT
}

token! {
    /// A URI.
    Uri = TOKEN_URI
}

impl Comment {
    /// Returns the text after `#`, or between `/*` and `*/`. For an unclosed comment, returns the whole text.
    pub fn text(&self) -> &str {
        let text = self.0.text();
        let block = || text.strip_prefix("/*")?.strip_suffix("*/");
        text.strip_prefix('#').or_else(block).unwrap_or(text)
    }
}

impl Float {
    /// Returns the number.
    ///
    /// # Errors
    /// Those of `str::parse`.
    pub fn value(&self) -> Result<f64, ParseFloatError> {
        self.0.text().parse()
    }
}

impl Integer {
    /// Returns the number.
    ///
    /// # Errors
    /// The number does not fit in an `i64`.
    pub fn value(&self) -> Result<i64, ParseIntError> {
        self.0.text().parse()
    }
}

impl PathContent {
    /// Returns the text.
    pub fn text(&self) -> &str {
        self.0.text()
    }

    /// Returns the kind of the token.
    pub fn path_kind(&self) -> SyntaxKind {
        self.0.kind()
    }

    /// Returns whether the path is absolute.
    pub fn is_absolute(&self) -> bool {
        self.path_kind() == TOKEN_PATH_ABS
    }

    /// Returns whether the path is relative to the file's directory.
    pub fn is_relative(&self) -> bool {
        self.path_kind() == TOKEN_PATH_REL
    }

    /// Returns whether the path is relative to the home directory.
    pub fn is_home(&self) -> bool {
        self.path_kind() == TOKEN_PATH_HOME
    }

    /// Returns whether the path is a search path, such as `<a>`.
    pub fn is_search(&self) -> bool {
        self.path_kind() == TOKEN_PATH_SEARCH
    }
}
