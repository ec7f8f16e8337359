//! The kinds of tokens and nodes.

use std::fmt;
use std::str::FromStr;

macro_rules! kinds {
    ($($name:ident,)*) => {
        /// The kind of a token or a node. Token kinds precede node kinds.
        #[allow(non_camel_case_types, missing_docs)]
        #[derive(Clone, Copy, Debug, PartialEq, Eq, PartialOrd, Ord, Hash)]
        #[repr(u16)]
        #[non_exhaustive]
        pub enum SyntaxKind {
            $($name,)*
        }

        impl SyntaxKind {
            /// All kinds, in the order of their numbers.
            pub const ALL: &'static [SyntaxKind] = &[$(SyntaxKind::$name,)*];

            /// Returns the kind's name, such as `TOKEN_ADD`.
            pub const fn name(self) -> &'static str {
                match self {
                    $(SyntaxKind::$name => stringify!($name),)*
                }
            }
        }
    };
}

kinds! {
    TOKEN_ADD,
    TOKEN_AND_AND,
    TOKEN_ASSIGN,
    TOKEN_ASSERT,
    TOKEN_AT,
    TOKEN_COLON,
    TOKEN_COMMA,
    TOKEN_COMMENT,
    TOKEN_CONCAT,
    TOKEN_CUR_POS,
    TOKEN_DIV,
    TOKEN_DOT,
    TOKEN_ELLIPSIS,
    TOKEN_ELSE,
    TOKEN_EQUAL,
    TOKEN_ERROR,
    TOKEN_FLOAT,
    TOKEN_IDENT,
    TOKEN_IF,
    TOKEN_IMPLICATION,
    TOKEN_IN,
    TOKEN_INHERIT,
    TOKEN_INTEGER,
    TOKEN_INTERPOL_END,
    TOKEN_INTERPOL_START,
    TOKEN_INVERT,
    TOKEN_L_BRACE,
    TOKEN_L_BRACK,
    TOKEN_L_PAREN,
    TOKEN_LESS,
    TOKEN_LESS_OR_EQ,
    TOKEN_LET,
    TOKEN_MORE,
    TOKEN_MORE_OR_EQ,
    TOKEN_MUL,
    TOKEN_NOT_EQUAL,
    TOKEN_OR,
    TOKEN_OR_OR,
    TOKEN_PATH_ABS,
    TOKEN_PATH_HOME,
    TOKEN_PATH_REL,
    TOKEN_PATH_SEARCH,
    TOKEN_PIPE_LEFT,
    TOKEN_PIPE_RIGHT,
    TOKEN_QUESTION,
    TOKEN_R_BRACE,
    TOKEN_R_BRACK,
    TOKEN_R_PAREN,
    TOKEN_REC,
    TOKEN_SEMICOLON,
    TOKEN_STRING_CONTENT,
    TOKEN_STRING_END,
    TOKEN_STRING_START,
    TOKEN_SUB,
    TOKEN_THEN,
    TOKEN_UPDATE,
    TOKEN_URI,
    TOKEN_WHITESPACE,
    TOKEN_WITH,
    NODE_APPLY,
    NODE_ASSERT,
    NODE_ATTR_SET,
    NODE_ATTRPATH,
    NODE_ATTRPATH_VALUE,
    NODE_BIN_OP,
    NODE_CUR_POS,
    NODE_DYNAMIC,
    NODE_ERROR,
    NODE_HAS_ATTR,
    NODE_IDENT,
    NODE_IDENT_PARAM,
    NODE_IF_ELSE,
    NODE_INHERIT,
    NODE_INHERIT_FROM,
    NODE_INTERPOL,
    NODE_LAMBDA,
    NODE_LEGACY_LET,
    NODE_LET_IN,
    NODE_LIST,
    NODE_LITERAL,
    NODE_PAREN,
    NODE_PAT_BIND,
    NODE_PAT_ENTRY,
    NODE_PATTERN,
    NODE_PATH_ABS,
    NODE_PATH_HOME,
    NODE_PATH_REL,
    NODE_PATH_SEARCH,
    NODE_ROOT,
    NODE_SELECT,
    NODE_STRING,
    NODE_UNARY_OP,
    NODE_WITH,
}

impl SyntaxKind {
    /// Returns whether this is a comment or whitespace.
    pub fn is_trivia(self) -> bool {
        matches!(self, SyntaxKind::TOKEN_COMMENT | SyntaxKind::TOKEN_WHITESPACE)
    }

    /// Returns whether this is a number, path or URI token.
    pub fn is_literal(self) -> bool {
        use SyntaxKind::*;
        matches!(
            self,
            TOKEN_FLOAT
                | TOKEN_INTEGER
                | TOKEN_PATH_ABS
                | TOKEN_PATH_REL
                | TOKEN_PATH_HOME
                | TOKEN_PATH_SEARCH
                | TOKEN_URI
        )
    }

    /// Returns whether a function argument may start with this token.
    pub fn is_fn_arg(self) -> bool {
        use SyntaxKind::*;
        self.is_literal()
            || matches!(
                self,
                TOKEN_REC
                    | TOKEN_L_BRACE
                    | TOKEN_L_BRACK
                    | TOKEN_L_PAREN
                    | TOKEN_STRING_START
                    | TOKEN_IDENT
                    | TOKEN_CUR_POS
            )
    }

    // The kind that has a number in the library.
    pub(crate) fn at(number: u32) -> SyntaxKind {
        SyntaxKind::ALL[number as usize]
    }
}

/// The error for a string that is not the name of a kind.
#[derive(Clone, Debug, PartialEq, Eq)]
pub struct ParseSyntaxKindError;

impl fmt::Display for ParseSyntaxKindError {
    fn fmt(&self, f: &mut fmt::Formatter<'_>) -> fmt::Result {
        f.write_str("invalid SyntaxKind")
    }
}

impl std::error::Error for ParseSyntaxKindError {}

impl FromStr for SyntaxKind {
    type Err = ParseSyntaxKindError;

    fn from_str(name: &str) -> Result<SyntaxKind, ParseSyntaxKindError> {
        let named = SyntaxKind::ALL.iter().find(|kind| kind.name() == name);
        named.copied().ok_or(ParseSyntaxKindError)
    }
}

impl fmt::Display for SyntaxKind {
    fn fmt(&self, f: &mut fmt::Formatter<'_>) -> fmt::Result {
        f.write_str(self.name())
    }
}
