//! Operators.

use crate::SyntaxKind::{self, *};

macro_rules! operators {
    ($(#[$meta:meta])* $name:ident { $($variant:ident = $token:ident, $sign:literal;)+ }) => {
        $(#[$meta])*
        #[derive(Clone, Copy, Debug, PartialEq, Eq, Hash)]
        pub enum $name {
            $(#[doc = concat!("The operator `", $sign, "`.")] $variant,)+
        }

        impl $name {
            /// Returns the operator that tokens of this kind are, if they are one.
            pub fn from_kind(kind: SyntaxKind) -> Option<Self> {
                match kind {
                    $($token => Some($name::$variant),)+
                    _ => None,
                }
            }
        }
    };
}

operators! {
    /// A binary operator.
    BinOpKind {
        Concat = TOKEN_CONCAT, "++";
        Update = TOKEN_UPDATE, "//";
        Add = TOKEN_ADD, "+";
        Sub = TOKEN_SUB, "-";
        Mul = TOKEN_MUL, "*";
        Div = TOKEN_DIV, "/";
        And = TOKEN_AND_AND, "&&";
        Equal = TOKEN_EQUAL, "==";
        Implication = TOKEN_IMPLICATION, "->";
        Less = TOKEN_LESS, "<";
        LessOrEq = TOKEN_LESS_OR_EQ, "<=";
        More = TOKEN_MORE, ">";
        MoreOrEq = TOKEN_MORE_OR_EQ, ">=";
        NotEqual = TOKEN_NOT_EQUAL, "!=";
        Or = TOKEN_OR_OR, "||";
        PipeRight = TOKEN_PIPE_RIGHT, "|>";
        PipeLeft = TOKEN_PIPE_LEFT, "<|";
    }
}

operators! {
    /// A unary operator.
    UnaryOpKind {
        Invert = TOKEN_INVERT, "!";
        Negate = TOKEN_SUB, "-";
    }
}
