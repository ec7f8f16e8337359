//! A lossless parser for the Nix language, with the API of the crate rnix 0.14.0 except what builds or changes trees. Parsing returns a list of
//! errors and a tree that keeps every byte of the text, comments and broken parts included.
//!
//! The parser is proved code behind a C interface (`bindings/rnix.h`); this crate itself is tested, not proved. A tree is one array of elements
//! behind an `Arc`; nodes and tokens are indices into it. Ranges are half-open, in bytes.
//!
//! ```
//! use rnix::ast::{Expr, HasEntry};
//! use rnix::syntax::ast::AstNode;
//!
//! let parse = rnix::Root::parse("let a = 1; in a");
//! assert!(parse.errors().is_empty());
//! let Some(Expr::LetIn(let_in)) = parse.tree().expr() else { panic!() };
//! assert_eq!(let_in.body().unwrap().to_string(), "a");
//! assert_eq!(let_in.entries().next().unwrap().syntax().text(), "a = 1;");
//! ```
//!
//! Nodes and tokens own their tree, so walks over them count references. [`SyntaxNode::elements`] and [`SyntaxNode::preorder_ref`] borrow the tree and
//! count none.
//!
//! Trees are immutable: there is no `clone_for_update`, `splice_children`, `detach` or `replace_with`. To change a text, use [`Edits`].

#[macro_use]
mod macros;
pub mod ast;
pub mod diagnostics;
mod edits;
mod error;
mod ffi;
pub mod formatting;
mod kind;
mod language;
mod line_index;
mod parse;
pub mod scopes;
mod strings;
pub mod syntax;
mod text_size;
mod tokenizer;
mod tree;

pub use ast::Root;
pub use edits::{EditError, Edits};
pub use error::{ParseError, Refused};
pub use kind::{ParseSyntaxKindError, SyntaxKind};
pub use language::NixLanguage;
pub use line_index::{ColumnUnit, LineIndex, Position};
pub use parse::Parse;
pub use syntax::borrowed::{ElementRef, Elements};
pub use syntax::children::{SyntaxElementChildren, SyntaxNodeChildren};
pub use syntax::descendants::{Descendants, DescendantsWithTokens};
pub use syntax::element::{NodeOrToken, SyntaxElement};
pub use syntax::node::SyntaxNode;
pub use syntax::offset::TokenAtOffset;
pub use syntax::pointer::{AstPtr, SyntaxNodePtr};
pub use syntax::text::SyntaxText;
pub use syntax::token::SyntaxToken;
pub use syntax::walk::{Direction, PreorderRef, WalkEvent};
pub use text_size::{TextRange, TextSize};
pub use tokenizer::{tokenize, try_tokenize, Token};

// The examples of the README are tested.
#[cfg(doctest)]
#[doc = include_str!("../README.md")]
struct Readme;
