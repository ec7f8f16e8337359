//! What each token is: a keyword, a string, a name and what binds it.

use super::globals::is_global;
use crate::analysis::Analysis;
use crate::json::{array, object, Value};
use rnix::scopes::{Binding, Reference, Resolution};
use rnix::{SyntaxKind, TextSize};

/// The types of tokens, by their numbers.
const TYPES: [&str; 9] = [
    "comment",
    "keyword",
    "string",
    "number",
    "operator",
    "variable",
    "parameter",
    "property",
    "function",
];
const COMMENT: u32 = 0;
const KEYWORD: u32 = 1;
const STRING: u32 = 2;
const NUMBER: u32 = 3;
const OPERATOR: u32 = 4;
const VARIABLE: u32 = 5;
const PARAMETER: u32 = 6;
const PROPERTY: u32 = 7;
const FUNCTION: u32 = 8;

/// The modifiers of tokens, by the numbers of their bits. The last three are not among those that the protocol names: a name that a `let` binds,
/// one that a `with` may bind, and one that nothing in the text binds.
const MODIFIERS: [&str; 6] = ["declaration", "defaultLibrary", "readonly", "let", "with", "unbound"];
const DECLARATION: u32 = 1;
const DEFAULT_LIBRARY: u32 = 1 << 1;
const READONLY: u32 = 1 << 2;
const LET: u32 = 1 << 3;
const WITH: u32 = 1 << 4;
const UNBOUND: u32 = 1 << 5;

/// A type, and modifiers.
pub type Class = (u32, u32);

/// Returns what the server says of its tokens.
pub fn provider() -> Value {
    let words = |words: &[&str]| array(words.iter().map(|word| Value::from(*word)));
    let legend = object([("tokenTypes", words(&TYPES)), ("tokenModifiers", words(&MODIFIERS))]);
    let full = object([("delta", true.into())]);
    object([("legend", legend), ("full", full), ("range", true.into())])
}

// The class of what a binding binds.
fn bound_class(binding: &Binding) -> Class {
    match binding.scope.kind() {
        SyntaxKind::NODE_LAMBDA => (PARAMETER, 0),
        SyntaxKind::NODE_ATTR_SET => (PROPERTY, 0),
        _ => (VARIABLE, LET),
    }
}

// The class of a name that nothing in the text binds.
fn unbound_class(name: &str, is_open: bool) -> Class {
    match name {
        "true" | "false" | "null" => (VARIABLE, DEFAULT_LIBRARY | READONLY),
        "builtins" => (VARIABLE, DEFAULT_LIBRARY),
        _ if is_global(name) => (FUNCTION, DEFAULT_LIBRARY),
        _ if is_open => (VARIABLE, WITH),
        _ => (VARIABLE, UNBOUND),
    }
}

// The class of what a reference refers to.
fn referred_class(names: &Resolution, reference: &Reference, text: &str) -> Class {
    match reference.binding.and_then(|number| names.bindings.get(number)) {
        Some(binding) => bound_class(binding),
        None => unbound_class(&text[reference.name.text_range()], reference.is_open),
    }
}

// The class of a token that is no identifier, if it has one.
fn other_class(kind: SyntaxKind) -> Option<Class> {
    use SyntaxKind::*;
    Some(match kind {
        TOKEN_COMMENT => (COMMENT, 0),
        TOKEN_STRING_START | TOKEN_STRING_CONTENT | TOKEN_STRING_END => (STRING, 0),
        TOKEN_PATH_ABS | TOKEN_PATH_HOME | TOKEN_PATH_REL | TOKEN_PATH_SEARCH | TOKEN_URI => (STRING, 0),
        TOKEN_INTEGER | TOKEN_FLOAT => (NUMBER, 0),
        TOKEN_ASSERT | TOKEN_ELSE | TOKEN_IF | TOKEN_IN | TOKEN_INHERIT | TOKEN_LET | TOKEN_OR | TOKEN_REC
        | TOKEN_THEN | TOKEN_WITH | TOKEN_CUR_POS => (KEYWORD, 0),
        TOKEN_WHITESPACE | TOKEN_ERROR => return None,
        TOKEN_L_BRACE | TOKEN_R_BRACE | TOKEN_L_BRACK | TOKEN_R_BRACK | TOKEN_L_PAREN | TOKEN_R_PAREN => return None,
        TOKEN_SEMICOLON | TOKEN_COMMA | TOKEN_DOT => return None,
        _ => (OPERATOR, 0),
    })
}

/// The classes of the tokens of a text, for a walk over them.
pub struct Classes {
    // The classes of names, by where these begin, in this order.
    names: Vec<(TextSize, Class)>,
    // The index of the first name that is not before the last token.
    next: usize,
}

impl Classes {
    /// Finds the classes of the names of a text.
    pub fn new(analysis: &Analysis, text: &str) -> Classes {
        let known = analysis.names();
        let bindings = known.bindings.iter().map(|binding| {
            let (kind, modifiers) = bound_class(binding);
            (binding.name.text_range().start(), (kind, modifiers | DECLARATION))
        });
        let references = known.references.iter().map(|reference| {
            let class = referred_class(known, reference, text);
            (reference.name.text_range().start(), class)
        });
        let mut names: Vec<(TextSize, Class)> = bindings.chain(references).collect();
        // A name of an `inherit` is both, and its binding comes first.
        names.sort_by_key(|(start, _)| *start);
        Classes { names, next: 0 }
    }

    // The class of an identifier: that of the name, or an attribute.
    fn name_class(&mut self, start: TextSize) -> Class {
        while self.names.get(self.next).is_some_and(|(other, _)| *other < start) {
            self.next += 1;
        }
        match self.names.get(self.next) {
            Some((other, class)) if *other == start => *class,
            _ => (PROPERTY, 0),
        }
    }

    /// Returns the class of a token by its kind and its start, if it has one. Tokens must come in the order of the text.
    pub fn class(&mut self, kind: SyntaxKind, start: TextSize) -> Option<Class> {
        match kind {
            SyntaxKind::TOKEN_IDENT => Some(self.name_class(start)),
            kind => other_class(kind),
        }
    }
}
