//! The outline of a text: the entries of its sets and `let`s.

use crate::json::{array, object_of, Value};
use crate::protocol::Outcome;
use crate::request::Request;
use rnix::ast::{AttrpathValue, Expr, Inherit, LiteralKind};
use rnix::syntax::ast::AstNode as _;
use rnix::{SyntaxNode, TextRange};

/// The kinds of symbols.
const VARIABLE: usize = 13;
const FUNCTION: usize = 12;
const STRING: usize = 15;
const NUMBER: usize = 16;
const BOOLEAN: usize = 17;
const ARRAY: usize = 18;
const OBJECT: usize = 19;
const NULL: usize = 21;

/// Symbols are inside each other up to this depth, and deeper ones side by side, since clients limit how deep an answer may nest.
const MOST_DEPTH: usize = 100;

/// Names are cut to this many characters, since those with interpolations may be long.
const MOST_CHARACTERS: usize = 100;

struct Symbol {
    name: String,
    kind: usize,
    range: TextRange,
    name_range: TextRange,
    // The index of the symbol that it is inside of.
    parent: Option<usize>,
}

/// Returns the kind of a value, by the protocol's numbers.
pub fn kind_of(value: Option<Expr>) -> usize {
    match value {
        Some(Expr::Lambda(_)) => FUNCTION,
        Some(Expr::Str(_)) => STRING,
        Some(Expr::Literal(literal)) => match literal.kind() {
            LiteralKind::Uri(_) => STRING,
            _ => NUMBER,
        },
        Some(Expr::List(_)) => ARRAY,
        Some(Expr::AttrSet(_)) => OBJECT,
        Some(Expr::Ident(name)) => match name.syntax().element_ref().text() {
            "true" | "false" => BOOLEAN,
            "null" => NULL,
            _ => VARIABLE,
        },
        _ => VARIABLE,
    }
}

/// Returns the text of a name in one line. It is not empty.
pub fn shown(name: &SyntaxNode) -> String {
    let text = name.element_ref().text();
    let is_plain = |byte: u8| byte.is_ascii_graphic();
    if text.len() <= MOST_CHARACTERS && !text.is_empty() && text.bytes().all(is_plain) {
        return text.to_owned();
    }
    let line = text.split_whitespace().collect::<Vec<_>>().join(" ");
    let shown: String = line.chars().take(MOST_CHARACTERS).collect();
    if shown.is_empty() {
        "?".to_owned()
    } else {
        shown
    }
}

fn symbol(name: &SyntaxNode, kind: usize, range: TextRange) -> Symbol {
    Symbol {
        name: shown(name),
        kind,
        range,
        name_range: name.text_range(),
        parent: None,
    }
}

// The symbols of a node: that of an entry with a value, or those of the names that are inherited.
fn symbols_of(node: SyntaxNode) -> Vec<Symbol> {
    if let Some(entry) = AttrpathValue::cast(node.clone()) {
        let path = entry.attrpath();
        let path = path
            .as_ref()
            .map(|path| symbol(path.syntax(), kind_of(entry.value()), node.text_range()));
        return path.into_iter().collect();
    }
    let attrs = Inherit::cast(node).into_iter().flat_map(|inherit| inherit.attrs());
    let inherited = attrs.map(|attr| symbol(attr.syntax(), VARIABLE, attr.syntax().text_range()));
    inherited.collect()
}

// The symbols of a tree in order, each after the one that it is inside of.
fn symbols_in(root: &SyntaxNode) -> Vec<Symbol> {
    let mut symbols: Vec<Symbol> = Vec::new();
    let mut open: Vec<usize> = Vec::new();
    let is_named = |kind| AttrpathValue::can_cast(kind) || Inherit::can_cast(kind);
    for node in root.descendants().by_kind(is_named) {
        for mut symbol in symbols_of(node) {
            while open
                .last()
                .is_some_and(|index| symbols[*index].range.end() <= symbol.range.start())
            {
                open.pop();
            }
            symbol.parent = open.get(MOST_DEPTH - 1).or(open.last()).copied();
            open.push(symbols.len());
            symbols.push(symbol);
        }
    }
    symbols
}

// Symbols with those inside them.
fn nested(request: &Request, symbols: &[Symbol]) -> Value {
    let mut inside: Vec<Vec<Value>> = symbols.iter().map(|_| Vec::new()).collect();
    let mut top = Vec::new();
    for (index, symbol) in symbols.iter().enumerate().rev() {
        let children: Vec<Value> = std::mem::take(&mut inside[index]).into_iter().rev().collect();
        let shown = object_of([
            ("name", Some(symbol.name.as_str().into())),
            ("kind", Some(symbol.kind.into())),
            ("range", Some(request.range(symbol.range))),
            ("selectionRange", Some(request.range(symbol.name_range))),
            ("children", (!children.is_empty()).then_some(Value::Array(children))),
        ]);
        match symbol.parent {
            Some(parent) => inside[parent].push(shown),
            None => top.push(shown),
        }
    }
    array(top.into_iter().rev())
}

// Symbols in a list, each with the name of the one that it is inside of.
fn flat(request: &Request, symbols: &[Symbol]) -> Value {
    array(symbols.iter().map(|symbol| {
        let parent = symbol.parent.map(|parent| symbols[parent].name.as_str().into());
        object_of([
            ("name", Some(symbol.name.as_str().into())),
            ("kind", Some(symbol.kind.into())),
            ("location", Some(request.location(symbol.range))),
            ("containerName", parent),
        ])
    }))
}

/// Returns the response to `textDocument/documentSymbol`.
///
/// # Errors
/// Never.
pub fn symbols(request: &Request) -> Outcome {
    let symbols = symbols_in(&request.analysis.root());
    Ok(if request.client.takes_nested_symbols {
        nested(request, &symbols)
    } else {
        flat(request, &symbols)
    })
}
