//! What is kept of a file that is not open: the names that it gives, and the arguments that it passes to other files.

use crate::analysis::name_text;
use crate::calls::{arguments_of, load_of};
use crate::documents::Document;
use crate::features::symbols::{kind_of, shown};
use crate::json::Value;
use crate::paths::{is_path, named, SearchPath};
use crate::text::{Position, Text};
use rnix::ast::{AttrpathValue, BinOpKind, Entry, Expr, HasEntry, LetIn};
use rnix::syntax::ast::AstNode as _;
use rnix::{Root, SyntaxKind, SyntaxNode, TextRange};
use std::path::{Path, PathBuf};
use std::rc::Rc;

/// A range of a text, as the client counts. Lines and columns are below 2^32, as offsets are.
#[derive(Clone, Copy, Debug, PartialEq, Eq)]
pub struct Span {
    start: (u32, u32),
    end: (u32, u32),
}

/// A name that a file gives: of an entry of its set, or of a `let` around it.
#[derive(Debug)]
pub struct Symbol {
    /// The name.
    pub name: Box<str>,
    /// The kind of its value, by the protocol's numbers.
    pub kind: u8,
    /// Where it is.
    pub span: Span,
}

/// A call of the function of another file.
#[derive(Debug)]
pub struct Call {
    /// The file or the folder, by the path that the call names. It may lead through links, which may change.
    pub target: PathBuf,
    /// The names of the arguments that are written out, and where they are.
    pub arguments: Box<[(Box<str>, Span)]>,
}

/// What is kept of a file.
#[derive(Debug, Default)]
pub struct Summary {
    /// The names that it gives.
    pub symbols: Box<[Symbol]>,
    /// The calls with arguments.
    pub calls: Box<[Call]>,
}

impl Span {
    fn new(text: &Text, range: TextRange) -> Span {
        let at = |offset: usize| {
            let position = text.position(offset);
            (position.line as u32, position.column as u32)
        };
        Span {
            start: at(range.start().into()),
            end: at(range.end().into()),
        }
    }

    /// Returns the range as JSON.
    pub fn value(self) -> Value {
        let at = |(line, column): (u32, u32)| Position {
            line: line as usize,
            column: column as usize,
        };
        Value::Range(at(self.start), at(self.end))
    }
}

/// Returns the expressions that an expression is made of as long as these give its names: the body of a function or a `let`, the operands of `//`.
fn next(expr: &Expr) -> Vec<Expr> {
    let inner = match expr {
        Expr::Root(root) => root.expr(),
        Expr::Paren(paren) => paren.expr(),
        Expr::Lambda(function) => function.body(),
        Expr::With(with) => with.body(),
        Expr::Assert(assert) => assert.body(),
        Expr::LetIn(let_in) => let_in.body(),
        Expr::BinOp(update) if update.operator() == Some(BinOpKind::Update) => {
            return update.rhs().into_iter().chain(update.lhs()).collect();
        }
        _ => None,
    };
    inner.into_iter().collect()
}

// The symbols of an entry.
fn symbols_of(entry: Entry, text: &Text) -> Vec<Symbol> {
    let symbol = |name: &SyntaxNode, kind: usize| Symbol {
        name: shown(name).into(),
        kind: kind as u8,
        span: Span::new(text, name.text_range()),
    };
    match entry {
        Entry::AttrpathValue(entry) => {
            let kind = |entry: &AttrpathValue| kind_of(entry.value());
            let path = entry.attrpath();
            path.iter().map(|path| symbol(path.syntax(), kind(&entry))).collect()
        }
        Entry::Inherit(inherit) => {
            let names = inherit.attrs();
            names.map(|attr| symbol(attr.syntax(), kind_of(None))).collect()
        }
    }
}

// The names that a text gives.
fn symbols_in(root: Root, text: &Text) -> Vec<Symbol> {
    let (mut symbols, mut open) = (Vec::new(), vec![Expr::Root(root)]);
    while let Some(expr) = open.pop() {
        let entries = match &expr {
            Expr::AttrSet(set) => Some(set.entries()),
            Expr::LetIn(let_in) => Some(LetIn::entries(let_in)),
            _ => None,
        };
        let entries = entries.into_iter().flatten();
        symbols.extend(entries.flat_map(|entry| symbols_of(entry, text)));
        open.extend(next(&expr));
    }
    symbols
}

// The call with arguments of what a path names.
fn call_at(path: &SyntaxNode, text: &Text, folder: &Path, search: &SearchPath) -> Option<Call> {
    let (_, load) = load_of(path)?;
    let argument = |name: SyntaxNode| {
        let span = Span::new(text, name.text_range());
        (name_text(&name).into(), span)
    };
    let arguments: Box<[_]> = arguments_of(&load).into_iter().map(argument).collect();
    let is_some = !arguments.is_empty();
    let target = is_some.then(|| named(path, folder, search)).flatten()?;
    Some(Call { target, arguments })
}

impl Summary {
    /// Summarizes a file of a folder. Without a folder, paths name nothing.
    pub fn new(root: Root, text: &Text, folder: Option<&Path>, search: &SearchPath) -> Summary {
        use SyntaxKind::*;
        let is_kind = |kind| matches!(kind, NODE_PATH_ABS | NODE_PATH_REL | NODE_PATH_SEARCH);
        let paths = root.syntax().descendants().by_kind(is_kind).filter(is_path);
        let call = |path: SyntaxNode| call_at(&path, text, folder?, search);
        Summary {
            calls: paths.filter_map(call).collect(),
            symbols: symbols_in(root, text).into(),
        }
    }

    /// Returns that of an open document as it is now. It is empty if memory runs out.
    pub fn of<'d>(document: &'d Document, search: &SearchPath) -> &'d Rc<Summary> {
        document.summary.get_or_init(|| {
            let folder = document.file.as_deref().and_then(Path::parent);
            let root = document.analysis().map(|analysis| analysis.parse.tree());
            let summary = root.map(|root| Summary::new(root, &document.text, folder, search));
            Rc::new(summary.unwrap_or_default())
        })
    }

    /// Returns where an argument is passed to one of some files or folders.
    pub fn passed<'s>(&'s self, targets: &'s [&Path], name: &'s str) -> impl Iterator<Item = Span> + 's {
        let calls = self
            .calls
            .iter()
            .filter(|call| targets.contains(&call.target.as_path()));
        let arguments = calls.flat_map(|call| call.arguments.iter());
        arguments.filter(move |(own, _)| **own == *name).map(|(_, span)| *span)
    }
}
