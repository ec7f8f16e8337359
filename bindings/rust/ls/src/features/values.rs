//! What expressions are, as far as that is plain: through names, selections, `//`, and files that are imported.

use crate::analysis::{name_text, without_parens};
use crate::calls::loaded_by;
use crate::paths::file_at;
use crate::sources::{Part, Source, Sources};
use rnix::ast::{
    Apply, AttrSet, Attrpath, AttrpathValue, BinOp, BinOpKind, Expr, HasEntry, IfElse, Inherit, Lambda, PatEntry,
    Pattern, Select, With,
};
use rnix::syntax::ast::AstNode as _;
use rnix::{Root, SyntaxKind, SyntaxNode};
use std::cell::Cell;

mod members;
mod passed;

/// For one answer, at most this many expressions are looked at: it ends also where an expression needs itself.
const MOST_STEPS: usize = 500;

/// For one answer, at most this many entries of sets and names of scopes are looked at.
const MOST_ENTRIES: usize = 1_000_000;

/// What something is.
#[derive(Clone)]
pub enum Meaning<'a> {
    /// An expression.
    Expr(Part<'a>),
    /// The set that an entry makes with the names of its path, from one on.
    Rest(Part<'a>, usize),
    /// What a name of an `inherit` refers to.
    Inherited(Part<'a>),
    /// The set of the arguments that a function takes by name, by its pattern.
    Arguments(Part<'a>),
    /// What an argument is, by its entry in the pattern or its name: what calls in the file pass, and the default.
    Argument(Part<'a>),
}

/// An attribute: its name in an entry, and what it is.
#[derive(Clone)]
pub struct Attribute<'a> {
    /// The name.
    pub name: Part<'a>,
    /// What it is.
    pub meaning: Meaning<'a>,
}

/// Finds out what expressions are.
pub struct Values<'a, 's> {
    sources: &'s Sources<'a>,
    // How many expressions, and entries, may still be looked at.
    steps: Cell<usize>,
    entries: Cell<usize>,
}

// Whether what writes a name writes this one. Most are written as they are.
fn is_named(node: &SyntaxNode, name: &str) -> bool {
    match node.kind() {
        SyntaxKind::NODE_IDENT => node.element_ref().text() == name,
        _ => name_text(node) == name,
    }
}

/// Returns the names of a path of attributes.
pub fn names_of(path: &Attrpath) -> Vec<String> {
    path.attrs().map(|attr| name_text(attr.syntax())).collect()
}

// What an entry gives after so many names of its path.
fn after<'a>(source: &Source<'a>, entry: &AttrpathValue, count: usize) -> Option<Meaning<'a>> {
    if entry.attrpath()?.attrs().nth(count).is_some() {
        return Some(Meaning::Rest(source.part(entry.syntax().clone()), count));
    }
    let value = entry.value()?;
    Some(Meaning::Expr(source.part(value.syntax().clone())))
}

// The attribute that the name of an index in the path of an entry is.
fn attribute_in<'a>(source: &Source<'a>, entry: &AttrpathValue, index: usize) -> Option<Attribute<'a>> {
    let name = entry.attrpath()?.attrs().nth(index)?;
    Some(Attribute {
        name: source.part(name.syntax().clone()),
        meaning: after(source, entry, index + 1)?,
    })
}

impl<'a, 's> Values<'a, 's> {
    /// Starts before anything has been looked at.
    pub fn new(sources: &'s Sources<'a>) -> Values<'a, 's> {
        Values {
            sources,
            steps: Cell::new(MOST_STEPS),
            entries: Cell::new(MOST_ENTRIES),
        }
    }

    // Takes a step, if one is left.
    fn has_step(&self) -> bool {
        let left = self.steps.get();
        self.steps.set(left.saturating_sub(1));
        left > 0
    }

    // Looks at an entry, if it may.
    fn has_entry(&self) -> bool {
        self.has_entries(1)
    }

    // Looks at so many entries, if it may.
    fn has_entries(&self, count: usize) -> bool {
        let left = self.entries.get();
        self.entries.set(left.saturating_sub(count));
        left >= count
    }

    /// Returns the expression of the file that a call loads.
    pub fn loaded(&self, source: &Source<'a>, call: &Apply) -> Option<Part<'a>> {
        let (_, path) = loaded_by(call)?;
        self.file(&source.part(path))
    }

    /// Returns the expression of the file that a path names.
    pub fn file(&self, path: &Part<'a>) -> Option<Part<'a>> {
        let file = self.sources.at(&file_at(&self.sources.named(path)?)?)?;
        let root = Root::cast(file.root()?.node)?;
        Some(file.part(root.expr()?.syntax().clone()))
    }

    /// Returns the attributes of a name that a meaning has, those of the outermost operand of `//` first.
    pub fn select(&self, meaning: &Meaning<'a>, name: &str) -> Vec<Attribute<'a>> {
        if !self.has_step() {
            return Vec::new();
        }
        match meaning {
            Meaning::Expr(part) => self.select_in(part, name),
            Meaning::Rest(part, index) => {
                let entry = AttrpathValue::cast(part.node.clone());
                let attribute = entry.and_then(|entry| attribute_in(&part.source, &entry, *index));
                let named = attribute.filter(|attribute| is_named(&attribute.name.node, name));
                named.into_iter().collect()
            }
            Meaning::Arguments(part) => {
                let mut attributes = self.arguments(part).into_iter();
                let named = attributes.find(|attribute| is_named(&attribute.name.node, name));
                named.into_iter().collect()
            }
            Meaning::Inherited(_) | Meaning::Argument(_) => self.select_each(self.next(meaning), name),
        }
    }

    // The attributes of a name that some meanings have.
    fn select_each(&self, meanings: Vec<Meaning<'a>>, name: &str) -> Vec<Attribute<'a>> {
        let attributes = meanings.iter().flat_map(|meaning| self.select(meaning, name));
        attributes.collect()
    }

    /// Returns the attributes that a path of names leads to.
    pub fn follow(&self, meaning: Meaning<'a>, names: &[String]) -> Vec<Attribute<'a>> {
        let Some((first, rest)) = names.split_first() else {
            return Vec::new();
        };
        let attributes = self.select(&meaning, first);
        rest.iter().fold(attributes, |attributes, name| {
            let meanings = attributes.into_iter().map(|attribute| attribute.meaning);
            self.select_each(meanings.collect(), name)
        })
    }

    // The attributes of a name that an expression has.
    fn select_in(&self, part: &Part<'a>, name: &str) -> Vec<Attribute<'a>> {
        let source = &part.source;
        match Expr::cast(part.node.clone()) {
            Some(Expr::AttrSet(set)) => self.entries_where(source, &set, |node| is_named(node, name)),
            Some(Expr::BinOp(update)) => self.select_updated(source, &update, name),
            Some(expr) => self.select_each(self.inside(source, expr), name),
            None => Vec::new(),
        }
    }

    // The attributes that the entries of a set give and whose names pass a test.
    fn entries_where(
        &self,
        source: &Source<'a>,
        set: &AttrSet,
        test: impl Fn(&SyntaxNode) -> bool,
    ) -> Vec<Attribute<'a>> {
        let first = |entry: &AttrpathValue| entry.attrpath()?.attrs().next();
        let has_name = |entry: &AttrpathValue| first(entry).is_some_and(|attr| test(attr.syntax()));
        let written = set.attrpath_values().take_while(|_| self.has_entry()).filter(has_name);
        let written = written.filter_map(|entry| attribute_in(source, &entry, 0));
        let inherited = set.inherits().flat_map(|inherit| inherit.attrs());
        let inherited = inherited.take_while(|_| self.has_entry());
        let inherited = inherited.filter(|attr| test(attr.syntax())).map(|attr| {
            let name = source.part(attr.syntax().clone());
            let meaning = Meaning::Inherited(name.clone());
            Attribute { name, meaning }
        });
        written.chain(inherited).collect()
    }

    fn select_updated(&self, source: &Source<'a>, update: &BinOp, name: &str) -> Vec<Attribute<'a>> {
        if update.operator() != Some(BinOpKind::Update) {
            return Vec::new();
        }
        let operand = |expr: Option<Expr>| {
            let meaning = expr.map(|expr| Meaning::Expr(source.part(expr.syntax().clone())));
            meaning.map_or_else(Vec::new, |meaning| self.select(&meaning, name))
        };
        let after = operand(update.rhs());
        if after.is_empty() {
            operand(update.lhs())
        } else {
            after
        }
    }

    // The arguments that a pattern takes by name.
    fn arguments(&self, pattern: &Part<'a>) -> Vec<Attribute<'a>> {
        let entries = Pattern::cast(pattern.node.clone()).map(|pattern| pattern.pat_entries());
        let entries = entries.into_iter().flatten().take_while(|_| self.has_entry());
        let argument = |entry: PatEntry| {
            Some(Attribute {
                name: pattern.source.part(entry.ident()?.syntax().clone()),
                meaning: Meaning::Argument(pattern.source.part(entry.syntax().clone())),
            })
        };
        entries.filter_map(argument).collect()
    }

    // What a meaning is that has no attributes of its own.
    fn next(&self, meaning: &Meaning<'a>) -> Vec<Meaning<'a>> {
        match meaning {
            Meaning::Expr(part) => {
                let expr = Expr::cast(part.node.clone());
                expr.map_or_else(Vec::new, |expr| self.inside(&part.source, expr))
            }
            Meaning::Inherited(part) => self.inherited(part),
            Meaning::Argument(part) => {
                let default = PatEntry::cast(part.node.clone()).and_then(|entry| entry.default());
                let default = default.map(|default| part.source.part(default.syntax().clone()));
                let passed = self.passed(part).into_iter();
                passed.chain(default.map(Meaning::Expr)).collect()
            }
            Meaning::Rest(..) | Meaning::Arguments(_) => Vec::new(),
        }
    }

    // What an expression is that is no set itself.
    fn inside(&self, source: &Source<'a>, expr: Expr) -> Vec<Meaning<'a>> {
        let inner = match expr {
            Expr::Root(root) => root.expr(),
            Expr::Paren(paren) => paren.expr(),
            Expr::LetIn(let_in) => let_in.body(),
            Expr::With(with) => with.body(),
            Expr::Assert(assert) => assert.body(),
            Expr::Ident(name) => return self.referred(&source.part(name.syntax().clone())),
            Expr::Apply(call) => return self.applied(source, &call),
            Expr::IfElse(choice) => return choices(source, &choice),
            Expr::Select(select) => return self.selected(source, &select),
            _ => None,
        };
        let part = inner.map(|inner| source.part(inner.syntax().clone()));
        part.into_iter().map(Meaning::Expr).collect()
    }

    // What a selection is: what its path leads to, or what follows `or`.
    fn selected(&self, source: &Source<'a>, select: &Select) -> Vec<Meaning<'a>> {
        let meaning = |expr: Expr| Meaning::Expr(source.part(expr.syntax().clone()));
        let names = select.attrpath().map(|path| names_of(&path)).unwrap_or_default();
        let found = select.expr().map(|set| self.follow(meaning(set), &names));
        let found = found.into_iter().flatten().map(|attribute| attribute.meaning);
        found.chain(select.default_expr().map(meaning)).collect()
    }

    // What a call is: the expression of a file, or the bodies of a function.
    fn applied(&self, source: &Source<'a>, call: &Apply) -> Vec<Meaning<'a>> {
        if loaded_by(call).is_some() {
            return self.loaded(source, call).into_iter().map(Meaning::Expr).collect();
        }
        let function = call.lambda().map(|function| source.part(function.syntax().clone()));
        let functions = function.map_or_else(Vec::new, |part| self.functions(&Meaning::Expr(part)));
        let body = |part: Part<'a>| {
            let body = Lambda::cast(part.node.clone())?.body()?;
            Some(Meaning::Expr(part.source.part(body.syntax().clone())))
        };
        functions.into_iter().filter_map(body).collect()
    }

    /// Returns the functions that a meaning is.
    pub fn functions(&self, meaning: &Meaning<'a>) -> Vec<Part<'a>> {
        if !self.has_step() {
            return Vec::new();
        }
        match meaning {
            Meaning::Expr(part) if part.node.kind() == SyntaxKind::NODE_LAMBDA => vec![part.clone()],
            _ => {
                let next = self.next(meaning);
                next.iter().flat_map(|meaning| self.functions(meaning)).collect()
            }
        }
    }

    // What a name of an `inherit` refers to.
    fn inherited(&self, name: &Part<'a>) -> Vec<Meaning<'a>> {
        let attributes = self.inherited_from(name);
        if attributes.is_empty() {
            return self.referred(name);
        }
        attributes.into_iter().map(|attribute| attribute.meaning).collect()
    }

    /// Returns the attributes of the source of an `inherit` that one of its names refers to.
    pub fn inherited_from(&self, name: &Part<'a>) -> Vec<Attribute<'a>> {
        let inherit = name.node.parent().and_then(Inherit::cast);
        let from = inherit.and_then(|inherit| inherit.from()?.expr());
        let from = from.map(|from| Meaning::Expr(name.source.part(from.syntax().clone())));
        from.map_or_else(Vec::new, |from| self.select(&from, &name_text(&name.node)))
    }

    // What a name refers to in its scopes.
    fn referred(&self, name: &Part<'a>) -> Vec<Meaning<'a>> {
        let Some(names) = name.source.analysis().map(|analysis| analysis.names()) else {
            return Vec::new();
        };
        let start = name.node.text_range().start();
        let index = names
            .references
            .partition_point(|one| one.name.text_range().start() < start);
        let reference = names.references.get(index).filter(|one| one.name == name.node);
        match reference.map(|reference| (reference.binding, reference.is_open)) {
            Some((Some(number), _)) => {
                let scope = &names.bindings[number].scope;
                let parts = names.bindings[number..].iter();
                let parts = parts.take_while(|one| one.scope == *scope && self.has_entry());
                let parts = parts.filter(|one| one.first == number);
                parts
                    .filter_map(|one| bound(&name.source.part(one.name.clone())))
                    .collect()
            }
            Some((None, true)) => {
                let attributes = self.of_with(name).into_iter();
                attributes.map(|attribute| attribute.meaning).collect()
            }
            _ => Vec::new(),
        }
    }

    /// Returns the attributes that a name refers to which the innermost `with` around it gives.
    pub fn of_with(&self, name: &Part<'a>) -> Vec<Attribute<'a>> {
        let text = name_text(&name.node);
        let withs = name.node.ancestors().filter_map(With::cast);
        let around = withs.filter(|with| with.body().is_some_and(|body| is_in(&name.node, &body)));
        let mut attributes = around.map(|with| {
            let set = with.namespace().map(|set| name.source.part(set.syntax().clone()));
            set.map_or_else(Vec::new, |set| self.select(&Meaning::Expr(set), &text))
        });
        attributes.find(|found| !found.is_empty()).unwrap_or_default()
    }
}

// Whether a node is in an expression.
fn is_in(node: &SyntaxNode, expr: &Expr) -> bool {
    expr.syntax().text_range().contains_range(node.text_range())
}

// The two branches of an `if`.
fn choices<'a>(source: &Source<'a>, choice: &IfElse) -> Vec<Meaning<'a>> {
    let branches = choice.body().into_iter().chain(choice.else_body());
    let parts = branches.map(|branch| source.part(without_parens(branch).syntax().clone()));
    parts.map(Meaning::Expr).collect()
}

// What a name is bound to by its entry.
fn bound<'a>(name: &Part<'a>) -> Option<Meaning<'a>> {
    let parent = name.node.parent()?;
    match parent.kind() {
        SyntaxKind::NODE_ATTRPATH => after(&name.source, &AttrpathValue::cast(parent.parent()?)?, 1),
        SyntaxKind::NODE_INHERIT => Some(Meaning::Inherited(name.clone())),
        SyntaxKind::NODE_PAT_ENTRY => Some(Meaning::Argument(name.source.part(parent))),
        SyntaxKind::NODE_IDENT_PARAM => Some(Meaning::Argument(name.clone())),
        SyntaxKind::NODE_PAT_BIND => Some(Meaning::Arguments(name.source.part(parent.parent()?))),
        _ => None,
    }
}
