//! The attributes of sets.

use super::{attribute_in, Attribute, Meaning, Values};
use crate::analysis::name_text;
use crate::sources::Part;
use rnix::ast::{AttrpathValue, BinOp, BinOpKind, Expr};
use rnix::syntax::ast::AstNode as _;
use rnix::{SyntaxKind, SyntaxNode};
use std::collections::HashSet;

impl Attribute<'_> {
    /// Returns the entry that defines it.
    pub fn entry(&self) -> SyntaxNode {
        let name = &self.name.node;
        let parent = name.parent();
        let entry = match &parent {
            Some(path) if path.kind() == SyntaxKind::NODE_ATTRPATH => path.parent(),
            _ => parent,
        };
        entry.unwrap_or_else(|| name.clone())
    }
}

impl<'a> Values<'a, '_> {
    /// Returns the attributes that a path of names leads to the set of, each name once: the outermost operand of `//` hides others.
    pub fn members(&self, set: Meaning<'a>, names: &[String]) -> Vec<Attribute<'a>> {
        let sets = if names.is_empty() {
            vec![set]
        } else {
            let found = self.follow(set, names).into_iter();
            found.map(|attribute| attribute.meaning).collect()
        };
        let mut seen = HashSet::new();
        let all = sets.iter().flat_map(|set| self.all(set));
        all.filter(|attribute| seen.insert(name_text(&attribute.name.node)))
            .collect()
    }

    // The attributes of a meaning, those that hide others first.
    fn all(&self, meaning: &Meaning<'a>) -> Vec<Attribute<'a>> {
        if !self.has_step() {
            return Vec::new();
        }
        match meaning {
            Meaning::Expr(part) => self.all_in(part),
            Meaning::Rest(part, index) => {
                let entry = AttrpathValue::cast(part.node.clone());
                let attribute = entry.and_then(|entry| attribute_in(&part.source, &entry, *index));
                attribute.into_iter().collect()
            }
            Meaning::Arguments(part) => self.arguments(part),
            Meaning::Inherited(_) | Meaning::Argument(_) => self.all_of(self.next(meaning)),
        }
    }

    fn all_of(&self, meanings: Vec<Meaning<'a>>) -> Vec<Attribute<'a>> {
        meanings.iter().flat_map(|meaning| self.all(meaning)).collect()
    }

    // The attributes of an expression.
    fn all_in(&self, part: &Part<'a>) -> Vec<Attribute<'a>> {
        let source = &part.source;
        match Expr::cast(part.node.clone()) {
            Some(Expr::AttrSet(set)) => self.entries_where(source, &set, |_| true),
            Some(Expr::BinOp(update)) => self.all_of(operands(part, &update)),
            Some(expr) => self.all_of(self.inside(source, expr)),
            None => Vec::new(),
        }
    }
}

// The operands of `//`, the one that hides the other first.
fn operands<'a>(part: &Part<'a>, update: &BinOp) -> Vec<Meaning<'a>> {
    let is_update = update.operator() == Some(BinOpKind::Update);
    let both = update.rhs().into_iter().chain(update.lhs()).filter(|_| is_update);
    both.map(|expr| Meaning::Expr(part.source.part(expr.syntax().clone())))
        .collect()
}

#[cfg(test)]
mod tests {
    use super::*;
    use crate::documents::Documents;
    use crate::json::object;
    use crate::paths::SearchPath;
    use crate::sources::{Source, Sources};
    use crate::text::Encoding;

    // The attributes of the body of the last expression.
    fn members(text: &str) -> Vec<String> {
        let about = object([("uri", "file:///t.nix".into()), ("text", text.into())]);
        let params = object([("textDocument", about)]);
        let (mut documents, search) = (Documents::default(), SearchPath::default());
        documents.open(&params, Encoding::Utf16).unwrap();
        let source = Source::Open(documents.get(&params).unwrap());
        let sources = Sources::new(&documents, &search, Encoding::Utf16);
        let mut expr = source.analysis().unwrap().parse.tree().expr().unwrap();
        while let Expr::Lambda(lambda) = &expr {
            expr = lambda.body().unwrap();
        }
        let set = Meaning::Expr(source.part(expr.syntax().clone()));
        let found = Values::new(&sources).members(set, &[]).into_iter();
        found.map(|attribute| name_text(&attribute.name.node)).collect()
    }

    #[test]
    fn sets_are_found_through_names() {
        assert_eq!(members("let a = { b = 1; c.d = 2; }; in a"), ["b", "c"]);
        assert_eq!(members("let a.b = 1; a.c.d = 2; in a"), ["b", "c"]);
        assert_eq!(members("let a.c.d = 2; a.c.e = 3; in a.c"), ["d", "e"]);
        assert_eq!(members("let a = rec { b = c; c = { d = 1; }; }; in a.b"), ["d"]);
        assert_eq!(members("let x = { a = { b = 1; }; }; inherit (x) a; in a"), ["b"]);
        assert_eq!(members("let x = { b = 1; }; y = { inherit x; }; in y.x"), ["b"]);
        assert_eq!(members("let a = { \"b c\" = { d = 1; }; }; in a.\"b c\""), ["d"]);
    }

    #[test]
    fn sets_are_found_through_operators_and_bodies() {
        assert_eq!(members("{ a = 1; } // ({ b = 2; } // { a = 3; })"), ["a", "b"]);
        assert_eq!(
            members("with x; assert y; if z then { a = 1; } else { b = 2; }"),
            ["a", "b"]
        );
        assert_eq!(members("x.y or { a = 1; }"), ["a"]);
    }

    #[test]
    fn sets_are_found_through_arguments() {
        assert_eq!(members("{ a ? { b = 1; } }: a"), ["b"]);
        assert_eq!(members("args@{ a, b ? 1, ... }: args"), ["a", "b"]);
        assert_eq!(members("a: a"), [""; 0]);
    }

    #[test]
    fn sets_are_found_through_calls() {
        assert_eq!(members("(a: a) { b = 1; }"), ["b"]);
        assert_eq!(members("let f = x: x.a; in f { a = { b = 1; }; }"), ["b"]);
        assert_eq!(members("let f = x: y: (y); in f 1 { b = 1; }"), ["b"]);
        assert_eq!(
            members("rec { f = { a, ... }: a; g = (f) { a = { b = 1; }; }; }.g"),
            ["b"]
        );
        assert_eq!(members("let f = { a ? { b = 1; } }: a; in f { a.c = 1; }"), ["c", "b"]);
        assert_eq!(members("let f = x: x; in [ (f { a = 1; }) ]"), [""; 0]);
        assert_eq!(members("let f = x: f x; in f { a = 1; }"), [""; 0]);
    }

    #[test]
    fn what_refers_to_itself_ends() {
        assert_eq!(members("let a = b; b = a; in a"), [""; 0]);
        assert_eq!(members("let a = a.b // a; in a"), [""; 0]);
        assert_eq!(members("let inherit (a) a; in a.b"), [""; 0]);
    }
}
