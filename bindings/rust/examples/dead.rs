//! Usage: dead < FILE
//! Prints each name that a `let` binds but never uses. It compares names only, so a use of an inner binding with the same name counts too.

use rnix::ast::{Attr, AttrpathValue, HasEntry, Ident, LetIn};
use rnix::syntax::ast::AstNode;
use rnix::{ColumnUnit, LineIndex, Root, SyntaxKind};
use std::collections::HashSet;
use std::io::{self, Read};

// The name that an entry binds, if it is an identifier.
fn bound(entry: &AttrpathValue) -> Option<Ident> {
    match entry.attrpath()?.attrs().next()? {
        Attr::Ident(name) => Some(name),
        _ => None,
    }
}

// The names that are used as values in a `let`.
fn used(let_in: &LetIn) -> HashSet<String> {
    let names = let_in.syntax().elements().filter_map(|element| element.cast::<Ident>());
    let is_value = |name: &Ident| {
        let parent = name.syntax().parent().map(|parent| parent.kind());
        !matches!(
            parent,
            Some(SyntaxKind::NODE_ATTRPATH | SyntaxKind::NODE_PAT_ENTRY | SyntaxKind::NODE_IDENT_PARAM)
        )
    };
    names.filter(is_value).map(|name| name.to_string()).collect()
}

fn main() -> io::Result<()> {
    let mut text = String::new();
    io::stdin().read_to_string(&mut text)?;
    let lines = LineIndex::new(&text, ColumnUnit::Chars);
    let root = Root::parse(&text).syntax();
    for let_in in root.elements().filter_map(|element| element.cast::<LetIn>()) {
        let used = used(&let_in);
        for name in let_in.attrpath_values().filter_map(|entry| bound(&entry)) {
            if used.contains(&name.to_string()) {
                continue;
            }
            if let Some(position) = lines.position(name.syntax().text_range().start().into()) {
                println!("{}:{}: {name} is not used", position.line + 1, position.column + 1);
            }
        }
    }
    Ok(())
}
