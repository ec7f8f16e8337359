//! The arguments that the function of another file takes.

use super::{Item, PROPERTY};
use crate::analysis::name_text;
use crate::calls::{function_of, loaded_by};
use crate::features::fixes::shortened;
use crate::features::identifiers::is_identifier;
use crate::features::links::file_at;
use crate::features::refactorings::parameters::pattern_of;
use crate::request::Request;
use crate::sources::Source;
use rnix::ast::{Apply, Attr, AttrpathValue, Expr, Inherit, PatEntry};
use rnix::syntax::ast::AstNode as _;
use rnix::{SyntaxKind, SyntaxNode};
use std::collections::HashSet;

// The path in `callPackage ./x.nix { }` or `import ./x.nix { }`, of which a set, or what will be one, is the last argument.
fn path_before(set: &SyntaxNode) -> Option<SyntaxNode> {
    let node = match set.kind() {
        SyntaxKind::NODE_PATTERN => set.parent()?,
        _ => set.clone(),
    };
    let call = Apply::cast(node.parent()?)?;
    match call.lambda() {
        Some(Expr::Apply(load)) if load.syntax() != &node => loaded_by(&load).map(|(_, path)| path),
        _ => None,
    }
}

// The arguments that the function in a file takes by name.
fn arguments(file: &Source) -> Vec<PatEntry> {
    let lambda = file.analysis().and_then(|file| function_of(file.parse.tree().expr()?));
    let pattern = lambda.and_then(|lambda| pattern_of(&lambda));
    pattern.into_iter().flat_map(|pattern| pattern.pat_entries()).collect()
}

// What writes the first name of the path of an entry, or those that it inherits.
fn first_names(entry: &SyntaxNode) -> Vec<SyntaxNode> {
    let attrs: Vec<Attr> = match (AttrpathValue::cast(entry.clone()), Inherit::cast(entry.clone())) {
        (Some(value), _) => value
            .attrpath()
            .into_iter()
            .flat_map(|path| path.attrs())
            .take(1)
            .collect(),
        (_, Some(inherit)) => inherit.attrs().collect(),
        _ => Vec::new(),
    };
    attrs.into_iter().map(|attr| attr.syntax().clone()).collect()
}

// The names that a set has already.
fn names_in(set: &SyntaxNode) -> HashSet<String> {
    let names = set.children().flat_map(|entry| first_names(&entry));
    names.map(|name| name_text(&name)).collect()
}

fn item(entry: &PatEntry) -> Option<Item> {
    let name = entry.ident()?.to_string();
    let detail = match entry.default() {
        Some(default) => format!("argument, {}", shortened(&default.to_string())),
        None => "argument".to_owned(),
    };
    is_identifier(&name).then(|| Item::new(&name, PROPERTY, detail))
}

/// Returns the arguments of the function in the file that `callPackage` or `import` calls with a set, without those that the set has.
pub fn items(request: &Request, set: &SyntaxNode) -> Vec<Item> {
    let file = path_before(set).and_then(|path| file_at(request, &path));
    let Some(file) = file.and_then(|file| request.sources.at(&file)) else {
        return Vec::new();
    };
    let has = names_in(set);
    let all = arguments(&file);
    let missing = all.iter().filter_map(item).filter(|item| !has.contains(&item.label));
    missing.collect()
}
