//! Attributes: of sets of this file or another one, of `builtins`, and those that a set may have.

use super::names::item_of;
use super::{Item, FUNCTION, PROPERTY};
use crate::analysis::name_text;
use crate::features::builtins::{builtins, is_builtins};
use crate::features::comments::documentation;
use crate::features::identifiers::attribute;
use crate::features::option_paths::{config_path, path_of, shown};
use crate::features::values::{Attribute, Meaning, Values};
use crate::options::Options;
use crate::request::Request;
use rnix::ast::AttrpathValue;
use rnix::syntax::ast::AstNode as _;
use rnix::{SyntaxKind, SyntaxNode};

/// A text about an option is cut to this many characters.
const MOST_CHARACTERS: usize = 1000;

// Whether the value of an entry is a function.
fn is_function(entry: &SyntaxNode) -> bool {
    let value = AttrpathValue::cast(entry.clone()).and_then(|entry| entry.value());
    value.is_some_and(|value| value.syntax().kind() == SyntaxKind::NODE_LAMBDA)
}

fn member(request: &Request, member: &Attribute) -> Item {
    let (name, entry) = (name_text(&member.name.node), member.entry());
    let kind = if is_function(&entry) { FUNCTION } else { PROPERTY };
    let detail = format!("attribute, {}", request.line_of(&member.name));
    Item {
        new: Some(attribute(&name)),
        text: documentation(&entry),
        ..Item::new(&name, kind, detail)
    }
}

// The item of an option, or of the beginning of paths of options.
fn option(name: &str, inside: &Options) -> Item {
    let detail = inside.about.as_ref().map_or("options", |about| about.kind.as_str());
    let text = inside.about.as_ref().map(|about| shown(about, MOST_CHARACTERS));
    Item {
        new: Some(attribute(name)),
        text,
        ..Item::new(name, PROPERTY, detail.to_owned())
    }
}

// The options after a path.
fn options(request: &Request, path: &[String]) -> Vec<Item> {
    let found = request.settings.options().and_then(|all| all.at(path));
    let names = found.into_iter().flat_map(Options::names);
    names.map(|(name, inside)| option(name, inside)).collect()
}

/// Returns the attributes of an expression after a path.
pub fn attributes(request: &Request, base: &SyntaxNode, path: &[String]) -> Vec<Item> {
    if path.is_empty() && is_builtins(request.analysis, base) {
        return builtins().iter().map(item_of).collect();
    }
    let set = Meaning::Expr(request.part(base.clone()));
    let members = Values::new(request.sources).members(set, path);
    let mut items: Vec<Item> = members.iter().map(|one| member(request, one)).collect();
    if let Some(path) = config_path(request.analysis, base, path) {
        items.extend(options(request, &path));
    }
    items
}

/// Returns the options that an entry in a set may set, after a path.
pub fn entries(request: &Request, set: &SyntaxNode, path: &[String]) -> Vec<Item> {
    if request.settings.options().is_none() {
        return Vec::new();
    }
    options(request, &path_of(set, path))
}
