//! The attributes of Nix's `builtins`, and what the Nix manual says of them.

use crate::analysis::Analysis;
use crate::json::Value;
use rnix::{SyntaxKind, SyntaxNode};
use std::sync::OnceLock;

/// For each documented function its arguments and its text; data/README.md says where this comes from.
const DOCUMENTED: &str = include_str!("../../data/builtins.json");
/// The same of functions that later versions have, with the version since which they exist where that is known.
const LATER: &str = include_str!("../../data/later.json");
/// The other attributes of the same version of Nix, without those that are also documented under another name.
const UNDOCUMENTED: &[&str] = &[
    "addErrorContext",
    "appendContext",
    "builtins",
    "currentSystem",
    "currentTime",
    "derivation",
    "derivationStrict",
    "false",
    "fetchMercurial",
    "fetchTree",
    "findFile",
    "fromTOML",
    "getContext",
    "hasContext",
    "langVersion",
    "nixPath",
    "nixVersion",
    "null",
    "scopedImport",
    "storeDir",
    "true",
    "unsafeDiscardOutputDependency",
    "unsafeDiscardStringContext",
    "unsafeGetAttrPos",
];

/// An attribute of `builtins`.
pub struct Builtin {
    /// Its name.
    pub name: String,
    /// The name and the arguments, if it is documented.
    pub signature: Option<String>,
    /// What the manual says of it, in Markdown.
    pub text: Option<String>,
    /// What binds it.
    pub place: String,
}

/// What binds the names of Nix 2.8.
const NIX: &str = "Bound by Nix";

// What binds a function of later versions of Nix.
fn later(about: &Value) -> String {
    let since = about.get("since").map(|since| match since.as_str() {
        Some(version) => format!("{NIX} since version {version}"),
        None => format!("{NIX} since a version after 2.8"),
    });
    since.unwrap_or_else(|| NIX.to_owned())
}

// A documented function.
fn documented(name: &str, about: &Value) -> Option<Builtin> {
    let arguments = about.get("args")?.as_array()?.iter();
    let words: Vec<&str> = std::iter::once(name)
        .chain(arguments.filter_map(Value::as_str))
        .collect();
    Some(Builtin {
        name: name.to_owned(),
        signature: Some(words.join(" ")),
        text: Some(about.get("doc")?.as_str()?.to_owned()),
        place: later(about),
    })
}

// The functions of a table.
fn functions(table: &str) -> Vec<Builtin> {
    let Ok(Value::Object(members)) = Value::read(table) else {
        return Vec::new();
    };
    let functions = members.iter().filter_map(|(name, about)| documented(name, about));
    functions.collect()
}

fn read() -> Vec<Builtin> {
    let others = UNDOCUMENTED.iter().map(|name| Builtin {
        name: (*name).to_owned(),
        signature: None,
        text: None,
        place: NIX.to_owned(),
    });
    let documented = [DOCUMENTED, LATER].into_iter().flat_map(functions);
    documented.chain(others).collect()
}

/// Returns the attributes of `builtins`.
pub fn builtins() -> &'static [Builtin] {
    static ALL: OnceLock<Vec<Builtin>> = OnceLock::new();
    ALL.get_or_init(read)
}

/// Returns the attribute with a name.
pub fn builtin(name: &str) -> Option<&'static Builtin> {
    builtins().iter().find(|it| it.name == name)
}

/// Returns whether a node is the name `builtins`, and Nix binds it there.
pub fn is_builtins(analysis: &Analysis, node: &SyntaxNode) -> bool {
    node.kind() == SyntaxKind::NODE_IDENT
        && node.to_string() == "builtins"
        && analysis
            .name_at(node.text_range().start())
            .is_some_and(|name| name.reference.is_some() && analysis.bound_to(&name).is_none())
}

#[cfg(test)]
mod tests {
    use super::*;
    use std::collections::HashSet;

    #[test]
    fn each_function_is_in_one_table() {
        let names: HashSet<&str> = builtins().iter().map(|it| it.name.as_str()).collect();
        assert_eq!(names.len(), builtins().len());
        assert_eq!(functions(DOCUMENTED).len(), 87);
        assert_eq!(functions(LATER).len(), 9);
    }

    #[test]
    fn what_later_versions_have_says_so() {
        let place = |name: &str| builtin(name).unwrap().place.as_str();
        assert_eq!(place("map"), "Bound by Nix");
        assert_eq!(place("warn"), "Bound by Nix since version 2.23");
        assert_eq!(place("outputOf"), "Bound by Nix since a version after 2.8");
    }
}
