//! Which options of NixOS the entries of a module set, and what is said of them.

use crate::analysis::{name_text, Analysis};
use crate::options::About;
use rnix::ast::AttrpathValue;
use rnix::syntax::ast::AstNode as _;
use rnix::{SyntaxKind, SyntaxNode};

// The names of the path of an entry.
fn names_of(entry: &AttrpathValue) -> Vec<String> {
    let attrs = entry.attrpath().into_iter().flat_map(|path| path.attrs());
    attrs.map(|attr| name_text(attr.syntax())).collect()
}

/// Returns the path of the option that an entry in a node sets by a path: with those of the entries around it, up to a function or a `let`, and without
/// `config` at the beginning.
pub fn path_of(node: &SyntaxNode, path: &[String]) -> Vec<String> {
    use SyntaxKind::*;
    let is_inside = |node: &SyntaxNode| {
        let is_bound = node
            .parent()
            .is_some_and(|parent| matches!(parent.kind(), NODE_LET_IN | NODE_LEGACY_LET));
        node.kind() != NODE_LAMBDA && !(is_bound && node.kind() == NODE_ATTRPATH_VALUE)
    };
    // A brace with one name after it is read as a function without a body.
    let outside = || node.parent().and_then(|lambda| lambda.parent());
    let first = if node.kind() == NODE_PATTERN {
        outside()
    } else {
        Some(node.clone())
    };
    let around = first.iter().flat_map(SyntaxNode::ancestors).take_while(is_inside);
    let entries: Vec<AttrpathValue> = around.filter_map(AttrpathValue::cast).collect();
    let outer = entries.iter().rev().flat_map(names_of);
    let mut all: Vec<String> = outer.chain(path.iter().cloned()).collect();
    if all.first().is_some_and(|name| name == "config") {
        all.remove(0);
    }
    all
}

/// Returns the path of the option that a selection from an expression reads, if the expression is the argument `config` of a module.
pub fn config_path(analysis: &Analysis, base: &SyntaxNode, path: &[String]) -> Option<Vec<String>> {
    let is_named = base.kind() == SyntaxKind::NODE_IDENT && base.text() == "config";
    let name = analysis.name_at(base.text_range().start()).filter(|_| is_named)?;
    let binding = analysis.bound_to(&name).and_then(|number| analysis.binding(number))?;
    (binding.scope.kind() == SyntaxKind::NODE_LAMBDA).then(|| path.to_vec())
}

/// Returns what is said of an option, in Markdown, cut to so many characters.
pub fn shown(about: &About, most: usize) -> String {
    let default = about
        .default
        .as_ref()
        .map(|default| format!("Default: `{default}`\n\n"));
    let text = format!("{}{}", default.unwrap_or_default(), about.description.trim());
    match text.char_indices().nth(most) {
        Some((end, _)) => format!("{} ..", &text[..end]),
        None => text,
    }
}

#[cfg(test)]
mod tests {
    use super::*;

    // The path of the last entry of a text.
    fn path(text: &str) -> String {
        let analysis = Analysis::new(text).unwrap();
        let entries = analysis
            .root()
            .descendants()
            .filter(|node| node.kind() == SyntaxKind::NODE_ATTRPATH_VALUE);
        path_of(&entries.last().unwrap(), &[]).join(".")
    }

    #[test]
    fn the_path_of_an_option_begins_at_the_module() {
        assert_eq!(
            path("{ ... }: { services.openssh.enable = true; }"),
            "services.openssh.enable"
        );
        assert_eq!(
            path("{ ... }: { config = mkIf a { services.x = { enable = true; }; }; }"),
            "services.x.enable"
        );
        assert_eq!(path("let a.b = { c = 1; }; in 1"), "c");
        assert_eq!(path("{ a = map (x: { b = 1; }) y; }"), "b");
        assert_eq!(path("{ a.\"b c\".d = 1; }"), "a.b c.d");
    }

    #[test]
    fn long_texts_are_cut() {
        let about = About {
            kind: "boolean".to_owned(),
            default: Some("false".to_owned()),
            description: "äb".repeat(10),
        };
        assert_eq!(shown(&about, 21), "Default: `false`\n\näbä ..");
    }
}
