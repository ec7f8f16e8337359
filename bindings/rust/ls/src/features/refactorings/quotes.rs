//! Names of attributes in quotes, and without.

use super::Selection;
use crate::analysis::name_text;
use crate::features::fixes::{shortened, Fix};
use crate::features::identifiers::{is_identifier, quoted};
use rnix::{SyntaxKind, SyntaxNode};

// The name of an attribute that has the selection, or is selected.
fn name_at(selection: &Selection) -> Option<SyntaxNode> {
    let is_name = |name: &SyntaxNode| {
        let around = name.parent().map(|parent| parent.kind());
        matches!(around, Some(SyntaxKind::NODE_ATTRPATH | SyntaxKind::NODE_INHERIT))
    };
    let kinds = [SyntaxKind::NODE_STRING, SyntaxKind::NODE_IDENT];
    kinds.into_iter().filter_map(|kind| selection.node(kind)).find(is_name)
}

/// Returns the action that writes a name in quotes without them, if it needs none, or a selected name in quotes.
pub fn changed(selection: &Selection) -> Option<Fix> {
    let name = name_at(selection)?;
    let (text, range) = (name_text(&name), name.text_range());
    let is_quoted = name.kind() == SyntaxKind::NODE_STRING;
    let is_offered = if is_quoted {
        is_identifier(&text) && name.children().next().is_none()
    } else {
        range == selection.range
    };
    if !is_offered {
        return None;
    }
    let (how, new) = if is_quoted {
        ("without quotes", text.clone())
    } else {
        ("in quotes", quoted(&text))
    };
    selection.kept(format!("Write `{}` {how}", shortened(&text)), vec![(range, new)])
}

#[cfg(test)]
mod tests {
    use super::super::tests::{after, titled};
    use super::changed;

    #[test]
    fn needless_quotes_go() {
        let text = |marked| after(changed, marked).unwrap();
        assert_eq!(text("{ |\"a\" = 1; }"), "{ a = 1; }");
        assert_eq!(text("x: x.a.\"b|\".c"), "x: x.a.b.c");
        assert_eq!(text("let \"a|\" = 1; in a"), "let a = 1; in a");
        assert_eq!(text("a: { inherit \"a|\"; }"), "a: { inherit a; }");
        assert_eq!(
            titled(changed, "{ |\"a\" = 1; }").unwrap().0,
            "Write `a` without quotes"
        );
        for marked in [
            "{ |\"a b\" = 1; }",
            "{ |\"in\" = 1; }",
            "x: { |\"${x}\" = 1; }",
            "[ |\"a\" ]",
        ] {
            assert_eq!(after(changed, marked), None, "{marked}");
        }
    }

    #[test]
    fn a_selected_name_gets_quotes() {
        let text = |marked| after(changed, marked);
        assert_eq!(text("{ |a| = 1; }").unwrap(), "{ \"a\" = 1; }");
        assert_eq!(text("x: x.|a|.b").unwrap(), "x: x.\"a\".b");
        assert_eq!(titled(changed, "{ |a| = 1; }").unwrap().0, "Write `a` in quotes");
        for marked in ["{ |a = 1; }", "|x|: x", "x: [ |x| ]", "x: |x|.a"] {
            assert_eq!(text(marked), None, "{marked}");
        }
    }
}
