//! Gives an expression a name in a `let`.

use super::Selection;
use crate::analysis::{name_text, Analysis};
use crate::edits::Edit;
use crate::features::fixes::Fix;
use rnix::ast::{AttrpathValue, Expr, Lambda, LetIn, With};
use rnix::syntax::ast::AstNode as _;
use rnix::{SyntaxKind, SyntaxNode, TextRange, TextSize};
use std::collections::HashSet;

/// The name of what is extracted, or its beginning.
const NAME: &str = "value";

// The range without white space at its ends.
fn trimmed(selection: &Selection) -> TextRange {
    let text = selection.part(selection.range);
    let start = selection.range.start() + TextSize::of(&text[..text.len() - text.trim_start().len()]);
    TextRange::at(start, TextSize::of(text.trim()))
}

// The expression that is selected, if it is more than a name.
fn selected(selection: &Selection) -> Option<SyntaxNode> {
    let range = trimmed(selection);
    if range.is_empty() {
        return None;
    }
    let element = selection.analysis.root().covering_element(range);
    let node = element
        .ancestors()
        .find(|node| node.text_range() != range || is_extracted(node))?;
    (node.text_range() == range).then_some(node)
}

// Whether a node is an expression that may get a name, and not a name itself.
fn is_extracted(node: &SyntaxNode) -> bool {
    let around = node.parent().map(|parent| parent.kind());
    let is_name = matches!(around, Some(SyntaxKind::NODE_ATTRPATH | SyntaxKind::NODE_INHERIT));
    Expr::can_cast(node.kind()) && node.kind() != SyntaxKind::NODE_IDENT && !is_name
}

// The expression around a node that may get a `let`: the value of an entry, what follows `:`, `with` or `in`, or the whole text.
fn place_of(node: &SyntaxNode) -> Option<SyntaxNode> {
    let mut around = node.ancestors();
    around.find(|expr| {
        let Some(parent) = expr.parent() else {
            return false;
        };
        let body = match parent.kind() {
            SyntaxKind::NODE_ROOT => return Expr::can_cast(expr.kind()),
            SyntaxKind::NODE_ATTRPATH_VALUE => AttrpathValue::cast(parent).and_then(|entry| entry.value()),
            SyntaxKind::NODE_LAMBDA => Lambda::cast(parent).and_then(|lambda| lambda.body()),
            SyntaxKind::NODE_WITH => With::cast(parent).and_then(|with| with.body()),
            SyntaxKind::NODE_LET_IN => LetIn::cast(parent).and_then(|let_in| let_in.body()),
            _ => None,
        };
        body.is_some_and(|body| body.syntax() == expr)
    })
}

// A name that the text does not use.
fn new_name(analysis: &Analysis) -> String {
    let names = analysis.names();
    let bound = names.bindings.iter().map(|one| &one.name);
    let used: HashSet<String> = bound
        .chain(names.references.iter().map(|one| &one.name))
        .map(name_text)
        .collect();
    let numbered = (2_usize..).map(|number| format!("{NAME}{number}"));
    let mut candidates = std::iter::once(NAME.to_owned()).chain(numbered);
    candidates.find(|name| !used.contains(name)).unwrap_or_default()
}

// The edit that adds an entry to the `let` whose body is a place, or gives the place a `let`.
fn binding(selection: &Selection, place: &SyntaxNode, entry: &str) -> Option<Edit> {
    let let_in = place.parent().and_then(LetIn::cast);
    let Some(word) = let_in.and_then(|let_in| let_in.in_token()) else {
        let at = TextRange::empty(place.text_range().start());
        return Some((at, format!("let {entry} in ")));
    };
    let start = usize::from(word.text_range().start());
    let at = TextRange::empty(word.text_range().start());
    let own_line = || format!("  {entry}\n{}", selection.indentation(start));
    let is_first = selection.is_first_in_line(start);
    Some((at, if is_first { own_line() } else { format!("{entry} ") }))
}

/// Returns the action that gives the selected expression a name in a `let`.
pub fn extracted(selection: &Selection) -> Option<Fix> {
    if selection.analysis.has_errors() {
        return None;
    }
    let node = selected(selection)?;
    let place = place_of(&node).filter(|place| *place != node)?;
    let name = new_name(selection.analysis);
    let edits = vec![
        binding(selection, &place, &format!("{name} = {node};"))?,
        (node.text_range(), name.clone()),
    ];
    let is_kept = selection.edited(&edits)?.adds(&name);
    is_kept.then(|| Fix {
        title: "Extract into a `let`".to_owned(),
        edits,
    })
}

#[cfg(test)]
mod tests {
    use super::super::tests::after;
    use super::extracted;

    #[test]
    fn an_expression_gets_a_name() {
        let text = |marked| after(extracted, marked).unwrap();
        assert_eq!(
            text("{ a = b: [ |(b 1)| ]; }"),
            "{ a = b: let value = (b 1); in [ value ]; }"
        );
        assert_eq!(text("{ a = f |[ 1 ]| 2; }"), "{ a = let value = [ 1 ]; in f value 2; }");
        assert_eq!(text("a: f |(a 1)|"), "a: let value = (a 1); in f value");
        assert_eq!(
            text("let a = 1; in [ |(a + 1) | ]"),
            "let a = 1; value = (a + 1); in [ value  ]"
        );
        assert_eq!(
            text("let\n  a = 1;\nin\n[ |{ b = a; }| ]"),
            "let\n  a = 1;\n  value = { b = a; };\nin\n[ value ]"
        );
        assert_eq!(text("with p; [ |(a b)| ]"), "with p; let value = (a b); in [ value ]");
        assert_eq!(
            text("value: [ |\"a\"| value2 ]"),
            "value: let value3 = \"a\"; in [ value3 value2 ]"
        );
        assert_eq!(
            text("{ a ? 1, b ? [ |2| ] }: b"),
            "let value = 2; in { a ? 1, b ? [ value ] }: b"
        );
    }

    #[test]
    fn names_and_parts_of_expressions_stay() {
        for marked in [
            "a: [ |a| ]",
            "a: |a 1|",
            "a: 1 + |2 + 3|",
            "a: [ | | ]",
            "{ |\"a\"| = [ 1 ]; }",
            "{ a, b ? [ |(a 1)| ] }: b",
            "rec { a = 1; ${|(a 1)|} = 2; } )",
        ] {
            assert_eq!(after(extracted, marked), None, "{marked}");
        }
    }
}
