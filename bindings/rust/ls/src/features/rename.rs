//! Renaming of what a name is bound to, with all its uses.
//!
//! It is refused where others see the name, and where a name would then refer to something else.

use super::comments::has_comment;
use crate::analysis::{name_text, Analysis, Name};
use crate::edits::{applied, Edit};
use crate::json::{object, Value};
use crate::protocol::{Failure, Outcome};
use crate::request::Request;
use rnix::ast::{Attr, Expr, Inherit};
use rnix::scopes::{resolve, Binding, Resolution};
use rnix::syntax::ast::AstNode as _;
use rnix::{Root, SyntaxKind, SyntaxNode, TextRange, TextSize};

const COMMENT: &str = "an `inherit` with comments has the name: give it its own entry first";
const ELSE: &str = "with the new name, some name would refer to something else";

// Whether a text is a name and nothing else.
fn is_name(text: &str) -> bool {
    let parse = Root::parse(text);
    let expr = parse.tree().expr();
    parse.errors().is_empty() && matches!(expr, Some(Expr::Ident(name)) if name.syntax().text() == text)
}

// Whether a text can refer to a name without writing it: operators call the first four, paths in `<>` use the next two, and the old `let` the last.
fn is_hidden(name: &str) -> bool {
    matches!(
        name,
        "__sub" | "__mul" | "__div" | "__lessThan" | "__findFile" | "__nixPath" | "__overrides"
    )
}

// Why a part of a binding cannot be renamed, if it cannot.
fn fixed(part: &Binding) -> Option<&'static str> {
    match (part.name.parent()?.kind(), part.scope.kind()) {
        (SyntaxKind::NODE_INHERIT, _) => Some("the name is inherited: give it its own entry first"),
        (SyntaxKind::NODE_PAT_ENTRY, _) => Some("callers give this argument by its name"),
        (_, SyntaxKind::NODE_ATTR_SET) => Some("the name is an attribute of a set, which other files may use"),
        _ if part.name.kind() != SyntaxKind::NODE_IDENT => Some("the name is written in quotes"),
        (_, SyntaxKind::NODE_LEGACY_LET) if part.name.text() == "body" => Some("the old `let` needs its `body`"),
        _ if is_hidden(&name_text(&part.name)) => Some("operators, paths in `<>` or the old `let` refer to the name"),
        _ => None,
    }
}

// The first binding of what the name is bound to, if it can be renamed.
fn renamed(analysis: &Analysis, name: Option<&Name>) -> Result<usize, Failure> {
    if analysis.has_errors() {
        return Err(Failure::refused("the text has errors: correct these first"));
    }
    let name = name.ok_or_else(|| Failure::refused("no name is here"))?;
    let number = analysis.bound_to(name);
    let number = number.ok_or_else(|| Failure::refused("nothing in this file binds the name"))?;
    let mut parts = analysis.names().bindings.iter().filter(|part| part.first == number);
    match parts.find_map(fixed) {
        Some(reason) => Err(Failure::refused(reason)),
        None => Ok(number),
    }
}

// The edit of a name in an `inherit` without a source and comments: it gets an entry of its own, and the other names stay inherited.
fn split(name: &SyntaxNode, new: &str) -> Option<Edit> {
    let inherit = Inherit::cast(name.parent()?).filter(|inherit| !has_comment(inherit.syntax()))?;
    let range = name.text_range();
    let is_after = |attr: &Attr| attr.syntax().text_range().start() > range.start();
    let has_after = inherit.attrs().any(|attr| is_after(&attr));
    let before = inherit.attrs().take_while(|attr| attr.syntax() != name).last();
    let start = match &before {
        Some(attr) => attr.syntax().text_range().end(),
        None => inherit.syntax().text_range().start(),
    };
    let space = match &before {
        Some(_) => text_between(inherit.syntax(), start, range.start()).map(|space| format!(";{space}"))?,
        None => String::new(),
    };
    let rest = if has_after { "; inherit" } else { "" };
    Some((
        TextRange::new(start, range.end()),
        format!("{space}{name} = {new}{rest}"),
    ))
}

// The text of a node between two offsets.
fn text_between(node: &SyntaxNode, start: TextSize, end: TextSize) -> Option<String> {
    let base = node.text_range().start();
    let text = node.to_string();
    text.get(usize::from(start - base)..usize::from(end - base))
        .map(str::to_owned)
}

// The edits that rename a binding and its uses.
fn edits(analysis: &Analysis, number: usize, new: &str) -> Option<Vec<Edit>> {
    let written = analysis.written_at(number).into_iter();
    let mut edits: Vec<Edit> = written.map(|place| (place, new.to_owned())).collect();
    for reference in analysis.names().uses(number) {
        edits.push(if reference.is_inherited {
            split(&reference.name, new)?
        } else {
            (reference.name.text_range(), new.to_owned())
        });
    }
    edits.sort_by_key(|(place, _)| (place.start(), place.end()));
    Some(edits)
}

// Whether as many names are bound and used as before, and those of one number refer to the bindings of one number.
fn is_like(before: &Resolution, after: &Resolution) -> bool {
    let firsts = |names: &Resolution| names.bindings.iter().map(|one| one.first).collect::<Vec<_>>();
    let referred = |names: &Resolution| names.references.iter().map(|one| one.binding).collect::<Vec<_>>();
    firsts(before) == firsts(after) && referred(before) == referred(after)
}

/// Returns whether the edited text has no errors, and each name in it refers to what it referred to before.
pub fn keeps_meaning(analysis: &Analysis, edits: &[Edit]) -> bool {
    let text = analysis.root().to_string();
    let parse = applied(&text, edits).and_then(|text| Root::try_parse(&text).ok());
    parse.is_some_and(|parse| parse.errors().is_empty() && is_like(analysis.names(), &resolve(&parse)))
}

// The edits that give what a name is bound to a new name.
fn rename_to(analysis: &Analysis, name: Option<&Name>, new: &str) -> Result<Vec<Edit>, Failure> {
    let number = renamed(analysis, name)?;
    if !is_name(new) {
        return Err(Failure::refused(format!("`{new}` is not a name")));
    }
    if is_hidden(new) {
        return Err(Failure::refused(format!(
            "operators, paths in `<>` or the old `let` refer to `{new}`"
        )));
    }
    match edits(analysis, number, new) {
        Some(edits) if keeps_meaning(analysis, &edits) => Ok(edits),
        Some(_) => Err(Failure::refused(ELSE)),
        None => Err(Failure::refused(COMMENT)),
    }
}

/// Returns the response to `textDocument/prepareRename`: the range and the text of the name.
///
/// # Errors
/// The name cannot be renamed; the message says why.
pub fn prepare(request: &Request) -> Outcome {
    let name = request.name()?;
    renamed(request.analysis, name.as_ref())?;
    let node = name.map(|name| name.node);
    let answer = |node: SyntaxNode| {
        object([
            ("range", request.range(node.text_range())),
            ("placeholder", node.to_string().into()),
        ])
    };
    Ok(node.map_or(Value::Null, answer))
}

/// Returns the response to `textDocument/rename`.
///
/// # Errors
/// The name cannot be renamed; the message says why.
pub fn rename(request: &Request) -> Outcome {
    let new = request.params.get("newName").and_then(Value::as_str);
    let new = new.ok_or_else(|| Failure::params("newName is missing"))?;
    let edits = rename_to(request.analysis, request.name()?.as_ref(), new)?;
    Ok(request.workspace_edit(&edits))
}

#[cfg(test)]
mod tests {
    use super::*;

    // The text after the name at the first `|` is renamed.
    fn renamed_text(marked: &str, new: &str) -> Result<String, String> {
        let at = marked.find('|').unwrap();
        let text = marked.replacen('|', "", 1);
        let analysis = Analysis::new(&text).unwrap();
        let name = analysis.name_at(TextSize::try_from(at).unwrap());
        let edits = rename_to(&analysis, name.as_ref(), new).map_err(|failure| failure.message)?;
        Ok(applied(&text, &edits).unwrap())
    }

    #[test]
    fn a_binding_and_its_uses_get_the_new_name() {
        let renamed = |text| renamed_text(text, "z").unwrap();
        assert_eq!(renamed("let |a = 1; in a + a.b"), "let z = 1; in z + z.b");
        assert_eq!(renamed("let a = 1; in a + a|"), "let z = 1; in z + z");
        assert_eq!(renamed("|x: x (x: x)"), "z: z (x: x)");
        assert_eq!(renamed("let |a.b = 1; a.c = 2; in a"), "let z.b = 1; z.c = 2; in z");
        assert_eq!(renamed("{ b, ... }@|a: a.b"), "{ b, ... }@z: z.b");
    }

    #[test]
    fn a_name_that_sets_inherit_gets_an_entry_there() {
        let renamed = |text| renamed_text(text, "z").unwrap();
        assert_eq!(renamed("let |a = 1; in { inherit a; }"), "let z = 1; in { a = z; }");
        assert_eq!(renamed("b: |a: { inherit b  a; }"), "b: z: { inherit b;  a = z; }");
        assert_eq!(renamed("b: |a: { inherit a b; }"), "b: z: { a = z; inherit b; }");
        assert_eq!(
            renamed("c: b: |a: { inherit b a c; }"),
            "c: b: z: { inherit b; a = z; inherit c; }"
        );
    }

    #[test]
    fn a_name_that_would_mean_something_else_is_refused() {
        let refused = |text, new| renamed_text(text, new).unwrap_err();
        assert_eq!(refused("let |a = 1; b = 2; in a", "b"), ELSE);
        assert_eq!(refused("|a: b: a", "b"), ELSE);
        assert_eq!(refused("|a: b: [ a b ]", "b"), ELSE);
        assert_eq!(refused("let |a = 1; in with x; [ a b ]", "b"), ELSE);
        assert_eq!(refused("|a: let inherit a; b = 1; in a", "b"), ELSE);
        assert_eq!(refused("|a: [ a true ]", "true"), ELSE);
    }

    #[test]
    fn names_that_others_see_are_refused_with_the_reason() {
        let refused = |text| renamed_text(text, "z").unwrap_err();
        assert!(refused("{ |a }: a").contains("callers"));
        assert!(refused("rec { |a = 1; b = a; }").contains("attribute"));
        assert!(refused("let inherit (x) |a; in a").contains("inherited"));
        assert!(refused("let \"|a\" = 1; in a").contains("quotes"));
        assert!(refused("let { |body = 1; }").contains("body"));
        assert!(refused("|a: { inherit /* b */ a; }").contains("comments"));
        assert!(refused("|a").contains("nothing in this file binds"));
        assert!(refused("1 |+ 2").contains("no name"));
        assert!(refused("let |a = 1; in a )").contains("errors"));
    }

    #[test]
    fn names_of_operators_are_refused() {
        let refused = |text, new| renamed_text(text, new).unwrap_err();
        for new in [
            "__sub",
            "__mul",
            "__div",
            "__lessThan",
            "__findFile",
            "__nixPath",
            "__overrides",
        ] {
            assert!(
                refused("let |f = a: b: 42; in f 5 3 - 1", new).contains("operators"),
                "{new}"
            );
        }
        assert!(refused("let |__sub = a: b: 42; in 5 - 3", "f").contains("operators"));
    }

    #[test]
    fn names_in_quotes_and_dollars_bind() {
        let refused = |text, new| renamed_text(text, new).unwrap_err();
        assert_eq!(refused("|b: let ${\"a\"} = 1; in b", "a"), ELSE);
        assert_eq!(refused("|b: let ${(''a'')} = 1; in b", "a"), ELSE);
        assert_eq!(refused("|b: let \"\\a\" = 1; in b", "a"), ELSE);
        assert_eq!(refused("|b: let ${''\n  a''} = 1; in b", "a"), ELSE);
        let renamed = |text| renamed_text(text, "b").unwrap();
        assert_eq!(renamed("|a: let \"\\a\" = 1; in a"), "b: let \"\\a\" = 1; in a");
        assert_eq!(renamed("|a: { inherit \"\\a\"; }"), "b: { \"\\a\" = b; }");
    }

    #[test]
    fn what_is_not_a_name_is_refused() {
        for new in ["", "1", "a b", "let", "a.b", "a ", " a", "\"a\"", "a#", "${a}", "a: b"] {
            assert!(
                renamed_text("let |a = 1; in a", new)
                    .unwrap_err()
                    .contains("not a name"),
                "{new}"
            );
        }
        for new in ["or'", "_", "a-b", "builtins"] {
            assert!(renamed_text("let |a = 1; in a", new).is_ok(), "{new}");
        }
    }
}
