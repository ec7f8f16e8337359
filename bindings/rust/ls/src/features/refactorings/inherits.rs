//! Entries that an `inherit` says in fewer words, names of an `inherit` with entries of their own, and inherited names in order.

use super::Selection;
use crate::analysis::name_text;
use crate::features::actions::inherited_range;
use crate::features::comments::has_comment;
use crate::features::fixes::Fix;
use crate::features::identifiers::is_identifier;
use rnix::ast::{Attr, AttrpathValue, Expr, Inherit, Select};
use rnix::syntax::ast::AstNode as _;
use rnix::{SyntaxKind, SyntaxNode, TextRange};

// The set of `set.name`, in parentheses.
fn set_of(selection: &Selection, select: &Select, name: &str) -> Option<String> {
    let path: Vec<Attr> = select.attrpath()?.attrs().collect();
    let is_plain =
        select.or_token().is_none() && !has_comment(select.syntax()) && !has_comment(select.attrpath()?.syntax());
    let (last, others) = path.split_last()?;
    if !is_plain || name_text(last.syntax()) != name || last.syntax().kind() == SyntaxKind::NODE_DYNAMIC {
        return None;
    }
    let base = select.expr()?;
    let end = others
        .last()
        .map_or(base.syntax(), |attr| attr.syntax())
        .text_range()
        .end();
    let text = selection.part(TextRange::new(select.syntax().text_range().start(), end));
    Some(match base {
        Expr::Paren(_) if others.is_empty() => text.to_owned(),
        _ => format!("({text})"),
    })
}

// What an entry is as an `inherit`.
fn as_inherit(selection: &Selection, entry: &AttrpathValue) -> Option<String> {
    let path: Vec<Attr> = entry.attrpath()?.attrs().collect();
    let [name] = path.as_slice() else {
        return None;
    };
    let (written, name) = (name.syntax().to_string(), name_text(name.syntax()));
    match entry.value()? {
        Expr::Ident(value) if value.syntax().text() == name.as_str() => Some(format!("inherit {written};")),
        Expr::Select(select) => Some(format!("inherit {} {written};", set_of(selection, &select, &name)?)),
        _ => None,
    }
}

/// Returns the action that writes `x = x;` or `x = a.x;` as an `inherit`.
pub fn inherited(selection: &Selection) -> Option<Fix> {
    let entry = AttrpathValue::cast(selection.node(SyntaxKind::NODE_ATTRPATH_VALUE)?)?;
    let path = entry.attrpath()?.attrs().next()?;
    if has_comment(entry.syntax()) || path.syntax().kind() == SyntaxKind::NODE_DYNAMIC {
        return None;
    }
    let new = as_inherit(selection, &entry)?;
    let title = format!("Inherit `{}`", name_text(path.syntax()));
    selection.kept(title, vec![(entry.syntax().text_range(), new)])
}

// An expression as the set of a selection.
fn as_set(expr: &Expr) -> String {
    match expr {
        Expr::Ident(_) | Expr::Paren(_) | Expr::AttrSet(_) => expr.to_string(),
        Expr::Select(select) if select.or_token().is_none() => expr.to_string(),
        _ => format!("({expr})"),
    }
}

// The entry of a name that is inherited.
fn as_entry(inherit: &Inherit, name: &SyntaxNode) -> Option<String> {
    let text = name_text(name);
    match inherit.from() {
        Some(from) => Some(format!("{name} = {}.{name};", as_set(&from.expr()?))),
        None => is_identifier(&text).then(|| format!("{name} = {text};")),
    }
}

// The name of an `inherit` at a selection.
fn inherited_name(selection: &Selection, inherit: &Inherit) -> Option<SyntaxNode> {
    let names = inherit.attrs().map(|attr| attr.syntax().clone());
    let mut own = names.filter(|name| name.text_range().contains_range(selection.range));
    own.next().filter(|name| name.kind() != SyntaxKind::NODE_DYNAMIC)
}

// An `inherit` without one of its names, and the white space after it.
fn without(selection: &Selection, inherit: &Inherit, name: &SyntaxNode) -> String {
    let range = inherit.syntax().text_range();
    let removed = inherited_range(selection.text, inherit, name);
    let before = selection.part(TextRange::new(range.start(), removed.start()));
    let after = selection.part(TextRange::new(removed.end(), range.end()));
    let start = range.start().into();
    if selection.is_first_in_line(start) {
        format!("{before}{after}\n{}", selection.indentation(start))
    } else {
        format!("{before}{after} ")
    }
}

/// Returns the action that gives an inherited name an entry of its own.
pub fn separate(selection: &Selection) -> Option<Fix> {
    let inherit = Inherit::cast(selection.node(SyntaxKind::NODE_INHERIT)?)?;
    let name = inherited_name(selection, &inherit).filter(|_| !has_comment(inherit.syntax()))?;
    let entry = as_entry(&inherit, &name)?;
    let others = if inherit.attrs().count() == 1 {
        String::new()
    } else {
        without(selection, &inherit, &name)
    };
    let edits = vec![(inherit.syntax().text_range(), others + &entry)];
    selection.kept(format!("Give `{}` its own entry", name_text(&name)), edits)
}

/// Returns the action that puts inherited names in order.
pub fn sorted(selection: &Selection) -> Option<Fix> {
    let inherit = Inherit::cast(selection.node(SyntaxKind::NODE_INHERIT)?)?;
    let names: Vec<SyntaxNode> = inherit.attrs().map(|attr| attr.syntax().clone()).collect();
    let mut in_order = names.clone();
    in_order.sort_by_cached_key(name_text);
    if has_comment(inherit.syntax()) || in_order == names {
        return None;
    }
    let edits = names.iter().zip(&in_order).filter(|(old, new)| old != new);
    let edits = edits.map(|(old, new)| (old.text_range(), new.to_string())).collect();
    selection.kept("Sort the inherited names".to_owned(), edits)
}

#[cfg(test)]
mod tests {
    use super::super::tests::{after, titled};
    use super::{inherited, separate, sorted};

    #[test]
    fn an_entry_becomes_an_inherit() {
        let text = |marked| after(inherited, marked).unwrap();
        assert_eq!(text("a: { |x = a.x; }"), "a: { inherit (a) x; }");
        assert_eq!(text("a: { x = a.b.|x; }"), "a: { inherit (a.b) x; }");
        assert_eq!(text("a: { |x = (a 1).x; }"), "a: { inherit (a 1) x; }");
        assert_eq!(text("a: { |x = (a 1).b.x; }"), "a: { inherit ((a 1).b) x; }");
        assert_eq!(text("x: { |x = x; }"), "x: { inherit x; }");
        assert_eq!(text("a: { |\"x y\" = a.\"x y\"; }"), "a: { inherit (a) \"x y\"; }");
        assert_eq!(text("let a = 1; |x = a.x; in x"), "let a = 1; inherit (a) x; in x");
        assert_eq!(titled(inherited, "x: { |x = x; }").unwrap().0, "Inherit `x`");
    }

    #[test]
    fn what_would_mean_something_else_stays() {
        for marked in [
            "x: rec { |x = x; }",
            "let |x = x; in x",
            "a: { |x = a.y; }",
            "a: { |x = a.x or 1; }",
            "a: { |x.y = a.y; }",
            "a: { |x = /* b */ a.x; }",
            "a: { |x = a.${x}; }",
        ] {
            assert_eq!(after(inherited, marked), None, "{marked}");
        }
    }

    #[test]
    fn an_inherited_name_gets_its_own_entry() {
        let text = |marked| after(separate, marked).unwrap();
        assert_eq!(text("a: { inherit (a) |x; }"), "a: { x = a.x; }");
        assert_eq!(text("a: { inherit (a 1) |x; }"), "a: { x = (a 1).x; }");
        assert_eq!(text("x: { inherit |x; }"), "x: { x = x; }");
        assert_eq!(text("a: { inherit (a) x |y z; }"), "a: { inherit (a) x z; y = a.y; }");
        assert_eq!(
            text("a: {\n  inherit (a)\n    |x\n    y\n    ;\n}"),
            "a: {\n  inherit (a)\n    y\n    ;\n  x = a.x;\n}"
        );
        assert_eq!(after(separate, "x: rec { inherit |x; }"), None);
        assert_eq!(after(separate, "x: { inherit /* a */ |x; }"), None);
        assert_eq!(after(separate, "x: { inherit (|x) y; }"), None);
    }

    #[test]
    fn inherited_names_are_sorted() {
        let text = |marked| after(sorted, marked);
        assert_eq!(text("a: { inherit (a) c| b a; }").unwrap(), "a: { inherit (a) a b c; }");
        assert_eq!(
            text("c: b: {\n  inherit\n    |c\n    b\n    ;\n}").unwrap(),
            "c: b: {\n  inherit\n    b\n    c\n    ;\n}"
        );
        assert_eq!(text("a: { inherit (a) |a b; }"), None);
        assert_eq!(text("a: { inherit (a) |b /* c */ a; }"), None);
    }
}
