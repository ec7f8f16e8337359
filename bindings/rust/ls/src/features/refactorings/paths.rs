//! Entries of sets, and paths of attributes.

use super::Selection;
use crate::analysis::name_text;
use crate::edits::Edit;
use crate::features::actions::with_space;
use crate::features::comments::{documentation, has_comment};
use crate::features::fixes::{shortened, Fix};
use rnix::ast::{Attrpath, AttrpathValue, Expr};
use rnix::syntax::ast::AstNode as _;
use rnix::{SyntaxKind, SyntaxNode, SyntaxToken, TextRange};

// The entry whose path has the selection, and its path.
fn entry_at(selection: &Selection) -> Option<(AttrpathValue, Attrpath)> {
    let entry = AttrpathValue::cast(selection.node(SyntaxKind::NODE_ATTRPATH_VALUE)?)?;
    let path = entry.attrpath()?;
    let is_in_path = path.syntax().text_range().contains_range(selection.range);
    (is_in_path && !has_comment(entry.syntax()) && !has_comment(path.syntax())).then_some((entry, path))
}

fn names_of(path: &Attrpath) -> Vec<SyntaxNode> {
    path.attrs().map(|attr| attr.syntax().clone()).collect()
}

// Whether a name is written out. Nix merges no entries by other names.
fn is_static(name: &SyntaxNode) -> bool {
    match name.kind() {
        SyntaxKind::NODE_IDENT => true,
        SyntaxKind::NODE_STRING => name.children().next().is_none(),
        _ => false,
    }
}

// The entries of a set that has no other parts.
fn entries_of(set: &Expr) -> Option<Vec<AttrpathValue>> {
    let Expr::AttrSet(set) = set else {
        return None;
    };
    let is_plain = set.rec_token().is_none() && !has_comment(set.syntax());
    let entry = |entry: SyntaxNode| AttrpathValue::cast(entry).filter(|entry| !has_comment(entry.syntax()));
    let entries: Option<Vec<_>> = set.syntax().children().map(entry).collect();
    entries.filter(|entries| is_plain && !entries.is_empty())
}

// What comes between two entries that were in a set, and now have the indentation of the set's own entry.
fn between(
    selection: &Selection,
    before: &AttrpathValue,
    after: &AttrpathValue,
    indentation: &str,
) -> (TextRange, String) {
    let range = TextRange::new(before.syntax().text_range().end(), after.syntax().text_range().start());
    let lines = selection.part(range).matches('\n').count();
    let space = match lines {
        0 => " ".to_owned(),
        _ => format!("{}{indentation}", "\n".repeat(lines.min(2))),
    };
    (range, space)
}

/// Returns the action that writes `a = { b = 1; c = 2; };` as `a.b = 1; a.c = 2;`.
pub fn flat(selection: &Selection) -> Option<Fix> {
    let (entry, path) = entry_at(selection)?;
    let set = entry.value()?;
    let inner = entries_of(&set)?;
    let (first, last) = (inner.first()?.attrpath()?, inner.last()?.value()?);
    if inner.len() > 1 && !names_of(&path).iter().all(is_static) {
        return None;
    }
    let indentation = selection.indentation(entry.syntax().text_range().start().into());
    let start = TextRange::new(path.syntax().text_range().end(), first.syntax().text_range().start());
    let mut edits: Vec<Edit> = vec![(start, ".".to_owned())];
    for pair in inner.windows(2) {
        let (range, space) = between(selection, &pair[0], &pair[1], indentation);
        edits.push((range, format!("{space}{path}.")));
    }
    let rest = TextRange::new(last.syntax().text_range().end(), set.syntax().text_range().end());
    edits.push((rest, String::new()));
    let more = if inner.len() > 1 { ", .." } else { "" };
    let title = format!("Write as `{} = ..`{more}", shortened(&format!("{path}.{first}")));
    selection.kept(title, edits)
}

// Whether a comment stands right before an entry, or after it in its line.
fn is_commented(entry: &AttrpathValue) -> bool {
    let is_space = |token: &SyntaxToken| token.kind() == SyntaxKind::TOKEN_WHITESPACE && !token.text().contains('\n');
    let next = entry.syntax().last_token().and_then(|token| token.next_token());
    let after = match next {
        Some(space) if is_space(&space) => space.next_token(),
        next => next,
    };
    let is_comment = after.is_some_and(|token| token.kind() == SyntaxKind::TOKEN_COMMENT);
    is_comment || documentation(entry.syntax()).is_some()
}

// The entries beside one whose paths begin with its first name and go on, in order: they can be written as one. If one of the later ones has a comment,
// or the name is not written out, only the entry itself.
fn gathered(entry: AttrpathValue, name: &SyntaxNode) -> Vec<AttrpathValue> {
    let text = name_text(name);
    let has_name = |other: &AttrpathValue| {
        let names = other.attrpath().map(|path| names_of(&path)).unwrap_or_default();
        names.len() > 1 && is_static(&names[0]) && name_text(&names[0]) == text
    };
    let around = entry.syntax().parent().filter(|_| is_static(name));
    let all = around
        .iter()
        .flat_map(SyntaxNode::children)
        .filter_map(AttrpathValue::cast);
    let all: Vec<AttrpathValue> = all.filter(has_name).collect();
    let is_plain = |one: &AttrpathValue| {
        let path = one.attrpath();
        !has_comment(one.syntax()) && path.is_some_and(|path| !has_comment(path.syntax()))
    };
    let can_move = |one: &AttrpathValue| !is_commented(one);
    if all.iter().all(is_plain) && all.iter().skip(1).all(can_move) && !all.is_empty() {
        all
    } else {
        vec![entry]
    }
}

// An entry without the first name of its path.
fn without_first<'a>(selection: &Selection<'a>, entry: &AttrpathValue) -> Option<&'a str> {
    let second = entry.attrpath()?.attrs().nth(1)?.syntax().text_range().start();
    Some(selection.part(TextRange::new(second, entry.syntax().text_range().end())))
}

// The edits that write entries as one, at the place of the first: in lines of their own if that has one, and there are several.
fn packing(selection: &Selection, entries: &[AttrpathValue]) -> Option<Vec<Edit>> {
    let (entry, others) = entries.split_first()?;
    let (range, end) = (entry.syntax().text_range(), entry.value()?.syntax().text_range().end());
    let names = names_of(&entry.attrpath()?);
    let start = usize::from(range.start());
    let (space, last) = if others.is_empty() || !selection.is_first_in_line(start) {
        (" ".to_owned(), " ".to_owned())
    } else {
        let last = format!("\n{}", selection.indentation(start));
        (format!("{last}  "), last)
    };
    let mut rest = String::from(";");
    for other in others {
        rest.push_str(&space);
        rest.push_str(without_first(selection, other)?);
    }
    let open = TextRange::new(names.first()?.text_range().end(), names.get(1)?.text_range().start());
    let close = TextRange::new(end, range.end());
    let mut edits: Vec<Edit> = vec![(open, format!(" = {{{space}")), (close, format!("{rest}{last}}};"))];
    let removed = others
        .iter()
        .map(|other| with_space(selection.text, other.syntax().text_range()));
    edits.extend(removed.map(|range| (range, String::new())));
    Some(edits)
}

/// Returns the action that writes `a.b = 1; a.c = 2;` as `a = { b = 1; c = 2; };`.
pub fn packed(selection: &Selection) -> Option<Fix> {
    let (entry, path) = entry_at(selection)?;
    let names = names_of(&path);
    let [first, _, ..] = names.as_slice() else {
        return None;
    };
    let edits = packing(selection, &gathered(entry, first))?;
    selection.kept(
        format!("Write as `{} = {{ .. }}`", shortened(&first.to_string())),
        edits,
    )
}

#[cfg(test)]
mod tests {
    use super::super::tests::{after, titled};
    use super::{flat, packed};

    #[test]
    fn a_set_with_one_entry_becomes_a_path() {
        let text = |marked| after(flat, marked);
        assert_eq!(text("{ |a = { b = 1; }; }").unwrap(), "{ a.b = 1; }");
        assert_eq!(
            text("{ a.|b = {\n  c.d = e: e;\n  }; }").unwrap(),
            "{ a.b.c.d = e: e; }"
        );
        assert_eq!(text("let |a = { b = c: a; }; in a").unwrap(), "let a.b = c: a; in a");
        assert_eq!(titled(flat, "{ |a = { b = 1; }; }").unwrap().0, "Write as `a.b = ..`");
        for marked in [
            "{ |a = rec { b = 1; }; }",
            "{ |a = { inherit b; }; }",
            "{ |a = { }; }",
            "{ |a = { /* c */ b = 1; }; }",
            "{ |a = { b = 1 /* c */; }; }",
            "{ a = { |b = 1; }; }",
            "{ a = |{ b = 1; }; }",
        ] {
            assert_eq!(text(marked), None, "{marked}");
        }
    }

    #[test]
    fn a_set_with_several_entries_becomes_several_paths() {
        let text = |marked| after(flat, marked);
        assert_eq!(text("{ |a = { b = 1; c = 2; }; }").unwrap(), "{ a.b = 1; a.c = 2; }");
        assert_eq!(
            text("{\n  |a.b = {\n    c = 1;\n\n    d.e = [\n      2\n    ];\n  };\n}").unwrap(),
            "{\n  a.b.c = 1;\n\n  a.b.d.e = [\n      2\n    ];\n}"
        );
        assert_eq!(
            text("let |a = { b = x; c = a: a; }; x = 1; in a").unwrap(),
            "let a.b = x; a.c = a: a; x = 1; in a"
        );
        assert_eq!(
            titled(flat, "{ |a = { b = 1; c = 2; }; }").unwrap().0,
            "Write as `a.b = ..`, .."
        );
        for marked in [
            "x: { |${x} = { b = 1; c = 2; }; }",
            "x: { |\"${x}\" = { b = 1; c = 2; }; }",
            "{ |a = { b = 1; inherit c; }; }",
            "{ |a = { b = 1; /* c */ d = 2; }; }",
        ] {
            assert_eq!(text(marked), None, "{marked}");
        }
        assert_eq!(text("x: { |${x} = { b = 1; }; }").unwrap(), "x: { ${x}.b = 1; }");
    }

    #[test]
    fn several_paths_become_a_set() {
        let text = |marked| after(packed, marked);
        assert_eq!(
            text("x: { a.b = x; c = 2; |a.d.e = { }; a = { f = 1; }; }").unwrap(),
            "x: { a = { b = x; d.e = { }; }; c = 2; a = { f = 1; }; }"
        );
        assert_eq!(
            text("{\n  |a.b = 1;\n  c = 2;\n  \"a\".d = 3;\n}").unwrap(),
            "{\n  a = {\n    b = 1;\n    d = 3;\n  };\n  c = 2;\n}"
        );
        assert_eq!(
            text("let |a.b = c: a; a.c = 1; in a").unwrap(),
            "let a = { b = c: a; c = 1; }; in a"
        );
        assert_eq!(
            text("{\n  |a.b = 1;\n  # d\n  a.d = 3;\n}").unwrap(),
            "{\n  a = { b = 1; };\n  # d\n  a.d = 3;\n}"
        );
        assert_eq!(
            text("{ |a.b = 1; a.d = 3; # d\n}").unwrap(),
            "{ a = { b = 1; }; a.d = 3; # d\n}"
        );
        assert_eq!(
            text("x: { |${x}.b = 1; a.c = 1; }").unwrap(),
            "x: { ${x} = { b = 1; }; a.c = 1; }"
        );
    }

    #[test]
    fn a_path_becomes_a_set() {
        let text = |marked| after(packed, marked);
        assert_eq!(text("{ a.|b = 1; }").unwrap(), "{ a = { b = 1; }; }");
        assert_eq!(text("{ |a . b.c = 1; }").unwrap(), "{ a = { b.c = 1; }; }");
        assert_eq!(
            text("x: { |a.b = x; a.c = 1; }").unwrap(),
            "x: { a = { b = x; c = 1; }; }"
        );
        assert_eq!(titled(packed, "{ |a.b = 1; }").unwrap().0, "Write as `a = { .. }`");
        assert_eq!(text("{ |a = 1; }"), None);
        assert_eq!(text("{ |a /* c */ .b = 1; }"), None);
        assert_eq!(text("{ a.b = |1; }"), None);
    }
}
