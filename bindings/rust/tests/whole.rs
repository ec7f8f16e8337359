//! Calls that return what a whole text has: its diagnostics and their fixes, its names, and the parts of its strings.

use rnix::ast::{InterpolPart, Str};
use rnix::diagnostics::{diagnostics, fix, names_and_diagnostics, Diagnostic, Fix, Severity};
use rnix::scopes::resolve;
use rnix::syntax::ast::AstNode;
use rnix::{Edits, Root, SyntaxKind, TextRange};

#[test]
fn diagnostics_say_what_is_wrong() {
    let found = diagnostics(&Root::parse("# ä\n{ a = 1 }"));
    assert_eq!(found[0].message, "expected \";\" after the value of \"a\", found \"}\"");
    assert_eq!(found[0].range, range(13, 14));
    assert_eq!((found[0].code, found[0].severity), ("syntax-error", Severity::Error));
    assert!(diagnostics(&Root::parse("1")).is_empty());
}

fn range(start: u32, end: u32) -> TextRange {
    TextRange::new(start.into(), end.into())
}

// The only diagnostic of a text.
fn only(text: &str) -> Diagnostic {
    let [found] = <[Diagnostic; 1]>::try_from(diagnostics(&Root::parse(text))).unwrap();
    found
}

#[test]
fn notes_say_where_and_what_to_write() {
    let found = only("# ä\n{ a = 1 }");
    assert_eq!(found.notes[0].message, "\";\" is missing here");
    assert_eq!(found.notes[0].range, Some(range(12, 12)));
    let semicolon = Fix {
        range: range(12, 12),
        text: ";".to_owned(),
    };
    assert_eq!(found.notes[0].replacement, Some(semicolon));
    let found = only("[ 1, 2 ]");
    assert_eq!(found.notes[0].message, "list items are separated by white space alone");
    assert_eq!(found.notes[0].range, None);
    let found = only("{ a = ; }");
    assert!(found.notes.is_empty());
}

#[test]
fn notes_belong_to_their_diagnostics() {
    let found = diagnostics(&Root::parse("{ a = 1; b = 1; a = 2; c = (1); b = 3; }"));
    let notes: Vec<_> = found.iter().map(|one| one.notes[0].range).collect();
    assert_eq!(notes, [Some(range(2, 3)), None, Some(range(9, 10))]);
    assert!(found.iter().all(|one| one.notes.len() == 1));
}

#[test]
fn an_attribute_that_is_defined_again_has_the_place_of_the_first() {
    let found = only("{ a = 1; a = 2; }");
    assert_eq!((found.code, found.severity), ("repeated-attribute", Severity::Error));
    assert_eq!(found.range, range(9, 10));
    assert_eq!(found.notes[0].message, "first defined here");
    assert_eq!(found.notes[0].range, Some(range(2, 3)));
    assert_eq!(found.notes[0].replacement, None);
}

#[test]
fn lints_find_warnings() {
    let text = "{ version = 1.2.3; timeZone = Europe/Berlin; a = (1); }";
    let found = diagnostics(&Root::parse(text));
    let shown: Vec<_> = found.iter().map(|one| (one.code, &text[one.range])).collect();
    let wanted = [
        ("called-data", "1.2.3"),
        ("bare-path", "Europe/Berlin"),
        ("needless-parentheses", "(1)"),
    ];
    assert_eq!(shown, wanted);
    assert!(found.iter().all(|one| one.severity == Severity::Warning));
    let fix = found[2].notes[0].replacement.as_ref().unwrap();
    let mut edits = Edits::new(text);
    edits.replace(fix.range, &fix.text).unwrap();
    assert_eq!(edits.apply(), text.replace("(1)", "1"));
}

#[test]
fn a_name_that_nothing_uses_is_a_warning() {
    let found = only("let a = 1; unused = a; in a");
    assert_eq!((found.code, found.severity), ("unused-name", Severity::Warning));
    assert_eq!(
        (found.range, found.message.as_str()),
        (range(11, 17), "nothing uses this name")
    );
}

// A text with the fix of its first diagnostic.
fn fixed(text: &str) -> Option<String> {
    let found = fix(&Root::parse(text), 0)?;
    let mut edits = Edits::new(text);
    edits.replace(found.range, &found.text).unwrap();
    Some(edits.apply())
}

#[test]
fn fixes_write_what_was_meant() {
    for (wrong, right) in [
        ("# ä\n{ a = 1 }", "# ä\n{ a = 1; }"),
        ("[ 1, 2 ]", "[ 1 2 ]"),
        ("if a = b then c else d", "if a == b then c else d"),
        ("{ a = [ 1 2; }", "{ a = [ 1 2 ]; }"),
        ("{ a = 'b'; }", "{ a = \"b\"; }"),
    ] {
        assert_eq!(fixed(wrong).as_deref(), Some(right));
    }
    let long = format!("'{}'", "a".repeat(100));
    assert_eq!(fixed(&long), Some(long.replace('\'', "\"")));
    assert_eq!(fixed("{ a = ; }"), None);
    assert_eq!(fixed("a"), None);
    assert_eq!(fix(&Root::parse("[ 1, 2 ]"), 1), None);
}

#[test]
fn fixes_leave_fewer_errors() {
    let texts = [
        "{\n  a = 1\n  b = 2;\n  c = [ 3, 4 ];\n  d = '5';\n  e = ;\n  f = 6\n}\n",
        "a: { b = (1; c = 'd'; }",
        "x)",
    ];
    let mut count = 0;
    for text in texts {
        let parse = Root::parse(text);
        for number in 0..diagnostics(&parse).len() {
            if let Some(found) = fix(&parse, number) {
                let mut edits = Edits::new(text);
                edits.replace(found.range, &found.text).unwrap();
                assert!(Root::parse(&edits.apply()).errors().len() < parse.errors().len());
                count += 1;
            }
        }
    }
    assert!(count >= 5, "{count}");
}

#[test]
fn one_call_returns_names_and_diagnostics() {
    let many = "[ (a: b: a c) ]) ".repeat(200);
    let lints = format!("[ {}]", "(a) ".repeat(1000));
    let names = format!("let {}in 1", "\"a\" = b: c; ".repeat(1000));
    for text in [
        "",
        "let a = 1; in a",
        "let a = 1; b = in { c ]: a",
        "{ a = 1; a = (2); b = c: 1; }",
        many.as_str(),
        lints.as_str(),
        names.as_str(),
    ] {
        let parse = Root::parse(text);
        let (names, found) = names_and_diagnostics(&parse);
        assert_eq!(found, diagnostics(&parse));
        assert_eq!(format!("{names:?}"), format!("{:?}", resolve(&parse)));
    }
}

#[test]
fn names_have_their_bindings() {
    let parse = Root::parse("let a = 1; \"b\" = a; in with c; { d }: [ a d e ({ inherit b; }) ]");
    let names = resolve(&parse);
    let bound: Vec<_> = names.bindings.iter().map(|binding| binding.name.to_string()).collect();
    assert_eq!(bound, ["a", "\"b\"", "d"]);
    assert_eq!(names.bindings[2].scope.kind(), SyntaxKind::NODE_LAMBDA);
    assert!(names
        .bindings
        .iter()
        .enumerate()
        .all(|(number, binding)| binding.first == number));
    let found: Vec<_> = names
        .references
        .iter()
        .map(|one| (one.name.to_string(), one.binding, one.is_open, one.is_inherited))
        .collect();
    let wanted = [
        ("a", Some(0), false, false),
        ("c", None, false, false),
        ("a", Some(0), false, false),
        ("d", Some(2), false, false),
        ("e", None, true, false),
        ("b", Some(1), false, true),
    ];
    assert_eq!(found.len(), wanted.len());
    for ((name, binding, is_open, is_inherited), one) in found.iter().zip(wanted) {
        assert_eq!((name.as_str(), *binding, *is_open, *is_inherited), one);
    }
    assert_eq!(names.uses(0).count(), 2);
}

// The texts of a string's parts.
fn texts(string: &Str) -> Vec<String> {
    let text = |part| match part {
        InterpolPart::Literal(text) => text,
        InterpolPart::Interpolation(node) => node.to_string(),
    };
    string.normalized_parts().into_iter().map(text).collect()
}

#[test]
fn strings_of_a_subtree_have_their_parts() {
    let root = Root::parse("{ a = \"\"; b = [ \"c\\n${\"d\"}e\" ''\n  f\n'' \"g${ ]; }").syntax();
    let strings: Vec<Vec<String>> = root
        .descendants()
        .filter_map(Str::cast)
        .map(|string| texts(&string))
        .collect();
    assert_eq!(
        strings[..4],
        [vec![], vec!["c\n", "${\"d\"}", "e"], vec!["d"], vec!["f\n"]]
    );
    let list = root
        .descendants()
        .find(|node| node.kind() == SyntaxKind::NODE_LIST)
        .unwrap();
    let copy = list.clone_subtree().clone_subtree();
    let copied: Vec<Vec<String>> = copy
        .descendants()
        .filter_map(Str::cast)
        .map(|string| texts(&string))
        .collect();
    assert_eq!(copied[..], strings[1..]);
}
