//! The stored cases of the repository, each with what `nix-tree` prints.

use rnix::ast::{Expr, InterpolPart};
use rnix::{tokenize, Direction, NodeOrToken, Parse, Root, SyntaxNode, TextSize, TokenAtOffset, WalkEvent};
use std::fmt::Write;
use std::{env, fs, path};

// The texts of a stored list, each with the expected output. A case is a line with the lengths of both, then both, then a newline.
fn stored(list: &str) -> Vec<(String, String)> {
    let folder = path::Path::new(env!("CARGO_MANIFEST_DIR")).join("../../crates/rnix_test_cases/data");
    let all = fs::read_to_string(folder.join(list)).unwrap();
    let mut rest = all.as_str();
    let mut cases = Vec::new();
    while let Some((head, tail)) = rest.split_once('\n') {
        let (text_len, wanted_len) = head.split_once(' ').unwrap();
        let (text, tail) = tail.split_at(text_len.parse().unwrap());
        let (wanted, tail) = tail.split_at(wanted_len.parse().unwrap());
        cases.push((text.to_owned(), wanted.to_owned()));
        rest = &tail[1..];
    }
    cases
}

// How `nix-tree` begins a line: with two spaces for each level, and deeper than 100 levels with the number of its level.
fn margin(depth: usize) -> String {
    if depth > 100 {
        format!("{depth} ")
    } else {
        " ".repeat(2 * depth)
    }
}

// What `nix-tree` prints of a text.
fn printed(parse: &Parse<Root>) -> String {
    let mut printed = String::new();
    for error in parse.errors() {
        writeln!(printed, "error: {error}").unwrap();
    }
    let mut depth = 0;
    for event in parse.syntax().preorder_with_tokens() {
        let WalkEvent::Enter(element) = event else {
            depth -= 1;
            continue;
        };
        writeln!(
            printed,
            "{}{:?}@{:?}",
            margin(depth),
            element.kind(),
            element.text_range()
        )
        .unwrap();
        depth += 1;
    }
    printed
}

#[test]
fn trees_and_errors_are_those_of_nix_tree() {
    let cases = stored("trees");
    assert!(cases.len() > 2000);
    for (text, wanted) in cases {
        assert_eq!(printed(&Root::parse(&text)), wanted, "{text}");
    }
}

#[test]
fn tokens_are_those_of_the_tokenizer() {
    for (text, wanted) in stored("tokens") {
        let mut found = String::new();
        for (kind, token) in tokenize(&text) {
            writeln!(found, "{kind:?} {}", token.len()).unwrap();
        }
        assert_eq!(found, wanted, "{text}");
    }
}

#[test]
fn strings_have_the_stored_parts() {
    for (text, wanted) in stored("strings") {
        let Some(Expr::Str(string)) = Root::parse(&text).tree().expr() else {
            panic!("{text}")
        };
        let mut found = String::new();
        for part in string.normalized_parts() {
            let (name, text) = match part {
                InterpolPart::Literal(text) => ("literal", text),
                InterpolPart::Interpolation(node) => ("interpolation", node.to_string()),
            };
            writeln!(found, "{name} {}\n{text}", text.len()).unwrap();
        }
        assert_eq!(found, wanted, "{text}");
    }
}

fn siblings_agree(node: &SyntaxNode) {
    let children: Vec<_> = node.children_with_tokens().collect();
    for (index, pair) in children.windows(2).enumerate() {
        assert_eq!(pair[0].next_sibling_or_token().as_ref(), Some(&pair[1]));
        assert_eq!(pair[1].prev_sibling_or_token().as_ref(), Some(&pair[0]));
        assert_eq!(pair[0].text_range().end(), pair[1].text_range().start());
        assert_eq!(pair[1].index(), index + 1);
    }
    assert!(children.iter().all(|child| child.parent().as_ref() == Some(node)));
    assert_eq!(node.first_child_or_token().as_ref(), children.first());
    assert_eq!(node.last_child_or_token().as_ref(), children.last());
    let nodes: Vec<_> = children.into_iter().filter_map(NodeOrToken::into_node).collect();
    assert_eq!(node.children().collect::<Vec<_>>(), nodes);
    assert_eq!(
        (node.first_child().as_ref(), node.last_child().as_ref()),
        (nodes.first(), nodes.last())
    );
    for pair in nodes.windows(2) {
        assert_eq!(
            (pair[0].next_sibling().as_ref(), pair[1].prev_sibling().as_ref()),
            (Some(&pair[1]), Some(&pair[0]))
        );
    }
    if let Some(first) = nodes.first() {
        assert_eq!(first.siblings(Direction::Next).collect::<Vec<_>>(), nodes);
    }
}

#[test]
fn walks_agree_with_each_other() {
    for (text, _) in stored("trees").iter().step_by(7) {
        let root = Root::parse(text).syntax();
        let tokens: Vec<_> = root
            .descendants_with_tokens()
            .filter_map(NodeOrToken::into_token)
            .collect();
        assert_eq!(tokens.iter().map(|token| token.text()).collect::<String>(), *text);
        assert_eq!(root.text(), text.as_str());
        let mut at = root.first_token();
        for token in &tokens {
            assert_eq!(at.as_ref(), Some(token));
            at = token.next_token();
            assert_eq!(
                at.as_ref().and_then(|next| next.prev_token()).as_ref(),
                at.as_ref().map(|_| token)
            );
            assert_eq!(token.parent_ancestors().last().as_ref(), Some(&root));
        }
        assert_eq!((at, root.last_token().as_ref()), (None, tokens.last()));
        root.descendants().for_each(|node| siblings_agree(&node));
    }
}

#[test]
fn offsets_find_their_tokens() {
    for (text, _) in stored("trees").iter().step_by(31) {
        let root = Root::parse(text).syntax();
        let mut tokens: Vec<_> = root
            .descendants_with_tokens()
            .filter_map(NodeOrToken::into_token)
            .collect();
        tokens.retain(|token| !token.text().is_empty());
        for offset in (0..=text.len()).map(|offset| TextSize::try_from(offset).unwrap()) {
            let held: Vec<_> = tokens
                .iter()
                .filter(|token| token.text_range().contains_inclusive(offset))
                .cloned()
                .collect();
            let wanted = match &held[..] {
                [] => TokenAtOffset::None,
                [token] => TokenAtOffset::Single(token.clone()),
                [left, right] => TokenAtOffset::Between(left.clone(), right.clone()),
                more => panic!("{more:?}"),
            };
            assert_eq!(root.token_at_offset(offset), wanted);
        }
    }
}
