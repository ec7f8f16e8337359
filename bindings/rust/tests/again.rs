//! Parses of texts after edits are those of the new texts.

use rnix::{Parse, Root, TextRange};
use std::ops::Range;

// A text of every kind of bracket, string and comment.
const TEXT: &str = "# ä\n{ lib, a ? [ 1 2 ], ... }@args:\nlet\n  b = rec { c.d = \"x${toString 1}y\"; };\n  e = ''\n    f ${g { h = 3; }}\n  '';\nin\n\
                    with b; (if a == [ ] then { inherit (b) c; } else /* i */ ./j/${k}/l) // { m = x: y: x + (y * 2); }\n";

// What a parse consists of, as texts.
fn parts(parse: &Parse<Root>) -> (String, String) {
    (format!("{:#?}", parse.syntax()), format!("{:?}", parse.errors()))
}

// The parse after an edit, which must be that of the new text.
fn checked(parse: &Parse<Root>, range: Range<usize>, new: &str) -> Parse<Root> {
    let mut text = parse.syntax().to_string();
    text.replace_range(range.clone(), new);
    let edited = parse.reparse(range.clone(), new);
    assert_eq!(parts(&edited), parts(&Root::parse(&text)), "{range:?} {new:?} {text:?}");
    edited
}

#[test]
fn each_range_is_replaced() {
    let parse = Root::parse(TEXT);
    let is_between = |offset: &usize| TEXT.is_char_boundary(*offset);
    for start in (0..=TEXT.len()).filter(is_between) {
        for end in (start..=TEXT.len().min(start + 6)).filter(is_between) {
            for new in ["", "x", "{", "]", "\"", "''", "${", "# ", "*/", "\n", "a = 1; "] {
                checked(&parse, start..end, new);
            }
        }
    }
}

// Numbers without a pattern.
struct Numbers(u64);

impl Numbers {
    fn below(&mut self, limit: usize) -> usize {
        self.0 = self
            .0
            .wrapping_mul(6364136223846793005)
            .wrapping_add(1442695040888963407);
        (self.0 >> 33) as usize % limit
    }
}

const PIECES: [&str; 24] = [
    "{", "}", "[", "]", "(", ")", "\"", "''", "${", "a", "b = 1;", "c.d", "# e\n", "/* f */", "\n", " ", ";", ":", "@",
    "let ", " in ", "x: ", "./g", "ä",
];

#[test]
fn one_edit_follows_another() {
    let mut numbers = Numbers(1);
    let mut parse = Root::parse("{ a = [ (b) ]; }");
    for _ in 0..20_000 {
        let text = parse.syntax().to_string();
        let offsets: Vec<usize> = (0..=text.len())
            .filter(|offset| text.is_char_boundary(*offset))
            .collect();
        let first = numbers.below(offsets.len());
        let removed = if text.len() > 120 { 24 } else { 5 };
        let last = (first + numbers.below(removed)).min(offsets.len() - 1);
        let new: String = (0..numbers.below(3))
            .map(|_| PIECES[numbers.below(PIECES.len())])
            .collect();
        parse = checked(&parse, offsets[first]..offsets[last], &new);
    }
}

#[test]
fn a_text_with_errors_is_edited() {
    let parse = Root::parse("{ a = [ 1; }");
    assert!(!parse.errors().is_empty());
    let mended = checked(&parse, 9..9, " ]");
    assert!(mended.errors().is_empty());
    assert_eq!(parse.syntax().to_string(), "{ a = [ 1; }");
}

#[test]
fn a_node_is_replaced_by_its_range() {
    let parse = Root::parse("[ 1 (2 3) ]");
    let list = parse.syntax().first_child().unwrap();
    let paren = list.children().last().unwrap();
    assert_eq!(parse.reparse(paren.text_range(), "x").syntax().to_string(), "[ 1 x ]");
    let end = TextRange::empty(parse.syntax().text_range().end());
    assert_eq!(parse.reparse(end, " # y").syntax().to_string(), "[ 1 (2 3) ] # y");
}

#[test]
#[should_panic(expected = "the range is one of the text")]
fn a_range_inside_a_character_panics() {
    Root::parse("\"ä\"").reparse(2..3, "");
}

#[test]
#[should_panic(expected = "the range is one of the text")]
fn a_range_beyond_the_text_panics() {
    Root::parse("a").reparse(1..2, "");
}

#[test]
#[should_panic(expected = "the range is one of the text")]
#[allow(clippy::reversed_empty_ranges)]
fn a_range_that_ends_before_it_starts_panics() {
    Root::parse("a").reparse(1..0, "");
}
