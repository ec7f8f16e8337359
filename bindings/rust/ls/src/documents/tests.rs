//! Documents after changes.

use super::*;
use crate::json::{array, object};
use crate::random::Numbers;
use crate::text::Position;

fn is_line_end(unit: u16) -> bool {
    unit == 10 || unit == 13
}

// The offset of a position in UTF-16 units, by the words of the protocol.
fn offset_of(units: &[u16], position: Position) -> usize {
    let end_from = |start: usize| (start..units.len()).find(|at| is_line_end(units[*at]));
    let mut start = 0;
    for _ in 0..position.line {
        let Some(end) = end_from(start) else {
            return units.len();
        };
        let is_pair = units[end] == 13 && units.get(end + 1) == Some(&10);
        start = end + 1 + usize::from(is_pair);
    }
    let end = end_from(start).unwrap_or(units.len());
    let offset = end.min(start + position.column);
    let is_in_pair = offset < end && (0xdc00..0xe000).contains(&units[offset]);
    offset - usize::from(is_in_pair)
}

fn edit(units: &mut Vec<u16>, from: Position, to: Position, new: &str) {
    let (one, other) = (offset_of(units, from), offset_of(units, to));
    units.splice(one.min(other)..one.max(other), new.encode_utf16());
}

fn place(numbers: &mut Numbers) -> Position {
    Position {
        line: numbers.below(40),
        column: numbers.below(30),
    }
}

// The parameters that name the document, with another member.
fn params(name: &'static str, value: Value, text: &str) -> Value {
    let document = object([("uri", "a".into()), ("text", text.into())]);
    object([("textDocument", document), (name, value)])
}

#[test]
fn after_random_edits_a_document_is_what_they_give() {
    let mut numbers = Numbers(3);
    let text = numbers.text(1000);
    let mut units: Vec<u16> = text.encode_utf16().collect();
    let mut documents = Documents::default();
    documents
        .open(&params("a", Value::Null, &text), Encoding::Utf16)
        .unwrap();
    for _ in 0..1000 {
        let mut changes = Vec::new();
        for _ in 0..=numbers.below(3) {
            let (from, to, new) = (place(&mut numbers), place(&mut numbers), numbers.text(60));
            edit(&mut units, from, to, &new);
            let range = Value::read(&Value::Range(from, to).written()).unwrap();
            changes.push(object([("range", range), ("text", new.as_str().into())]));
        }
        let changes = params("contentChanges", array(changes), "");
        documents.change(&changes, Encoding::Utf16).unwrap();
        let document = documents.get(&changes).unwrap();
        assert_eq!(document.text.content(), String::from_utf16(&units).unwrap());
    }
}

#[test]
fn after_a_change_that_is_none_only_a_whole_text_counts() {
    let range = |from: i64| {
        let at = |column: i64| object([("line", 0_usize.into()), ("character", column.into())]);
        object([
            ("range", object([("start", at(from)), ("end", at(0))])),
            ("text", "x".into()),
        ])
    };
    let whole = |text: &str| object([("text", text.into())]);
    let mut documents = Documents::default();
    documents
        .open(&params("a", Value::Null, "aaa"), Encoding::Utf16)
        .unwrap();
    let mut change = |changes: Vec<Value>| {
        let params = params("contentChanges", array(changes), "");
        let is_ok = documents.change(&params, Encoding::Utf16).is_ok();
        let text = documents
            .get(&params)
            .map(|document| document.text.content().to_owned());
        (is_ok, text.ok(), documents.next_lost())
    };
    let (lost, known) = (Some("a".to_owned()), |text: &str| (true, Some(text.to_owned()), None));
    assert_eq!(change(vec![range(0)]), known("xaaa"));
    assert_eq!(change(vec![range(0), range(-1), range(0)]), (false, None, lost.clone()));
    assert_eq!(change(vec![range(0)]), (false, None, None));
    assert_eq!(change(vec![range(-1), whole("b"), range(0)]), known("xb"));
    assert_eq!(change(vec![Value::Null, range(0)]), (false, None, lost));
    assert_eq!(change(vec![whole("c")]), known("c"));
}

// The tree and the errors of a document, as text.
fn parsed(document: &Document) -> String {
    let parse = &document.analysis().unwrap().parse;
    format!("{:#?} {:?}", parse.syntax(), parse.errors())
}

#[test]
fn after_changes_a_document_is_parsed_as_its_text() {
    let mut numbers = Numbers(5);
    let text = "{\n  a = [ 1 ];\n  b = { c = \"${a}\"; };\n}\n".repeat(3);
    let mut documents = Documents::default();
    documents
        .open(&params("a", Value::Null, &text), Encoding::Utf16)
        .unwrap();
    for turn in 0..2000 {
        let new = ["", "x", " ", "{", "}", "\"", "[ ]", "# d\n", "e = 1;", "${"][numbers.below(10)];
        let mut from = place(&mut numbers);
        from.line %= 12;
        let mut to = from;
        to.column += numbers.below(3);
        let range = Value::read(&Value::Range(from, to).written()).unwrap();
        let whole = ("text", Value::from(text.as_str()));
        let change = match turn % 40 {
            0 => object([whole]),
            _ => object([("range", range), ("text", new.into())]),
        };
        let changes = params("contentChanges", array([change]), "");
        documents.change(&changes, Encoding::Utf16).unwrap();
        if numbers.below(3) > 0 {
            let document = documents.get(&changes).unwrap();
            let anew = Root::parse(document.text.content());
            assert_eq!(parsed(document), format!("{:#?} {:?}", anew.syntax(), anew.errors()));
        }
    }
}
