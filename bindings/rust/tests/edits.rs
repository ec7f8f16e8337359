//! Edits, and lines and columns.

use rnix::ast::{self, HasEntry};
use rnix::syntax::ast::AstNode;
use rnix::{ColumnUnit, EditError, Edits, LineIndex, Position, Root};

#[test]
fn a_value_is_replaced_and_all_else_stays() {
    let text = "{ # pinned\n  version = \"1.0\"; hash = \"x\"; }";
    let root = Root::parse(text).tree();
    let set = ast::AttrSet::try_from(root.expr().unwrap()).unwrap();
    let value = set.attrpath_values().next().unwrap().value().unwrap();
    let mut edits = Edits::new(text);
    edits.replace(value.syntax().text_range(), "\"1.1\"").unwrap();
    edits.replace(0..0, "# new\n").unwrap();
    assert_eq!(edits.apply(), "# new\n{ # pinned\n  version = \"1.1\"; hash = \"x\"; }");
}

#[test]
fn edits_that_do_not_fit_are_refused() {
    let mut edits = Edits::new("aäb");
    edits.replace(0..1, "x").unwrap();
    assert_eq!(edits.replace(2..3, ""), Err(EditError::InsideChar));
    assert_eq!(edits.replace(3..5, ""), Err(EditError::OutOfRange));
    assert_eq!(edits.replace(0..3, ""), Err(EditError::Overlap));
    edits.replace(1..1, "1").unwrap();
    edits.replace(1..1, "2").unwrap();
    assert_eq!(edits.apply(), "x12äb");
}

#[test]
fn positions_and_offsets_are_each_others_inverse() {
    let text = "a\näß𝄞\n\nb";
    for unit in [ColumnUnit::Bytes, ColumnUnit::Chars, ColumnUnit::Utf16] {
        let index = LineIndex::new(text, unit);
        for offset in 0..=text.len() + 1 {
            let position = index.position(offset);
            assert_eq!(position.is_some(), text.is_char_boundary(offset), "{offset}");
            assert_eq!(
                position.and_then(|position| index.offset(position)),
                position.map(|_| offset)
            );
        }
    }
    let utf16 = LineIndex::new(text, ColumnUnit::Utf16);
    assert_eq!(utf16.position(10), Some(Position { line: 1, column: 4 }));
    assert_eq!(utf16.offset(Position { line: 1, column: 3 }), None);
    assert_eq!(utf16.offset(Position { line: 2, column: 1 }), None);
}
