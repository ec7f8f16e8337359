//! JSON in place of an expression, as Nix.

use super::Selection;
use crate::features::fixes::Fix;
use crate::features::identifiers::{attribute, quoted};
use crate::json::Value;
use rnix::ast::Expr;
use rnix::scopes::resolve;
use rnix::syntax::ast::AstNode as _;
use rnix::{Edits, Root, SyntaxElement, TextRange, TextSize};
use std::collections::HashSet;

/// An object or an array that is being written: its closing sign, and the names that it has if it is an object.
struct Open {
    close: char,
    names: Option<HashSet<String>>,
    is_empty: bool,
}

/// Writes JSON as Nix.
struct Writer<'t> {
    rest: &'t str,
    open: Vec<Open>,
    out: String,
    indentation: &'t str,
    // Whether a name of an object comes next.
    wants_name: bool,
}

// A number as Nix writes it, or `None` if Nix has none that is the same: it has no negative zero, and refuses numbers near zero that are not normal.
fn number(text: &str) -> Option<String> {
    if !text.contains(['.', 'e', 'E']) {
        let integer = text.parse::<i64>().ok().filter(|number| *number != i64::MIN);
        return integer.map(|_| text.to_owned());
    }
    let end = text.find(['e', 'E']).unwrap_or(text.len());
    let (mantissa, exponent) = text.split_at(end);
    let is_zero = mantissa.bytes().all(|byte| matches!(byte, b'0' | b'.'));
    let is_same = is_zero || text.parse::<f64>().is_ok_and(f64::is_normal);
    let dot = if mantissa.contains('.') { "" } else { ".0" };
    is_same.then(|| format!("{mantissa}{dot}{exponent}"))
}

// How long the string is that a text begins with, with its quotes.
fn string_len(text: &str) -> Option<usize> {
    let mut is_escaped = false;
    let end = text.bytes().skip(1).position(|byte| {
        let is_end = byte == b'"' && !is_escaped;
        is_escaped = byte == b'\\' && !is_escaped;
        is_end
    });
    end.map(|index| index + 2)
}

impl Writer<'_> {
    // Begins a line inside what is open.
    fn line(&mut self) {
        self.out.push('\n');
        self.out.push_str(self.indentation);
        self.out.push_str(&"  ".repeat(self.open.len()));
    }

    // Begins a value of an array.
    fn begin_value(&mut self) {
        if let Some(open) = self.open.last_mut() {
            open.is_empty = false;
        }
        if self.open.last().is_some_and(|open| open.names.is_none()) {
            self.line();
        }
    }

    // Ends a value: an entry of an object ends with `;`.
    fn end_value(&mut self) {
        if self.open.last().is_some_and(|open| open.names.is_some()) {
            self.out.push(';');
            self.wants_name = true;
        }
    }

    fn begin(&mut self, sign: char) {
        self.begin_value();
        self.out.push(sign);
        let names = (sign == '{').then(HashSet::new);
        self.wants_name = names.is_some();
        let close = if sign == '{' { '}' } else { ']' };
        self.open.push(Open {
            close,
            names,
            is_empty: true,
        });
    }

    fn end(&mut self) -> Option<()> {
        let open = self.open.pop()?;
        if open.is_empty {
            self.out.push(' ');
        } else {
            self.line();
        }
        self.out.push(open.close);
        self.end_value();
        Some(())
    }

    // Writes a name, unless the object has it already.
    fn name(&mut self, name: &str) -> Option<()> {
        self.line();
        let open = self.open.last_mut()?;
        open.is_empty = false;
        self.wants_name = false;
        self.out.push_str(&attribute(name));
        self.out.push_str(" = ");
        open.names.as_mut()?.insert(name.to_owned()).then_some(())
    }

    // Writes a value that has no parts. A negative number is no element of a list without parentheses.
    fn scalar(&mut self, word: &str) -> Option<()> {
        self.begin_value();
        let is_element = self.open.last().is_some_and(|open| open.names.is_none());
        let text = match word.as_bytes().first()? {
            b'a'..=b'z' => word.to_owned(),
            b'-' if is_element => format!("({})", number(word)?),
            _ => number(word)?,
        };
        self.out.push_str(&text);
        self.end_value();
        Some(())
    }

    fn string(&mut self, written: &str) -> Option<()> {
        let value = Value::read(written).ok()?;
        let text = value.as_str().filter(|text| !text.contains('\0'))?;
        if self.wants_name {
            return self.name(text);
        }
        self.begin_value();
        self.out.push_str(&quoted(text));
        self.end_value();
        Some(())
    }

    // Writes what comes next of a text that is JSON.
    fn step(&mut self) -> Option<()> {
        let first = self.rest.chars().next()?;
        let len = match first {
            '"' => string_len(self.rest)?,
            '{' | '}' | '[' | ']' | ',' | ':' => 1,
            _ => self
                .rest
                .find(|c: char| !c.is_ascii_alphanumeric() && !"+-.".contains(c))
                .unwrap_or(self.rest.len()),
        };
        let (word, rest) = self.rest.split_at(len);
        self.rest = rest.trim_start();
        match first {
            '"' => self.string(word),
            '{' | '[' => {
                self.begin(first);
                Some(())
            }
            '}' | ']' => self.end(),
            ',' | ':' => Some(()),
            _ => self.scalar(word),
        }
    }
}

// A JSON text as Nix, in lines that begin with some white space. Returns `None` if it is no JSON, or has what Nix has not: a name twice in an object,
// a number that is too large, or a character of number 0.
fn nix_of(json: &str, indentation: &str) -> Option<String> {
    Value::read(json).ok()?;
    let mut writer = Writer {
        rest: json.trim(),
        open: Vec::new(),
        out: String::new(),
        indentation,
        wants_name: false,
    };
    while !writer.rest.is_empty() {
        writer.step()?;
    }
    Some(writer.out)
}

/// Returns the action that writes the JSON that is selected, an object or an array, as Nix.
pub fn converted(selection: &Selection) -> Option<Fix> {
    let selected = selection.part(selection.range);
    let json = selected.trim();
    if !json.starts_with(['{', '[']) {
        return None;
    }
    let start = usize::from(selection.range.start()) + selected.len() - selected.trim_start().len();
    let new = nix_of(json, selection.indentation(start)).filter(|new| new != json)?;
    let range = TextRange::at(TextSize::try_from(start).ok()?, TextSize::of(json));
    let mut edits = Edits::new(selection.text);
    edits.replace(range, new.as_str()).ok()?;
    let parse = Root::try_parse(&edits.apply()).ok()?;
    let element = parse
        .syntax()
        .covering_element(TextRange::at(range.start(), TextSize::of(new.as_str())));
    let is_whole = element.text_range() == TextRange::at(range.start(), TextSize::of(new.as_str()));
    let is_value = matches!(&element, SyntaxElement::Node(node) if Expr::can_cast(node.kind()));
    // `true`, `false` and `null` are those of Nix, unless something binds them.
    let names = resolve(&parse).references.into_iter();
    let mut own = names.filter(|one| element.text_range().contains_range(one.name.text_range()));
    let is_value = is_value && own.all(|one| one.binding.is_none());
    (is_whole && is_value && parse.errors().is_empty()).then(|| Fix {
        title: "Convert JSON to Nix".to_owned(),
        edits: vec![(range, new)],
    })
}

#[cfg(test)]
mod tests {
    use super::super::tests::after;
    use super::{converted, nix_of};

    #[test]
    fn json_becomes_nix() {
        let json = "{\"a b\": [1, -2, 1e5, true], \"if\": \"${x}\\n\\u00e4\", \"c\": {\"d\": null, \"e\": -1.5}, \"f\": [], \"g\": {}}";
        let nix = "{\n  \"a b\" = [\n    1\n    (-2)\n    1.0e5\n    true\n  ];\n  \
                   \"if\" = \"\\${x}\\nä\";\n  c = {\n    d = null;\n    e = -1.5;\n  };\n  f = [ ];\n  g = { };\n}";
        assert_eq!(nix_of(json, "").unwrap(), nix);
        assert_eq!(
            nix_of("[{\"a\":[[]]}]", "  ").unwrap(),
            "[\n    {\n      a = [\n        [ ]\n      ];\n    }\n  ]"
        );
        assert_eq!(
            nix_of("[0.5, 1E+5, 0.0, 0e9, -0]", "").unwrap(),
            "[\n  0.5\n  1.0E+5\n  0.0\n  0.0e9\n  (-0)\n]"
        );
    }

    #[test]
    fn what_nix_has_not_is_refused() {
        for json in [
            "{\"a\":1,\"a\":2}",
            "[9223372036854775808]",
            "[-9223372036854775808]",
            "[1e999]",
            "[1e-400]",
            "[-0.0]",
            "[\"\\u0000\"]",
            "{a: 1}",
            "[1,]",
        ] {
            assert_eq!(nix_of(json, ""), None, "{json}");
        }
        assert!(nix_of("[9223372036854775807]", "").is_some());
    }

    #[test]
    fn selected_json_is_replaced() {
        assert_eq!(
            after(converted, "{ a = | {\"b\": 1} |; }").unwrap(),
            "{ a =  {\n  b = 1;\n} ; }"
        );
        assert_eq!(after(converted, "{ a = |{\"b\": 1}| }"), None);
        assert_eq!(after(converted, "{ a = |[ 1 2 ]|; }"), None);
        assert_eq!(after(converted, "{ a = |\"b\"|; }"), None);
        assert_eq!(after(converted, "{ a = |; }"), None);
        assert_eq!(after(converted, "# |[1]|\n1"), None);
        assert_eq!(after(converted, "null: |[null]|"), None);
        assert_eq!(
            after(converted, "a: with a; |[null]|").unwrap(),
            "a: with a; [\n  null\n]"
        );
    }
}
