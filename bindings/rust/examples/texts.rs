//! Usage: texts < LIST
//! Prints what the crate says of each text of a list, as `bindings/c/texts.c` does.

use rnix::ast::{InterpolPart, Str};
use rnix::syntax::ast::AstNode;
use rnix::{tokenize, NodeOrToken, ParseError, Root, SyntaxElement, SyntaxKind};
use std::collections::HashMap;
use std::fmt::{self, Write as _};
use std::io::{self, Read, Write};

// The next text of a list, and the rest of the list.
fn next_text(list: &[u8]) -> Option<(&str, &[u8])> {
    let line = list.iter().position(|byte| *byte == b'\n')?;
    let len: usize = std::str::from_utf8(&list[..line]).ok()?.parse().ok()?;
    let (text, rest) = list[line + 1..].split_at(len);
    Some((std::str::from_utf8(text).ok()?, &rest[1..]))
}

// The kinds that an error wants.
fn wanted(error: &ParseError) -> &[SyntaxKind] {
    match error {
        ParseError::UnexpectedWanted(_, _, wanted) | ParseError::UnexpectedEOFWanted(wanted) => wanted,
        _ => &[],
    }
}

fn write_errors(errors: &[ParseError], out: &mut String) -> fmt::Result {
    for error in errors {
        writeln!(out, "error {error}")?;
        for kind in wanted(error) {
            writeln!(out, "wanted {kind:?}")?;
        }
    }
    Ok(())
}

// Neither equality nor hashes of nodes look at what changes in a tree.
#[allow(clippy::mutable_key_type)]
fn write_elements(elements: &[SyntaxElement], out: &mut String) -> fmt::Result {
    let mut numbers = HashMap::new();
    for (number, element) in elements.iter().enumerate() {
        let name = match element {
            NodeOrToken::Node(node) => {
                numbers.insert(node.clone(), number as i64);
                "node"
            }
            NodeOrToken::Token(_) => "leaf",
        };
        let parent = element.parent().map_or(-1, |parent| numbers[&parent]);
        writeln!(
            out,
            "{name} {:?} {:?} in {parent}",
            element.kind(),
            element.text_range()
        )?;
    }
    Ok(())
}

fn write_strings(elements: &[SyntaxElement], out: &mut String) -> fmt::Result {
    for (number, element) in elements.iter().enumerate() {
        let Some(string) = element.clone().into_node().and_then(Str::cast) else {
            continue;
        };
        for part in string.normalized_parts() {
            match part {
                InterpolPart::Literal(text) => writeln!(out, "string {number} literal {}\n{text}", text.len())?,
                InterpolPart::Interpolation(node) => {
                    writeln!(out, "string {number} interpolation {:?}", node.syntax().text_range())?
                }
            }
        }
    }
    Ok(())
}

fn write_text(text: &str, out: &mut String) -> fmt::Result {
    writeln!(out, "text {}", text.len())?;
    for (kind, token) in tokenize(text) {
        writeln!(out, "token {kind:?} {}", token.len())?;
    }
    let parse = Root::parse(text);
    let elements: Vec<SyntaxElement> = parse.syntax().descendants_with_tokens().collect();
    write_errors(parse.errors(), out)?;
    write_elements(&elements, out)?;
    write_strings(&elements, out)
}

fn main() -> io::Result<()> {
    let mut list = Vec::new();
    io::stdin().read_to_end(&mut list)?;
    let mut rest = &list[..];
    let mut out = io::BufWriter::new(io::stdout().lock());
    while let Some((text, tail)) = next_text(rest) {
        let mut printed = String::new();
        write_text(text, &mut printed).expect("writing to a string succeeds");
        out.write_all(printed.as_bytes())?;
        rest = tail;
    }
    out.flush()
}
