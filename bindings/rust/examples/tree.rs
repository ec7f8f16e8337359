//! Usage: tree [FILE..]
//! Prints the errors and the tree of each file, or of standard input, as `rnix tree` does. The exit status is 0 without errors, 1 with some, and 2 if a
//! text is refused or cannot be read.

use rnix::{Root, WalkEvent};
use std::error::Error;
use std::io::{self, Read, Write};
use std::process::ExitCode;
use std::{env, fs, str};

// The greatest depth that is shown by indentation.
const INDENTED: usize = 100;

// The start of a line: two spaces per level, or the depth as a number where it is greater than `INDENTED`.
fn margin(depth: usize) -> String {
    if depth > INDENTED {
        format!("{depth} ")
    } else {
        " ".repeat(2 * depth)
    }
}

// Prints the errors and the tree of a text, and returns whether it has errors.
fn print(text: &[u8], out: &mut impl Write) -> Result<bool, Box<dyn Error>> {
    let parse = Root::try_parse(str::from_utf8(text)?)?;
    for error in parse.errors() {
        writeln!(out, "error: {error}")?;
    }
    let mut depth = 0;
    for event in parse.syntax().preorder_ref() {
        let WalkEvent::Enter(element) = event else {
            depth -= 1;
            continue;
        };
        writeln!(out, "{}{:?}@{:?}", margin(depth), element.kind(), element.text_range())?;
        depth += 1;
    }
    Ok(!parse.errors().is_empty())
}

fn print_all(files: &[String]) -> Result<bool, Box<dyn Error>> {
    let mut out = io::BufWriter::new(io::stdout().lock());
    let mut has_errors = false;
    if files.is_empty() {
        let mut text = Vec::new();
        io::stdin().read_to_end(&mut text)?;
        has_errors = print(&text, &mut out)?;
    }
    for file in files {
        has_errors |= print(&fs::read(file)?, &mut out)?;
    }
    out.flush()?;
    Ok(has_errors)
}

fn main() -> ExitCode {
    let files: Vec<String> = env::args().skip(1).collect();
    match print_all(&files) {
        Ok(has_errors) => ExitCode::from(u8::from(has_errors)),
        Err(refusal) => {
            eprintln!("tree: {refusal}");
            ExitCode::from(2)
        }
    }
}
