//! Usage: check FILE..
//! Prints the errors of each file with their lines and columns. The exit status is 0 without errors, 1 with some, and 2 if a file cannot be read.

use rnix::{ColumnUnit, LineIndex, ParseError, Root};
use std::error::Error;
use std::process::ExitCode;
use std::{env, fs};

// The offset of an error; one without a range is at the end of the text.
fn offset(text: &str, error: &ParseError) -> usize {
    match error {
        ParseError::Unexpected(range)
        | ParseError::UnexpectedExtra(range)
        | ParseError::UnexpectedWanted(_, range, _)
        | ParseError::UnexpectedDoubleBind(range)
        | ParseError::DuplicatedArgs(range, _) => range.start().into(),
        _ => text.len(),
    }
}

fn check(file: &str) -> Result<bool, Box<dyn Error>> {
    let text = fs::read_to_string(file)?;
    let parse = Root::try_parse(&text)?;
    let lines = LineIndex::new(&text, ColumnUnit::Chars);
    for error in parse.errors() {
        if let Some(position) = lines.position(offset(&text, error)) {
            println!("{file}:{}:{}: {error}", position.line + 1, position.column + 1);
        }
    }
    Ok(parse.errors().is_empty())
}

fn main() -> ExitCode {
    let mut status = 0;
    for file in env::args().skip(1) {
        status = match check(&file) {
            Ok(true) => status,
            Ok(false) => status.max(1),
            Err(refusal) => {
                eprintln!("{file}: {refusal}");
                2
            }
        };
    }
    ExitCode::from(status)
}
