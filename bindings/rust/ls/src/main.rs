//! A language server for Nix: `rnix-ls` speaks the Language Server Protocol over standard input and output.

mod analysis;
mod calls;
mod change;
mod client;
mod documents;
mod edits;
mod features;
mod json;
mod options;
mod outgoing;
mod paths;
mod process;
mod protocol;
mod queue;
#[cfg(test)]
mod random;
mod request;
mod server;
mod settings;
mod sources;
mod text;
mod transport;
mod uri;
mod workspace;

use std::io::{self, BufWriter, Write};
use std::process::ExitCode;

const HELP: &str = "\
rnix-ls [--stdio]

A language server for Nix. An editor starts it and speaks the Language Server Protocol 3.17 with it over standard input and output.

    --stdio      does nothing, since there is no other way
    --help       prints this text
    --version    prints the version
";

// Prints a text for people.
fn print(text: &str) -> ExitCode {
    match io::stdout().write_all(text.as_bytes()) {
        Ok(()) => ExitCode::SUCCESS,
        Err(_) => ExitCode::from(2),
    }
}

fn main() -> ExitCode {
    match std::env::args_os().skip(1).find(|word| word != "--stdio") {
        None => ExitCode::from(server::serve(io::stdin(), BufWriter::new(io::stdout()))),
        Some(word) if word == "--help" => print(HELP),
        Some(word) if word == "--version" => print(concat!("rnix-ls ", env!("CARGO_PKG_VERSION"), "\n")),
        Some(word) => {
            eprintln!(
                "rnix-ls: unknown argument {}; --help prints the usage",
                word.to_string_lossy()
            );
            ExitCode::from(2)
        }
    }
}
