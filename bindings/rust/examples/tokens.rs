//! Usage: tokens [--format] < FILE
//! Prints the kind and the length of each token of standard input, or with --format the text in the style of Nixpkgs.

use std::io::{self, Read};

fn main() -> Result<(), Box<dyn std::error::Error>> {
    let mut text = String::new();
    io::stdin().read_to_string(&mut text)?;
    if std::env::args().any(|word| word == "--format") {
        print!("{}", rnix::formatting::formatted(&text)?);
        return Ok(());
    }
    for (kind, token) in rnix::tokenize(&text) {
        println!("{} {}", kind.name(), token.len());
    }
    Ok(())
}
