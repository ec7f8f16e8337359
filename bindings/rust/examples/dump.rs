//! Usage: dump < FILE
//! Prints the errors of standard input, and its tree with the text of each token.

use rnix::Root;
use std::io::{self, Read};

fn main() -> io::Result<()> {
    let mut text = String::new();
    io::stdin().read_to_string(&mut text)?;
    let parse = Root::parse(&text);
    for error in parse.errors() {
        println!("error: {error}");
    }
    print!("{:#?}", parse.syntax());
    Ok(())
}
