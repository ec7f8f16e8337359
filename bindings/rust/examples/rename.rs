//! Usage: rename OLD NEW < FILE
//! Replaces every identifier OLD by NEW, but not in strings and comments. It does not look at scopes.

use rnix::ast::Ident;
use rnix::{Edits, Root};
use std::env;
use std::error::Error;
use std::io::{self, Read};

fn main() -> Result<(), Box<dyn Error>> {
    let (old, new) = (env::args().nth(1), env::args().nth(2));
    let (Some(old), Some(new)) = (old, new) else {
        return Err("rename OLD NEW < FILE".into());
    };
    let mut text = String::new();
    io::stdin().read_to_string(&mut text)?;
    let mut edits = Edits::new(&text);
    let root = Root::parse(&text).syntax();
    for name in root.elements().filter(|element| element.kind() == Ident::KIND) {
        if name.text() == old {
            edits.replace(name.text_range(), new.as_str())?;
        }
    }
    print!("{}", edits.apply());
    Ok(())
}
