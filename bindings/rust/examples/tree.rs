//! `tree FILE`: prints the tree of an ISLE file, a definition at a time.

use isle_syntax::parse;
use std::error::Error;
use std::{env, fs};

fn main() -> Result<(), Box<dyn Error>> {
    let file = env::args().nth(1).ok_or("usage: tree FILE")?;
    let text = fs::read_to_string(&file)?;
    let defs = parse(&text).map_err(|refusal| format!("{file}:{refusal}"))?;
    for def in defs {
        println!("{def:#?}");
    }
    Ok(())
}
