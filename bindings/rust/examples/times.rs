//! `cargo run --release --example times [FILE [WIDTH [ROUNDS]]]`: times a text in one process.
//!
//! Without a file the text is the repository's `examples/rules.isle`, repeated up to 2 MB. Each
//! line is a step, with the median of the rounds in milliseconds. If the variable `CRANELIFT_ISLE`
//! names the folder of upstream's crate `cranelift-isle`, its syntax layer is compiled into this
//! program and takes turns: lexing alone, parsing with the lexing that it needs, and the whole way
//! from text to text. The library has no call for lexing alone.

use std::error::Error;
use std::hint::black_box;
use std::time::{Duration, Instant};
use std::{env, fs};

// Upstream's modules name one another by `crate`, so they are at the root.
#[cfg(upstream)]
include!(concat!(env!("OUT_DIR"), "/upstream.rs"));

/// A step to time: its name, and a run of it.
type Step<'a> = (&'static str, Box<dyn Fn() + 'a>);

fn main() -> Result<(), Box<dyn Error>> {
    let words: Vec<String> = env::args().skip(1).collect();
    let text = match words.first() {
        Some(file) => fs::read_to_string(file)?,
        None => {
            let rules = concat!(env!("CARGO_MANIFEST_DIR"), "/../../examples/rules.isle");
            let rules = fs::read_to_string(rules)?;
            rules.repeat(2_000_000 / rules.len())
        }
    };
    let width = words.get(1).map_or(Ok(78), |word| word.parse())?;
    let rounds = words.get(2).map_or(Ok(15), |word| word.parse())?;
    isle_syntax::check(&text)?;
    println!("{} bytes, width {width}, {rounds} rounds", text.len());
    let mut steps: Vec<Step> = vec![
        (
            "check",
            Box::new(|| drop(black_box(isle_syntax::check(&text)))),
        ),
        (
            "parse",
            Box::new(|| drop(black_box(isle_syntax::parse(&text)))),
        ),
        (
            "parse_each",
            Box::new(|| drop(isle_syntax::parse_each(&text, |def| drop(black_box(def))))),
        ),
        (
            "format",
            Box::new(|| drop(black_box(isle_syntax::format(&text, width)))),
        ),
    ];
    #[cfg(upstream)]
    steps.extend(beside::steps(&text, width));
    steps.shrink_to_fit();
    // In turns, so that other load on the machine affects all alike.
    let mut times = vec![Vec::new(); steps.len()];
    for _ in 0..rounds {
        for ((_, step), times) in steps.iter().zip(&mut times) {
            let started = Instant::now();
            step();
            times.push(started.elapsed());
        }
    }
    for ((name, _), times) in steps.iter().zip(&mut times) {
        println!("{name:<24}{:>9.2} ms", 1000.0 * median(times).as_secs_f64());
    }
    Ok(())
}

fn median(times: &mut [Duration]) -> Duration {
    times.sort();
    times.get(times.len() / 2).copied().unwrap_or_default()
}

/// Upstream's steps.
#[cfg(upstream)]
mod beside {
    use crate::lexer::Lexer;
    use crate::parser::parse;
    use crate::printer::print;
    use std::hint::black_box;

    pub fn steps(text: &str, width: usize) -> Vec<crate::Step<'_>> {
        vec![
            ("upstream, lexing", Box::new(|| lex(text))),
            ("upstream, to the tree", Box::new(|| read(text))),
            (
                "upstream, to the text",
                Box::new(move || write(text, width)),
            ),
        ]
    }

    fn lex(text: &str) {
        let mut lexer = Lexer::new(0, text).unwrap();
        while let Some(token) = lexer.next().unwrap() {
            black_box(token);
        }
    }

    fn read(text: &str) {
        black_box(parse(Lexer::new(0, text).unwrap()).unwrap());
    }

    fn write(text: &str, width: usize) {
        let defs = parse(Lexer::new(0, text).unwrap()).unwrap();
        let mut output = Vec::new();
        print(&defs, width, &mut output).unwrap();
        black_box(String::from_utf8(output).unwrap());
    }
}
