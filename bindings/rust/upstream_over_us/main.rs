//! `upstream_over_us FILE..`: compiles a program by upstream's compiler, whole and over
//! `isle_syntax` in place of its syntax layer, and compares the code.

use std::process::ExitCode;
use std::sync::Arc;
use std::{env, fs};

/// The definitions of verification.
const VERIFICATION: [&str; 7] = [
    "spec",
    "model",
    "form",
    "instantiate",
    "attr",
    "state",
    "macro",
];

/// Compiles a program by one of the two crates: the same source, with the name of the crate changed.
/// The answer is the code, or why there is none.
macro_rules! compiled {
    ($by:ident, $names:expr, $texts:expr) => {{
        use $by::{codegen, compile, error, files, lexer, parser};
        let pairs = $names.iter().cloned().zip($texts.iter().cloned());
        let files = Arc::new(files::Files::from_names_and_contents(pairs));
        let mut parsed = Ok(Vec::new());
        for (file, text) in $texts.iter().enumerate() {
            let defs = lexer::Lexer::new(file, text).and_then(parser::parse);
            parsed = parsed.and_then(|before| Ok([before, defs?].concat()));
        }
        let options = codegen::CodegenOptions::default();
        parsed
            .map_err(|error| error::Errors::new(vec![error], files.clone()))
            .and_then(|defs| compile::compile(files, &defs, &options))
            .map_err(|errors| format!("{errors:?}"))
    }};
}

fn main() -> ExitCode {
    let names: Vec<String> = env::args().skip(1).collect();
    let texts: Result<Vec<String>, _> = names.iter().map(fs::read_to_string).collect();
    let texts: Vec<String> = match texts {
        Ok(texts) => texts.iter().map(|text| blanked(text)).collect(),
        Err(error) => {
            eprintln!("{error}");
            return ExitCode::from(3);
        }
    };
    let whole = compiled!(upstream, names, texts);
    match (whole, compiled!(upstream_over, names, texts)) {
        (Ok(upstream), Ok(ours)) if upstream == ours => {
            println!("equal: {} lines of code", ours.lines().count());
            ExitCode::SUCCESS
        }
        (Ok(upstream), Ok(ours)) => {
            let pairs = upstream.lines().zip(ours.lines()).enumerate();
            for (line, (upstream, ours)) in pairs.filter(|(_, (a, b))| a != b).take(3) {
                println!("line {}: upstream: {upstream}\nover us: {ours}", line + 1);
            }
            ExitCode::from(1)
        }
        (upstream, ours) => {
            let told = |it: &Result<String, String>| match it {
                Ok(_) => "compiles".to_string(),
                Err(why) => why.clone(),
            };
            println!("upstream: {}\nover us: {}", told(&upstream), told(&ours));
            ExitCode::from(1)
        }
    }
}

/// The text with blanks in place of each definition for verification, so that nothing moves.
fn blanked(text: &str) -> String {
    let mut bytes = text.as_bytes().to_vec();
    let (mut at, mut depth, mut from) = (0, 0usize, None);
    while at < bytes.len() {
        match bytes[at] {
            b';' => at += bytes[at..].iter().take_while(|&&it| it != b'\n').count(),
            b'(' => {
                let rest = &text[at + 1..];
                let end = rest.find(|c: char| c.is_whitespace() || "();".contains(c));
                let word = &rest[..end.unwrap_or(rest.len())];
                if depth == 0 && VERIFICATION.contains(&word) {
                    from = Some(at);
                }
                depth += 1;
                at += 1;
            }
            b')' => {
                depth = depth.saturating_sub(1);
                at += 1;
                if let (0, Some(begin)) = (depth, from) {
                    let cells = bytes[begin..at].iter_mut().filter(|it| **it != b'\n');
                    cells.for_each(|it| *it = b' ');
                    from = None;
                }
            }
            _ => at += 1,
        }
    }
    String::from_utf8(bytes).expect("whole characters are blanked")
}
