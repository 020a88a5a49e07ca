//! `texts FOLDER`: writes generated texts of ISLE, whole and damaged, with the answers of this
//! package: N.isle, N.tidy and N.format, the tidy text and the print at 78, or the error.

#[path = "../tests/common/mod.rs"]
mod common;

use isle_syntax::{Refusal, format, tidy};
use std::process::ExitCode;
use std::{env, fs, io};

/// How many texts are written.
const TEXTS: u64 = 1000;

fn main() -> io::Result<ExitCode> {
    let Some(folder) = env::args().nth(1) else {
        eprintln!("usage: texts FOLDER");
        return Ok(ExitCode::from(2));
    };
    for number in 0..TEXTS {
        let text = common::text(number);
        let name = format!("{folder}/{number}.isle");
        fs::write(&name, &text)?;
        for (end, answer) in [("tidy", tidy(&text)), ("format", format(&text, 78))] {
            fs::write(format!("{folder}/{number}.{end}"), shown(&answer))?;
        }
    }
    Ok(ExitCode::SUCCESS)
}

/// An answer, or an error as it is displayed.
fn shown(answer: &Result<String, Refusal>) -> String {
    match answer {
        Ok(answer) => answer.clone(),
        Err(refusal) => format!("{refusal}\n"),
    }
}
