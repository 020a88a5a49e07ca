//! `check_files FILE..`: checks files as one program, and prints its errors, or without an error
//! its warnings and what lints find.
//!
//! The status is 1 if there is an error or a file does not parse, 2 without files, 3 if a file
//! can't be read or isn't UTF-8, 4 when out of memory.

use isle_syntax::{Finding, ProgramFault, Severity, try_check_program, try_lint_program};
use std::process::ExitCode;
use std::{env, fs};

fn main() -> ExitCode {
    let names: Vec<String> = env::args().skip(1).collect();
    if names.is_empty() {
        eprintln!("usage: check_files FILE..");
        return ExitCode::from(2);
    }
    let mut texts = Vec::new();
    for name in &names {
        match fs::read_to_string(name) {
            Ok(text) => texts.push(text),
            Err(error) => return told(3, &format!("{name}: {error}")),
        }
    }
    let files: Vec<(&str, &str)> = names
        .iter()
        .zip(&texts)
        .map(|(name, text)| (name.as_str(), text.as_str()))
        .collect();
    match findings(&files) {
        Ok(found) => show(&found),
        Err(ProgramFault::Memory) => told(4, "out of memory"),
        Err(fault) => told(1, &fault.to_string()),
    }
}

/// The errors of a program, or without an error its warnings and what lints find.
fn findings(files: &[(&str, &str)]) -> Result<Vec<Finding>, ProgramFault> {
    let mut found = try_check_program(files)?;
    if !found.iter().any(|it| it.severity == Severity::Error) {
        found.extend(try_lint_program(files, false)?);
    }
    Ok(found)
}

/// Prints each finding with its notes, and returns the status.
fn show(found: &[Finding]) -> ExitCode {
    for it in found {
        println!("{it}");
        for note in &it.notes {
            println!("{note}");
        }
    }
    let fails = found.iter().any(|it| it.severity == Severity::Error);
    ExitCode::from(u8::from(fails))
}

/// Prints why nothing is checked, and returns the status.
fn told(status: u8, why: &str) -> ExitCode {
    eprintln!("{why}");
    ExitCode::from(status)
}
