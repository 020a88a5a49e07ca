//! `tidy_file FILE..`: tidies files in place. No comment is lost.
//!
//! The status is the greatest of all files': 1 if a file has a bad token or unmatched parentheses,
//! 3 if it can't be read or written or isn't UTF-8, 4 when out of memory. Such a file is left as it
//! was, and the reason is printed to standard error.

use isle_syntax::{Fault, try_tidy};
use std::io::Write;
use std::process::ExitCode;
use std::{env, fs, io};

fn main() -> ExitCode {
    let files: Vec<String> = env::args().skip(1).collect();
    if files.is_empty() {
        eprintln!("usage: tidy_file FILE..");
        return ExitCode::from(2);
    }
    let statuses = files.iter().map(|file| tidy_file(file));
    ExitCode::from(statuses.max().unwrap_or(0))
}

/// Tidies a file, and returns the status.
fn tidy_file(file: &str) -> u8 {
    let text = match fs::read_to_string(file) {
        Ok(text) => text,
        Err(error) => return told(status_of(&error), file, &error),
    };
    match try_tidy(&text) {
        Ok(tidied) if tidied == text => 0,
        Ok(tidied) => match replace(file, &tidied) {
            Ok(()) => 0,
            Err(error) => told(status_of(&error), file, &error),
        },
        Err(Fault::Refused(refusal)) => {
            eprintln!("{file}:{refusal}");
            1
        }
        Err(fault) => told(4, file, &fault),
    }
}

/// The status of a system error.
fn status_of(error: &io::Error) -> u8 {
    match error.kind() {
        io::ErrorKind::OutOfMemory => 4,
        _ => 3,
    }
}

/// Replaces the text of a file. At every moment the file has the old text or the new one, whole.
fn replace(file: &str, text: &str) -> io::Result<()> {
    let beside = format!("{file}.tidy");
    let mut new = fs::File::create_new(&beside)?;
    let written = new.write_all(text.as_bytes()).and_then(|()| new.sync_all());
    let done = written
        .and_then(|()| fs::set_permissions(&beside, fs::metadata(file)?.permissions()))
        .and_then(|()| fs::rename(&beside, file));
    done.inspect_err(|_| drop(fs::remove_file(&beside)))
}

/// Prints why a file isn't tidied, and returns the status.
fn told(status: u8, file: &str, why: &dyn std::fmt::Display) -> u8 {
    eprintln!("{file}: {why}");
    status
}
