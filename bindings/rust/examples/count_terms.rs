//! `count_terms FILE..`: counts in how many places the rules of ISLE files use each term, and
//! prints the terms with their counts, the most used first.
//!
//! The status is 1 if a file does not parse, 3 if it can't be read or isn't UTF-8, 4 when out of
//! memory. The reason is printed to standard error, and no counts are.

use isle_syntax::ast::{Def, Ident, Pos};
use isle_syntax::{Fault, try_parse_each};
use std::collections::BTreeMap;
use std::process::ExitCode;
use std::{env, fs, io};

fn main() -> ExitCode {
    let mut counts = BTreeMap::new();
    for file in env::args().skip(1) {
        if let Err((status, why)) = count_file(&file, &mut counts) {
            eprintln!("{file}:{why}");
            return ExitCode::from(status);
        }
    }
    let mut counts: Vec<(String, usize)> = counts.into_iter().collect();
    counts.sort_by_key(|(_, uses)| std::cmp::Reverse(*uses));
    for (term, uses) in counts {
        println!("{uses:6} {term}");
    }
    ExitCode::SUCCESS
}

/// Counts the terms of a file, or says why it can't, with the status.
fn count_file(file: &str, counts: &mut BTreeMap<String, usize>) -> Result<(), (u8, String)> {
    let text = fs::read_to_string(file).map_err(|error| match error.kind() {
        io::ErrorKind::OutOfMemory => (4, format!(" {error}")),
        _ => (3, format!(" {error}")),
    })?;
    // One definition at a time: the tree of the file is never whole.
    try_parse_each(&text, |def| count(&def, counts)).map_err(|fault| match fault {
        Fault::Refused(refusal) => (1, refusal.to_string()),
        fault => (4, format!(" {fault}")),
    })
}

/// Counts the terms of a definition, if it is a rule.
fn count(def: &Def, counts: &mut BTreeMap<String, usize>) {
    let Def::Rule(rule) = def else { return };
    let mut add = |_: Pos, term: &Ident| *counts.entry(term.0.clone()).or_insert(0) += 1;
    rule.pattern.terms(&mut add);
    for iflet in &rule.iflets {
        iflet.pattern.terms(&mut add);
        iflet.expr.terms(&mut add);
    }
    rule.expr.terms(&mut add);
}
