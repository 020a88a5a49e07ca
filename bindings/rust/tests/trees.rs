//! Trees of the repository's cases, and of generated texts, printed again.

mod common;
mod conformance;

use common::text;
use conformance::{cases, shown};
use isle_syntax::ast::{Def, Pos};
use isle_syntax::printer::print;
use isle_syntax::{check, format, parse, parse_each, parse_file, try_parse, with_stack};
use std::thread;

/// How many texts are generated.
const TEXTS: u64 = 2000;

#[test]
fn parses_to_the_trees_that_the_cases_state() {
    let mut compared = 0;
    for case in cases("parse") {
        // A second number says how many tokens are read first, which nothing here does.
        let ([file], text) = (&case.numbers[..], &case.texts[0]) else {
            continue;
        };
        let tree = parse_file(text, *file);
        match &tree {
            Ok(_) => assert_eq!(shown(&tree), case.answer, "of {}", case.question),
            Err(refusal) => {
                let (message, answer) = (&refusal.message, &case.answer);
                assert!(answer.contains(message), "of {}: {answer}", case.question);
            }
        }
        compared += 1;
    }
    assert!(compared > 100, "{compared} cases");
}

#[test]
fn prints_as_the_formatter_does() {
    // Some cases nest deeper than the stack of a test's thread bears.
    let printed = with_stack(64 << 20, printed_texts).unwrap();
    assert!(printed > 700, "{printed} texts");
}

/// Compares the prints of all texts with what the formatter makes, and counts them.
fn printed_texts() -> u64 {
    let mut printed = 0;
    let cases = ["parse", "format", "nodes"].into_iter().flat_map(cases);
    let cases = cases.filter_map(|it| it.texts.into_iter().next());
    let generated = (0..TEXTS).map(text);
    for (seed, text) in cases.chain(generated).enumerate() {
        let width = [0, 1, 5, 13, 20, 40, 78, 200, usize::MAX][seed % 9];
        match parse(&text) {
            Ok(defs) => {
                let mut out = Vec::new();
                print(&defs, width, &mut out).unwrap();
                let out = String::from_utf8(out).unwrap();
                assert_eq!(Ok(out), format(&text, width), "of {text} at {width}");
                printed += 1;
            }
            Err(refusal) => assert_eq!(check(&text), Err(refusal), "of {text}"),
        }
    }
    printed
}

#[test]
fn definitions_one_after_another_are_those_of_the_tree() {
    for text in (0..TEXTS).map(text) {
        let mut defs = vec![];
        let each = parse_each(&text, |def| defs.push(def));
        let parsed = parse(&text);
        assert_eq!(each.clone().map(|()| defs), parsed, "of {text}");
        let tried = try_parse(&text).map_err(|fault| fault.to_string());
        assert_eq!(tried, parsed.map_err(|it| it.to_string()), "of {text}");
    }
}

#[test]
fn the_file_is_that_of_each_position() {
    let defs = parse_file("(convert A B c)", 7).unwrap();
    let [Def::Converter(converter)] = &defs[..] else {
        panic!("{defs:?}");
    };
    assert_eq!(converter.pos, Pos::new(7, 9));
    assert_eq!(converter.term.1, Pos::new(7, 13));
    assert!(!converter.pos.is_unknown());
    assert!(parse_file("(convert A B c)", usize::MAX).is_ok());
}

#[test]
fn dense_and_long_texts() {
    assert_eq!(parse(""), Ok(vec![]));
    // More bytes than the first buffer has room for, and names that are longer than the rest.
    let dense = format!("(rule (f {}) x)", "x ".repeat(20_000));
    assert_eq!(parse(&dense).map(|defs| defs.len()), Ok(1));
    let long = format!("(convert A B {})", "x".repeat(100_000));
    assert_eq!(parse(&long).map(|defs| defs.len()), Ok(1));
}

#[test]
fn threads_parse_at_once() {
    let wanted: Vec<_> = (0..100).map(|seed| parse(&text(seed))).collect();
    thread::scope(|scope| {
        for _ in 0..4 {
            scope.spawn(|| {
                for (seed, wanted) in wanted.iter().enumerate() {
                    assert_eq!(&parse(&text(seed as u64)), wanted);
                }
            });
        }
    });
}
