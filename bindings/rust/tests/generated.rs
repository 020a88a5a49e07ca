//! Generated texts: beside the proved programs, tidied and formatted twice, and by threads at once.

mod common;

use common::{Chance, text};
use isle_syntax::{Refusal, check, diagnostic, format, is_tidy, tidy, with_stack};
use std::io::Write;
use std::path::{Path, PathBuf};
use std::process::{Command, Stdio};
use std::thread;

/// How many texts are generated.
const TEXTS: u64 = 1000;

/// Where a proved program may be, from the package: built in the repository, or packed beside it.
const FOLDERS: [&str; 2] = ["../../crates/NAME/out/NAME", "../bin/NAME"];

/// The proved program of a name, if there is one.
fn path_of(name: &str) -> Option<PathBuf> {
    let here = Path::new(env!("CARGO_MANIFEST_DIR"));
    let built = here.join(FOLDERS[0].replace("NAME", &name.replace('-', "_")));
    let packed = here.join(FOLDERS[1].replace("NAME", name));
    [built, packed].into_iter().find(|it| it.exists())
}

/// A width for a text.
fn width(seed: u64) -> usize {
    [0, 1, 20, 40, 78, 200, usize::MAX][Chance::new(seed).below(7)]
}

/// The status and the output of a program.
fn ran(program: &Path, word: Option<String>, text: &str) -> (Option<i32>, String, String) {
    let mut run = Command::new(program)
        .args(word)
        .stdin(Stdio::piped())
        .stdout(Stdio::piped())
        .stderr(Stdio::piped())
        .spawn()
        .unwrap();
    let mut input = run.stdin.take().unwrap();
    input.write_all(text.as_bytes()).unwrap();
    drop(input);
    let ended = run.wait_with_output().unwrap();
    let output = String::from_utf8(ended.stdout).unwrap();
    let faults = String::from_utf8(ended.stderr).unwrap();
    (ended.status.code(), output, faults)
}

#[test]
fn formats_as_the_program_does() {
    let Some(program) = path_of("isle-fmt") else {
        println!("not compared: ./build makes isle-fmt");
        return;
    };
    for seed in 0..TEXTS {
        let (text, width) = (text(seed), width(seed));
        let wanted = match format(&text, width) {
            Ok(formatted) => (Some(0), formatted, String::new()),
            Err(_) => (
                Some(1),
                String::new(),
                diagnostic("<stdin>", &text).unwrap(),
            ),
        };
        assert_eq!(
            ran(&program, Some(width.to_string()), &text),
            wanted,
            "of {text}"
        );
    }
}

#[test]
fn tidies_as_the_program_does() {
    let Some(program) = path_of("isle-tidy") else {
        println!("not compared: ./build makes isle-tidy");
        return;
    };
    for seed in 0..TEXTS {
        let text = text(seed);
        let wanted = match tidy(&text) {
            Ok(tidied) => (Some(0), tidied, String::new()),
            Err(Refusal {
                line,
                column,
                message,
                ..
            }) => {
                let told = format!("<stdin>:{line}:{column}: error: {message}\n");
                (Some(1), String::new(), told)
            }
        };
        assert_eq!(ran(&program, None, &text), wanted, "of {text}");
    }
}

#[test]
fn tidies_again_what_is_tidied() {
    let mut accepted = 0;
    for seed in 0..TEXTS {
        let text = text(seed);
        match tidy(&text) {
            Ok(tidied) => {
                assert_eq!(is_tidy(&text), Ok(tidied == text), "of {text}");
                assert_eq!(is_tidy(&tidied), Ok(true), "of {text}");
                assert_eq!(tidy(&tidied), Ok(tidied.clone()), "of {text}");
                assert_eq!(check(&tidied).is_ok(), check(&text).is_ok(), "of {text}");
                accepted += 1;
            }
            Err(refusal) => assert_eq!(is_tidy(&text), Err(refusal), "of {text}"),
        }
    }
    assert!(accepted > 800, "{accepted} are accepted");
}

#[test]
fn a_deep_nest_has_room() {
    let text = format!(
        "(rule (f x) {}y{})",
        "(g ".repeat(90_000),
        ")".repeat(90_000)
    );
    assert_eq!(with_stack(128 << 20, || check(&text)).unwrap(), Ok(()));
}

#[test]
fn formats_again_what_is_formatted() {
    let mut accepted = 0;
    for seed in 0..TEXTS {
        let (text, width) = (text(seed), width(seed));
        match format(&text, width) {
            Ok(formatted) => {
                assert_eq!(
                    format(&formatted, width),
                    Ok(formatted.clone()),
                    "of {text}"
                );
                assert_eq!(check(&text), Ok(()), "of {text}");
                assert_eq!(diagnostic("a.isle", &text), None, "of {text}");
                accepted += 1;
            }
            Err(refusal) => assert_eq!(check(&text), Err(refusal), "of {text}"),
        }
    }
    assert!(
        (300..TEXTS - 100).contains(&accepted),
        "{accepted} are accepted"
    );
}

#[test]
fn threads_format_at_once() {
    let texts: Vec<String> = (0..TEXTS).map(text).collect();
    let answer = |seed: usize| format(&texts[seed], width(seed as u64));
    let wanted: Vec<_> = (0..texts.len()).map(answer).collect();
    thread::scope(|scope| {
        for first in 0..8 {
            let (wanted, answer) = (&wanted, &answer);
            scope.spawn(move || {
                for seed in (0..wanted.len()).map(|it| (it + 125 * first) % wanted.len()) {
                    assert_eq!(answer(seed), wanted[seed]);
                }
            });
        }
    });
}

#[test]
fn a_long_answer_is_whole() {
    // The answer is a dozen times as long as its text, so the first buffer is too small for it.
    let text = format!("(rule {}x{} y)", "(a ".repeat(50), ")".repeat(50));
    let formatted = format(&text, 1).unwrap();
    assert!(formatted.len() > 10 * text.len());
    assert_eq!(format(&formatted, usize::MAX), format(&text, usize::MAX));
}

#[test]
fn the_archive_is_of_the_language_that_the_package_names() {
    let (major, minor, patch) = isle_syntax::version();
    assert_eq!(
        format!("{major}.{minor}.{patch}"),
        isle_syntax::LANGUAGE_VERSION
    );
}
