//! The findings of small programs, as `docs/CHECKS.md` and the README word them.

use isle_syntax::{
    FileRefusal, Finding, ProgramFault, Severity, check_program, lint_program, try_check_program,
};

/// The lines of findings, each with those of its notes.
fn lines(found: Result<Vec<Finding>, FileRefusal>) -> Vec<String> {
    let mut lines = Vec::new();
    for it in found.unwrap() {
        lines.push(it.to_string());
        lines.extend(it.notes.iter().map(|note| note.to_string()));
    }
    lines
}

#[test]
fn a_right_program_has_no_finding() {
    let files = [("a.isle", "(decl f (u8) u8)"), ("b.isle", "(rule (f x) x)")];
    assert_eq!(check_program(&files), Ok(vec![]));
    assert_eq!(lint_program(&files, true), Ok(vec![]));
    assert_eq!(check_program(&[]), Ok(vec![]));
    assert_eq!(check_program(&[("empty.isle", "")]), Ok(vec![]));
}

#[test]
fn errors_have_their_files_and_lines() {
    let files = [
        ("a.isle", "(decl f (u8) u8)\n"),
        ("b.isle", "; a comment\n(rule (f x)\n    y)\n"),
    ];
    let found = check_program(&files).unwrap();
    let [error] = &found[..] else {
        panic!("{found:?}");
    };
    assert_eq!(error.severity, Severity::Error);
    assert_eq!(error.kind, "unknown-variable");
    assert_eq!(error.message, "Unknown variable 'y'");
    let place = &error.place;
    assert_eq!((place.file, &place.name[..]), (1, "b.isle"));
    assert_eq!((place.offset, place.line, place.column), (28, 3, 5));
    assert_eq!(error.notes, []);
    let shown = "b.isle:3:5: error: Unknown variable 'y' [unknown-variable]";
    assert_eq!(error.to_string(), shown);
}

#[test]
fn errors_are_those_of_the_first_group() {
    let text = "(type T (primitive u8)) (type T (enum A)) (rule (f x) x)";
    let shown = "a.isle:1:31: error: Type with name 'T' defined more than once [duplicate-type]";
    assert_eq!(lines(check_program(&[("a.isle", text)])), [shown]);
}

#[test]
fn overlapping_rules_have_notes() {
    let text = "(decl f (u8) u8)\n(rule (f 1) 1)\n(rule (f 1) 2)\n";
    let found = check_program(&[("a.isle", text)]).unwrap();
    let [error] = &found[..] else {
        panic!("{found:?}");
    };
    assert_eq!(error.kind, "rule-overlap");
    assert_eq!(error.notes.len(), 1);
    let lines = [error.place.line, error.notes[0].place.line];
    assert!(lines == [2, 3] || lines == [3, 2], "{lines:?}");
}

#[test]
fn warnings_come_without_an_error() {
    let text = "(extern const $C u8) (extern const $C u8)";
    let found = check_program(&[("a.isle", text)]).unwrap();
    let [warning] = &found[..] else {
        panic!("{found:?}");
    };
    assert_eq!(warning.severity, Severity::Warning);
    assert_eq!(warning.kind, "duplicate-constant");
}

#[test]
fn lints_are_the_default_ones_or_all() {
    let files = [("a.isle", "(rule (f x @ (g z)) (let ((y u8 z)) z))")];
    let unused = "a.isle:1:28: warning: unused variable 'y' [unused-let]";
    assert_eq!(lines(lint_program(&files, false)), [unused]);
    let binding = "a.isle:1:10: warning: unused binding 'x' [unused-binding]";
    assert_eq!(lines(lint_program(&files, true)), [binding, unused]);
}

#[test]
fn the_first_file_that_does_not_parse_is_told() {
    let files = [
        ("a.isle", "(decl f (u8) u8)"),
        ("b.isle", "(decl g () T)\n(decl pure () T)\n"),
        ("c.isle", "("),
    ];
    let refusal = check_program(&files).unwrap_err();
    assert_eq!((refusal.file, &refusal.name[..]), (1, "b.isle"));
    assert_eq!(refusal.to_string(), "b.isle:2:12: Unexpected token LParen");
    assert_eq!(lint_program(&files, false), Err(refusal.clone()));
    assert_eq!(
        try_check_program(&files),
        Err(ProgramFault::Refused(refusal))
    );
}

#[test]
fn texts_are_cut_where_they_end() {
    // Two bytes of one letter are never taken for the ends of two texts.
    let files = [("ä.isle", "; ä"), ("b.isle", "ü"), ("c.isle", "")];
    let refusal = check_program(&files).unwrap_err();
    assert_eq!((refusal.file, &refusal.name[..]), (1, "b.isle"));
}
