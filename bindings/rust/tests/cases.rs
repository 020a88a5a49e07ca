//! The cases of the conformance data for `format`, `check` and `diagnostic`.

mod conformance;

use conformance::{cases, quoted};
use isle_syntax::{check, diagnostic, format};

#[test]
fn formats() {
    let cases = cases("format");
    assert!(cases.len() > 200);
    for case in cases {
        let (question, answer) = (case.question, case.answer);
        let text = case.texts[0].clone();
        let mut widths = case.numbers.into_iter();
        let formatted = widths.try_fold(text, |text, width| format(&text, width));
        match formatted {
            Ok(formatted) => assert_eq!(format!("Ok({formatted:?})"), answer, "of {question}"),
            Err(refusal) => {
                let offset = refusal.offset;
                let (message, end) = (&refusal.message, offset + 1);
                let span = format!("Span {{ from: 0:{offset}, to: 0:{end} }}");
                let shown = format!("Err(Error(ParseError {{ msg: {message:?}, span: {span} }}))");
                assert_eq!(shown, answer, "of {question}");
            }
        }
    }
}

#[test]
fn shows_refusals() {
    let cases = cases("refusal");
    assert!(cases.len() > 150);
    for case in cases {
        let (question, answer, text) = (case.question, case.answer, &case.texts[0]);
        if answer == "\"accepted\"" {
            assert_eq!(check(text), Ok(()), "of {question}");
            assert_eq!(diagnostic("<stdin>", text), None, "of {question}");
            continue;
        }
        let shown = quoted(&answer).remove(0);
        assert_eq!(
            diagnostic("<stdin>", text),
            Some(shown.clone()),
            "of {question}"
        );
        let refusal = check(text).unwrap_err();
        assert_eq!(format(text, 78), Err(refusal.clone()), "of {question}");
        let (line, column, source_line) = (refusal.line, refusal.column, &refusal.source_line);
        let place = format!("<stdin>:{line}:{column}: {source_line}");
        let parts = format!("parse error: {}\n{place}", refusal.message);
        assert_eq!(
            shown.trim_end_matches('\n'),
            parts.trim_end_matches('\n'),
            "of {question}"
        );
        let before = &text[..refusal.offset];
        assert_eq!(before.matches('\n').count() + 1, line, "of {question}");
        assert_eq!(
            before.len() - before.rfind('\n').map_or(0, |it| it + 1) + 1,
            column
        );
    }
}

#[test]
fn checks() {
    let cases = cases("parse");
    assert!(cases.len() > 100);
    for case in cases {
        let (question, answer, text) = (case.question, case.answer, &case.texts[0]);
        if case.numbers != [0] {
            continue;
        }
        assert_eq!(
            check(text).is_ok(),
            answer.starts_with("Ok("),
            "of {question}"
        );
        assert_eq!(check(text).err(), format(text, 78).err(), "of {question}");
    }
}

#[test]
fn the_versions_are_those_of_the_tools() {
    let program = concat!(
        env!("CARGO_MANIFEST_DIR"),
        "/../../crates/isle_cli/src/program.rt"
    );
    let program = std::fs::read_to_string(program).unwrap();
    let (package, language) = (env!("CARGO_PKG_VERSION"), isle_syntax::LANGUAGE_VERSION);
    assert!(program.contains(&format!(" {package} (ISLE {language})")));
}
