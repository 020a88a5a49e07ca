//! The modules with upstream's names, on the cases of the conformance data for them.

mod conformance;

use conformance::{Case, cases, quoted, shown};
use isle_syntax::ast::{Def, Expr, Extractor, Ident, Pattern, Variant};
use isle_syntax::error::{Error, Errors, ErrorsBuilder, Span};
use isle_syntax::files::{Files, LineMap};
use isle_syntax::lexer::{Lexer, Pos, Token};
use isle_syntax::parser::{parse, parse_without_pos};
use isle_syntax::printer::{SExpr, ToSExpr, print_node};
use std::fmt::Debug;
use std::sync::Arc;

/// A lexer of a case's text, from which as many tokens are taken as the case says.
fn lexer(case: &Case) -> Result<Lexer<'_>, Error> {
    let mut lexer = Lexer::new(case.numbers[0], &case.texts[0])?;
    for _ in 0..case.numbers.get(1).copied().unwrap_or(0) {
        drop(lexer.next());
    }
    Ok(lexer)
}

/// An answer as the cases show it, where a lexer that had failed tells its error again.
fn expect<T: Debug>(answer: Result<T, Error>, case: &Case) {
    let wanted = &case.answer;
    match (answer, wanted.as_str()) {
        (Err(Error::ParseError { .. }), "Err(Failed)") => {}
        (Err(error), _) => {
            let error = shown(&error);
            assert_eq!(
                &format!("Err(Error({error}))"),
                wanted,
                "of {}",
                case.question
            );
        }
        (Ok(value), _) => {
            assert_eq!(
                &format!("Ok({})", shown(&value)),
                wanted,
                "of {}",
                case.question
            );
        }
    }
}

#[test]
fn parses() {
    let cases = cases("parse");
    assert!(cases.len() > 100);
    for case in cases {
        expect(lexer(&case).and_then(parse), &case);
    }
}

#[test]
fn parses_without_positions() {
    let cases = cases("parse_without_pos");
    assert!(cases.len() > 10);
    for case in cases {
        expect(lexer(&case).and_then(parse_without_pos), &case);
    }
}

/// A lexer's state in brackets: its position, and whether it has failed or is at its end.
fn state(lexer: &Lexer) -> String {
    let is_at = match (lexer.peek().is_some(), lexer.eof()) {
        (true, false) => "",
        (false, true) => " at the end",
        (false, false) => " failed",
        (true, true) => panic!("a token at the end"),
    };
    format!("[{}{is_at}]", shown(&lexer.pos()))
}

/// The tokens of a case as it shows them: each `next` after the state before it, until two have
/// nothing ahead.
fn tokens(case: &Case) -> String {
    let mut lexer = match lexer(case) {
        Ok(lexer) => lexer,
        Err(error) => return format!("Error({})", shown(&error)),
    };
    let (mut steps, mut ends) = (vec![], 0);
    let mut failed = lexer.peek().is_none() && !lexer.eof();
    while ends < 2 {
        ends += usize::from(lexer.peek().is_none());
        steps.push(state(&lexer));
        steps.push(match lexer.next() {
            Ok(Some((pos, token))) => format!("{} {token:?}", shown(&pos)),
            Ok(None) => "end".to_string(),
            Err(_) if failed => "Failed".to_string(),
            Err(error) => {
                failed = true;
                format!("Error({})", shown(&error))
            }
        });
    }
    steps.join(" ")
}

#[test]
fn reads_tokens() {
    let cases = cases("tokens");
    assert!(cases.len() > 90);
    for case in cases {
        assert_eq!(tokens(&case), case.answer, "of {}", case.question);
    }
}

#[test]
fn a_lexer_that_has_failed_tells_its_error_again() {
    let mut lexer = Lexer::new(0, "(f 12ab) x").unwrap();
    let told = |answer: Result<(), Error>| shown(&answer.unwrap_err());
    assert!(lexer.next().is_ok());
    let first = told(lexer.next().map(drop));
    assert!(first.contains("invalid digit"), "{first}");
    assert_eq!(told(lexer.next().map(drop)), first);
    assert_eq!(told(parse(lexer).map(drop)), first);
}

#[test]
fn tokens_tell_their_kind() {
    let symbol = Token::Symbol("x".to_string());
    assert!(symbol.is_sym() && !symbol.is_int());
    assert!(Token::Int(-1).is_int() && !Token::At.is_sym());
}

/// The pattern of a text, where the cases parse it.
fn pattern(text: &str) -> Pattern {
    let text = format!("(extractor (E) {text})");
    let defs = isle_syntax::parse(&text).unwrap();
    let Ok([Def::Extractor(Extractor { template, .. })]) = <[Def; 1]>::try_from(defs) else {
        panic!("{text}");
    };
    template
}

/// The names that a text has.
fn names(text: &str) -> Vec<Ident> {
    let names = text.split_whitespace();
    names
        .map(|it| Ident(it.to_string(), Pos::default()))
        .collect()
}

#[test]
fn makes_templates_and_puts_patterns_in() {
    for case in cases("template") {
        let template = pattern(&case.texts[0]).make_macro_template(&names(&case.texts[1]));
        let wanted = case.answer.split_once(", ").unwrap().1;
        assert_eq!(shown(&template) + "))", wanted, "of {}", case.question);
    }
    for case in cases("substitute") {
        let [text, given, args @ ..] = &case.texts[..] else {
            panic!("{}", case.question);
        };
        let template = pattern(text).make_macro_template(&names(given));
        let args: Vec<Pattern> = args.iter().map(|it| pattern(it)).collect();
        let substituted = template.subst_macro_args(&args).map(|it| printed(&it));
        assert_eq!(
            format!("Ok({substituted:?})"),
            case.answer,
            "of {}",
            case.question
        );
    }
}

#[test]
#[should_panic(expected = "a template already")]
fn a_template_is_made_once() {
    let template = pattern("x").make_macro_template(&names("x"));
    template.make_macro_template(&names("x"));
}

#[test]
#[should_panic(expected = "argument of a macro")]
fn an_argument_of_a_macro_has_no_print() {
    printed(&pattern("x").make_macro_template(&names("x")));
}

/// A node on one line.
fn printed(node: &impl ToSExpr) -> String {
    let mut out = Vec::new();
    print_node(node, usize::MAX, &mut out).unwrap();
    String::from_utf8(out).unwrap()
}

#[test]
fn displays_names_and_definitions() {
    let text = "(rule (lower (iadd x y)) (if-let z (small_enough_to_be_put_into_the_instruction y)) (add x z))";
    let defs = isle_syntax::parse(text).unwrap();
    let wanted = isle_syntax::format(text, 78).unwrap();
    assert_eq!(format!("{}\n", defs[0]), wanted);
    assert!(wanted.lines().count() > 2);
    let name = Ident("größe".to_string(), Pos::new(1, 2));
    assert_eq!(format!("{name}|{name:>7}"), "größe|  größe");
}

#[test]
fn prints_nodes_of_the_callers() {
    struct Pair(&'static str, i32);
    impl ToSExpr for Pair {
        fn to_sexpr(&self) -> SExpr {
            let value = SExpr::Binding("it".to_string(), Box::new(SExpr::Atom(self.1.to_string())));
            SExpr::List(vec![SExpr::Atom(self.0.to_string()), value])
        }
    }
    assert_eq!(printed(&Pair("pair", 5)), "(pair it @ 5)");
    let mut out = Vec::new();
    print_node(&Pair("pair", 5), 8, &mut out).unwrap();
    assert_eq!(out, b"(pair\n    it @ 5\n)");
}

/// The files of a case: a name, then a text.
fn files(case: &Case) -> Arc<Files> {
    let [name, text] = &case.texts[..] else {
        panic!("{}", case.question);
    };
    Arc::new(Files::from_names_and_contents([(
        name.clone(),
        text.clone(),
    )]))
}

#[test]
fn shows_errors() {
    let span = |offset: &usize| Span::new_single(Pos::new(0, *offset));
    let msg = || "m".to_string();
    for call in ["parse_errors", "overlap_error", "shadowed_error"] {
        // Where an error has no place in its file, the display leaves the place out.
        let cases = cases(call).into_iter();
        for case in cases.filter(|it| !it.answer.contains("not accepted")) {
            let spans = case.numbers.iter().map(span);
            let errors = match call {
                "parse_errors" => {
                    let errors = spans.map(|span| Error::ParseError { msg: msg(), span });
                    errors.collect()
                }
                "overlap_error" => vec![Error::OverlapError {
                    msg: msg(),
                    rules: spans.collect(),
                }],
                _ => vec![Error::ShadowedError {
                    mask: span(&case.numbers[0]),
                    shadowed: spans.skip(1).collect(),
                }],
            };
            let shown = Errors::new(errors, files(&case)).to_string();
            assert_eq!(shown, quoted(&case.answer)[0], "of {}", case.question);
        }
    }
}

#[test]
fn shows_errors_of_other_kinds() {
    let files = Files::from_names_and_contents([("a.isle".to_string(), "(A)\n(B)".to_string())]);
    let span = || Span::new_single(Pos::new(0, 4));
    let msg = || "m".to_string();
    let builder = ErrorsBuilder::new().files(Arc::new(files)).errors(vec![
        Error::TypeError {
            msg: msg(),
            span: span(),
        },
        Error::UnreachableError {
            msg: msg(),
            span: span(),
        },
        Error::RecursionError {
            msg: msg(),
            span: span(),
        },
    ]);
    let place = "a.isle:2:1: (B)\n\n";
    let kinds = ["type error", "unreachable rule", "recursion error"];
    let wanted: String = kinds.iter().map(|it| format!("{it}: m\n{place}")).collect();
    assert_eq!(builder.build().to_string(), wanted + "found 3 errors\n");
    assert_eq!(std::ops::Range::from(&span()), 4..5);
}

#[test]
fn shows_errors_of_the_system_and_of_no_file() {
    let error = std::fs::read("no such file").unwrap_err();
    let cause = format!("{error:?}");
    let shown = Errors::from_io(error, "cannot read a.isle").to_string();
    assert_eq!(shown, format!("cannot read a.isle\n{cause}\n\n"));
    let span = Span::new_single(Pos::new(7, usize::MAX));
    let msg = "m".to_string();
    let nowhere = ErrorsBuilder::new().error(Error::ParseError { msg, span });
    assert_eq!(nowhere.build().to_string(), "parse error: m\n\n");
    assert_eq!(ErrorsBuilder::new().build().to_string(), "");
}

#[test]
fn maps_lines() {
    for case in cases("line_map") {
        let map = LineMap::from_str(&case.texts[0]);
        let lines: Vec<usize> = case.numbers.iter().map(|&it| map.line(it)).collect();
        let wanted = case.answer.split_once(" LineMap").unwrap().0;
        assert_eq!(format!("{lines:?}"), wanted, "of {}", case.question);
    }
    let map = LineMap::from_str("a\nbc\nd");
    assert_eq!(
        (map[0], map[1], map.get(1), map.get(2)),
        (2, 5, Some(&5), None)
    );
}

#[test]
fn reads_files_and_shortens_their_names() {
    let folder = concat!(env!("CARGO_MANIFEST_DIR"), "/tests");
    let path = format!("{folder}/modules.rs");
    let prefix = isle_syntax::codegen::Prefix {
        prefix: folder.to_string(),
        name: "<tests>".to_string(),
    };
    let files = Files::from_paths([&path], &[prefix]).unwrap();
    assert_eq!(files.file_name(0), Some("<tests>/modules.rs"));
    assert!(files.file_text(0).unwrap().starts_with("//! The modules"));
    assert_eq!(files.file_line_map(0).unwrap().line(0), 0);
    assert_eq!(files.file_name(1), None);
    let pos = Pos::new(0, files.file_line_map(0).unwrap()[1]);
    assert_eq!(pos.pretty_print_line(&files), "<tests>/modules.rs line 2");
    let missing = format!("{folder}/missing.isle");
    let (path, error) = Files::from_paths([&missing], &[]).unwrap_err();
    assert_eq!(path.to_str(), Some(&missing[..]));
    assert_eq!(error.kind(), std::io::ErrorKind::NotFound);
}

#[test]
fn walks_terms() {
    for case in cases("terms") {
        let mut found = vec![];
        let mut add = |pos: Pos, name: &Ident| found.push(shown(&(pos, name)));
        for def in isle_syntax::parse(&case.texts[0]).unwrap() {
            match def {
                Def::Rule(rule) => {
                    rule.pattern.terms(&mut add);
                    rule.expr.terms(&mut add);
                }
                Def::Extractor(it) => it.template.terms(&mut add),
                _ => {}
            }
        }
        assert_eq!(
            found.join(" "),
            case.answer.trim_end(),
            "of {}",
            case.question
        );
    }
}

#[test]
fn names_variants() {
    let name = |text: &str, offset| Ident(text.to_string(), Pos::new(2, offset));
    let full = Variant::full_name(&name("A", 1), &name("B", 7));
    assert_eq!(full, name("A.B", 7));
    let pos = Pos::new(2, 3);
    let name = name("x", 3);
    assert_eq!(Expr::Var { name, pos }.pos(), pos);
}
