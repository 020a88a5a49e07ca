//! The calls on slices of every length, on bytes that are not UTF-8, and on the empty text.

use super::*;

/// The content of a slice before a call.
const BEFORE: u8 = b'#';

const DECL: &[u8] = b"(decl foo (A) B)\n";

const BROKEN: &[u8] = b"(decl\n    foo\n    (A)\n    B\n)\n";

const REFUSED: &[u8] = b"(decl f () T)\n(decl pure () T)\n";

const UNTIDY: &[u8] = b"(rule   (f x) ; why\n      x )";

const TIDY: &[u8] = b"(rule   (f x) ; why\n        x)\n";

const NO_UTF8: &[u8] = b"(decl foo (A) \xff)";

/// Makes a call with a slice of each length up to two past the answer's. It is too short as long as
/// the answer doesn't fit, and then has the answer at its front. The rest of it stays as it was.
fn at_every_length(answer: &[u8], mut call: impl FnMut(&mut [u8]) -> Told) {
    for len in 0..answer.len() + 3 {
        let mut room = vec![BEFORE; len + 2];
        let told = call(&mut room[1..=len]);
        let mut wanted = vec![BEFORE; len + 2];
        if len < answer.len() {
            assert_eq!(told, Told::TooShort(answer.len()), "of {len}");
        } else {
            assert_eq!(told, Told::Written(answer.len()), "of {len}");
            wanted[1..=answer.len()].copy_from_slice(answer);
        }
        assert_eq!(room, wanted, "of {len}");
    }
}

/// Makes a call that writes nothing, and returns its status.
fn told_alone(call: impl FnOnce(&mut [u8]) -> Told) -> Told {
    let mut room = [BEFORE; 100];
    let told = call(&mut room);
    assert_eq!(room, [BEFORE; 100]);
    told
}

#[test]
fn formats_into_a_slice_of_every_length() {
    at_every_length(BROKEN, |into| format(DECL, 5, into));
    at_every_length(DECL, |into| format(DECL, 78, into));
    at_every_length(b"", |into| format(b"", 78, into));
    at_every_length(b"", |into| format(b" ; nothing", 78, into));
}

#[test]
fn parses_into_room_of_every_length() {
    // A kind, then each part: a text has its length before it, a position its file and its offset.
    let conversion = [
        &[1, 13][..],
        &[1, b'c', 3, 13],
        &[1, b'A', 3, 9],
        &[1, b'B', 3, 11],
        &[3, 9, 0],
    ];
    let conversion = conversion.concat();
    for room in 0..conversion.len() + 3 {
        let told = parse(b"(convert A B c)", 3, room);
        if room < conversion.len() {
            assert_eq!(told, Err(Told::TooShort(conversion.len())), "of {room}");
        } else {
            assert_eq!(told, Ok(conversion.clone()), "of {room}");
        }
    }
    assert_eq!(parse(b" ; nothing", 0, 2), Ok(vec![1, 0]));
    assert_eq!(parse(REFUSED, 0, 100), Err(Told::Refused));
    assert_eq!(parse(NO_UTF8, 0, 100), Err(Told::NotUtf8));
}

#[test]
fn tells_a_refusal_into_a_slice_of_every_length() {
    let mut place = Place::default();
    at_every_length(b"Unexpected token LParen", |into| {
        place = Place::default();
        let told = refusal(REFUSED, into, &mut place);
        assert_eq!((place.offset, place.line, place.column), (25, 2, 12));
        assert_eq!((place.line_begin, place.line_end), (14, 31));
        told
    });
    at_every_length(b"Unexpected EOF", |into| {
        refusal(b"(decl", into, &mut place)
    });
    assert_eq!((place.offset, place.line, place.column), (5, 1, 6));
    assert_eq!((place.line_begin, place.line_end), (0, 5));
}

#[test]
fn shows_a_refusal_into_a_slice_of_every_length() {
    let shown = b"parse error: Unexpected token LParen\na.isle:2:12: (decl pure () T)\n\n";
    at_every_length(shown, |into| diagnostic(b"a.isle", REFUSED, into));
    let shown = b"parse error: Unexpected EOF\n:1:6: (decl\n\n";
    at_every_length(shown, |into| diagnostic(b"", b"(decl", into));
}

#[test]
fn tidies_into_a_slice_of_every_length() {
    at_every_length(b"a ; b\n", |into| tidy(b"a; b  ", into));
    at_every_length(b"(a\r\n b)\r\n", |into| tidy(b"(a\r\n b )", into));
    at_every_length(b"", |into| tidy(b" \n", into));
    at_every_length(TIDY, |into| tidy(UNTIDY, into));
}

#[test]
fn tells_why_a_text_is_not_tidied_into_a_slice_of_every_length() {
    let mut place = Place::default();
    at_every_length(b"unclosed '('", |into| {
        place = Place::default();
        let told = tidy_refusal(b"a\n (b (c)", into, &mut place);
        assert_eq!((place.offset, place.line, place.column), (3, 2, 2));
        assert_eq!((place.line_begin, place.line_end), (2, 9));
        told
    });
    at_every_length(b"unmatched ')'", |into| {
        tidy_refusal(b"a\n b)", into, &mut place)
    });
    assert_eq!((place.offset, place.line, place.column), (4, 2, 3));
    at_every_length(b"unterminated block comment", |into| {
        tidy_refusal(b"a (; b", into, &mut place)
    });
}

#[test]
fn tells_whether_a_text_is_tidy() {
    assert_eq!(is_tidy(b""), Told::Accepted);
    assert_eq!(is_tidy(b"a ; b\n"), Told::Accepted);
    assert_eq!(is_tidy(TIDY), Told::Accepted);
    assert_eq!(is_tidy(b"a ; b"), Told::Untidy);
    assert_eq!(is_tidy(UNTIDY), Told::Untidy);
    assert_eq!(is_tidy(b"a)"), Told::Refused);
    assert_eq!(is_tidy(NO_UTF8), Told::NotUtf8);
}

#[test]
fn tells_why_nothing_is_written() {
    let kept = Place {
        offset: 1,
        line: 2,
        column: 3,
        line_begin: 4,
        line_end: 5,
    };
    let mut place = kept;
    assert_eq!(told_alone(|into| format(REFUSED, 78, into)), Told::Refused);
    assert_eq!(told_alone(|into| format(NO_UTF8, 78, into)), Told::NotUtf8);
    assert_eq!(
        told_alone(|into| refusal(DECL, into, &mut place)),
        Told::Accepted
    );
    assert_eq!(
        told_alone(|into| refusal(NO_UTF8, into, &mut place)),
        Told::NotUtf8
    );
    assert_eq!(told_alone(|into| tidy(b"(", into)), Told::Refused);
    assert_eq!(told_alone(|into| tidy(NO_UTF8, into)), Told::NotUtf8);
    assert_eq!(
        told_alone(|into| tidy_refusal(DECL, into, &mut place)),
        Told::Accepted
    );
    assert_eq!(
        told_alone(|into| tidy_refusal(NO_UTF8, into, &mut place)),
        Told::NotUtf8
    );
    assert_eq!(place, kept);
    assert_eq!(
        told_alone(|into| diagnostic(b"a", DECL, into)),
        Told::Accepted
    );
    assert_eq!(
        told_alone(|into| diagnostic(b"a", NO_UTF8, into)),
        Told::NotUtf8
    );
    assert_eq!(
        told_alone(|into| diagnostic(b"\xff", REFUSED, into)),
        Told::NotUtf8
    );
}

#[test]
fn checks() {
    assert_eq!(check(b""), Told::Accepted);
    assert_eq!(check(DECL), Told::Accepted);
    assert_eq!(check(REFUSED), Told::Refused);
    assert_eq!(check(NO_UTF8), Told::NotUtf8);
}

/// Two files of one program, one behind the other: the rule's `x` has no definition.
const PROGRAM: &[u8] = b"(type A (primitive A))(decl f (A) A)(rule (f y) x)";

#[test]
fn checks_a_program_into_a_slice_of_every_length() {
    let found = b"\x01\x01\x01\x10unknown-variable\x01\x1a\x14Unknown variable 'x'\x00";
    at_every_length(found, |into| check_program(PROGRAM, &[22, 28], into));
    at_every_length(b"\x01\x00", |into| check_program(b"", &[], into));
    at_every_length(b"\x01\x00", |into| check_program(b"", &[0, 0], into));
}

#[test]
fn lints_a_program_into_a_slice_of_every_length() {
    let found =
        b"\x01\x01\x00\x17unused-pattern-variable\x01\x17\x1bunused pattern variable 'y'\x00";
    at_every_length(found, |into| lint_program(PROGRAM, &[22, 28], true, into));
    at_every_length(b"\x01\x00", |into| {
        lint_program(PROGRAM, &[22, 28], false, into)
    });
}

#[test]
fn tells_why_a_program_has_no_answer() {
    let check =
        |texts: &[u8], lengths: &[usize]| told_alone(|into| check_program(texts, lengths, into));
    assert_eq!(check(PROGRAM, &[22]), Told::BadLengths);
    assert_eq!(check(PROGRAM, &[22, 29]), Told::BadLengths);
    assert_eq!(check(PROGRAM, &[usize::MAX, 51]), Told::BadLengths);
    assert_eq!(check(PROGRAM, &[21, 29]), Told::Refused);
    at_every_length(b"\x01\x00", |into| check_program(b"; \xc3\xa4", &[4], into));
    assert_eq!(check(b"; \xc3\xa4", &[3, 1]), Told::NotUtf8);
    assert_eq!(
        told_alone(|into| lint_program(NO_UTF8, &[NO_UTF8.len()], true, into)),
        Told::NotUtf8
    );
}
