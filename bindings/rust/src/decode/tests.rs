//! Broken encodings, and numbers at their bounds.

use super::*;
use crate::ast::{Converter, ModelType};

/// The bytes of a tree of one conversion.
const CONVERSION: [u8; 17] = [
    1, 13, 1, b'c', 0, 13, 1, b'A', 0, 9, 1, b'B', 0, 11, 0, 9, 0,
];

fn reader(text: &str) -> Reader<'_> {
    Reader {
        text,
        at: 0,
        has_pos: true,
    }
}

fn name(text: &str, offset: usize) -> Ident {
    Ident(text.to_string(), Pos { file: 0, offset })
}

#[test]
fn decodes_a_conversion() {
    let conversion = Converter {
        term: name("c", 13),
        inner_ty: name("A", 9),
        outer_ty: name("B", 11),
        pos: Pos { file: 0, offset: 9 },
    };
    assert_eq!(tree(&CONVERSION), Ok(vec![Def::Converter(conversion)]));
    assert_eq!(tree(&[1, 0]), Ok(vec![]));
}

#[test]
fn positions_can_be_left_out() {
    let defs = tree_without_pos(&CONVERSION).unwrap();
    let [Def::Converter(it)] = &defs[..] else {
        panic!("{defs:?}");
    };
    let places = [it.pos, it.term.1, it.inner_ty.1, it.outer_ty.1];
    assert_eq!(places, [Pos::default(); 4]);
}

#[test]
fn each_beginning_is_broken() {
    for len in 0..CONVERSION.len() {
        assert_eq!(tree(&CONVERSION[..len]), Err(Broken), "of {len}");
    }
}

#[test]
fn bytes_behind_the_end_are_broken() {
    assert_eq!(tree(&[1, 0, 0]), Err(Broken));
}

#[test]
fn another_version_is_broken() {
    assert_eq!(tree(&[2, 0]), Err(Broken));
    assert_eq!(tree(&[]), Err(Broken));
}

#[test]
fn each_changed_byte_gives_an_error_or_another_tree() {
    let whole = tree(&CONVERSION);
    for place in 0..CONVERSION.len() {
        for byte in 0..=255 {
            let mut bytes = CONVERSION;
            bytes[place] = byte;
            let is_same = byte == CONVERSION[place];
            assert_eq!(tree(&bytes) == whole, is_same, "{byte} at {place}");
        }
    }
}

#[test]
fn numbers_past_their_types_are_broken() {
    let read = |bytes: &[u8]| {
        let text = std::str::from_utf8(bytes).unwrap();
        reader(text).number()
    };
    let mut most = vec![127; 10];
    most.push(15);
    assert_eq!(read(&most), Ok(usize::MAX));
    most[10] = 16;
    assert_eq!(read(&most), Err(Broken));
    assert_eq!(read(&[127; 100]), Err(Broken));
    assert_eq!(read(&[64, 64, 1]), Ok(4096));
}

#[test]
fn positions_of_each_length() {
    // With bytes behind them they can be read together, without them not.
    for behind in [0, 1, 7, 8] {
        for (file, offset) in [
            (0, 0),
            (1, 63),
            (63, 64),
            (64, 4095),
            (0, 4096),
            (0, 0xFF_FFFF),
            (0, 0x100_0000),
            (4096, usize::MAX),
        ] {
            let mut bytes = [digits(file), digits(offset)].concat();
            let len = bytes.len();
            bytes.extend(vec![0; behind]);
            let text = String::from_utf8(bytes).unwrap();
            let mut reader = reader(&text);
            assert_eq!(reader.pos(), Ok(Pos { file, offset }), "with {behind}");
            assert_eq!(reader.at, len);
        }
    }
}

/// A number's digits, as the library writes them.
fn digits(mut number: usize) -> Vec<u8> {
    let mut bytes = Vec::new();
    while number > 63 {
        bytes.push(64 + (number % 64) as u8);
        number /= 64;
    }
    bytes.push(number as u8);
    bytes
}

#[test]
fn names_of_each_length() {
    for len in 0..40 {
        for behind in [0, 1, 8, 16, 40] {
            let name = "é-abcdefghijklmnopqrstuvwxyz0123456789ABC";
            let Some(name) = name.get(..len) else {
                continue;
            };
            let bytes = [&[len as u8], name.as_bytes(), &[1, 5], &vec![0; behind]].concat();
            let text = String::from_utf8(bytes).unwrap();
            let mut reader = reader(&text);
            let wanted = Ident(name.to_string(), Pos { file: 1, offset: 5 });
            assert_eq!(reader.name(), Ok(wanted), "with {behind}");
            assert_eq!(reader.at, len + 3);
        }
    }
    // A text that ends within a character.
    let text = String::from_utf8([&[1], "é".as_bytes(), &[0; 20]].concat()).unwrap();
    assert_eq!(reader(&text).name(), Err(Broken));
}

#[test]
fn integers_at_their_bounds() {
    let read = |negative: u8, last: u8| {
        let mut bytes = vec![negative];
        bytes.extend([127; 21]);
        bytes.push(last);
        let text = String::from_utf8(bytes).unwrap();
        reader(&text).integer()
    };
    assert_eq!(read(0, 1), Ok(i128::MAX));
    assert_eq!(read(1, 1), Ok(i128::MIN));
    assert_eq!(read(0, 2), Err(Broken));
    assert_eq!(read(1, 4), Err(Broken));
}

#[test]
fn a_length_past_the_bytes_takes_no_memory() {
    // A model of a struct with very many fields, of which none is there.
    let bytes = [6, 127, 127, 127, 127, 127, 7];
    let text = std::str::from_utf8(&bytes).unwrap();
    let read: Read<ModelType> = reader(text).model_type();
    assert_eq!(read, Err(Broken));
}

/// The bytes of an error with a note.
const FINDING: [u8; 17] = [
    1, 1, 1, 1, b'k', 0, 9, 2, b'n', b'o', 1, 1, 64, 1, 2, b's', b'o',
];

#[test]
fn decodes_a_finding() {
    let note = ToldNote {
        pos: Pos {
            file: 1,
            offset: 64,
        },
        message: "so".to_string(),
    };
    let finding = ToldFinding {
        is_error: true,
        kind: "k".to_string(),
        pos: Pos { file: 0, offset: 9 },
        message: "no".to_string(),
        notes: vec![note],
    };
    assert_eq!(findings(&FINDING), Ok(vec![finding]));
    assert_eq!(findings(&[1, 0]), Ok(vec![]));
}

#[test]
fn each_beginning_of_findings_is_broken() {
    for len in 0..FINDING.len() {
        assert_eq!(findings(&FINDING[..len]), Err(Broken), "of {len}");
    }
    assert_eq!(findings(&[1, 0, 0]), Err(Broken));
}
