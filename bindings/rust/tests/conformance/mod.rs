//! The cases of `crates/isle_test_conformance`: a question a line in `stdin`, its answer in
//! `stdout`.

#![allow(dead_code, reason = "each test takes a part")]

use std::fmt::Debug;
use std::fs::read_to_string;

/// A question, and its answer.
pub struct Case {
    /// The question, as it is written.
    pub question: String,
    /// Its numbers.
    pub numbers: Vec<usize>,
    /// Its texts.
    pub texts: Vec<String>,
    pub answer: String,
}

/// The cases whose question begins with this word.
pub fn cases(call: &str) -> Vec<Case> {
    let folder = concat!(
        env!("CARGO_MANIFEST_DIR"),
        "/../../crates/isle_test_conformance/"
    );
    let questions = read_to_string(format!("{folder}stdin")).unwrap();
    let answers = read_to_string(format!("{folder}stdout")).unwrap();
    assert_eq!(questions.lines().count(), answers.lines().count());
    let lines = questions.lines().zip(answers.lines());
    let cases = lines.filter_map(|(question, answer)| {
        let (word, rest) = question.split_once(' ')?;
        (word == call).then(|| case(question, rest, answer))
    });
    cases.collect()
}

fn case(question: &str, words: &str, answer: &str) -> Case {
    let numbers = words.split('"').next().unwrap().split_whitespace();
    Case {
        question: question.to_string(),
        numbers: numbers.map(|it| it.parse().unwrap()).collect(),
        texts: quoted(words),
        answer: answer.to_string(),
    }
}

/// The texts in quotes, which have these Debug outputs.
pub fn quoted(words: &str) -> Vec<String> {
    let mut texts = vec![];
    let mut chars = words.chars();
    while chars.by_ref().any(|it| it == '"') {
        let mut text = String::new();
        while let Some(char) = chars.next().filter(|&it| it != '"') {
            text.push(match char {
                '\\' => escaped(&mut chars),
                char => char,
            });
        }
        texts.push(text);
    }
    texts
}

/// The character that is written after a backslash.
fn escaped(chars: &mut std::str::Chars) -> char {
    match chars.next().unwrap() {
        'n' => '\n',
        'r' => '\r',
        't' => '\t',
        '0' => '\0',
        'u' => {
            let number: String = chars.skip(1).take_while(|&it| it != '}').collect();
            char::from_u32(u32::from_str_radix(&number, 16).unwrap()).unwrap()
        }
        char => char,
    }
}

/// A value as the cases show it: a position is its file and its offset, and two names that are
/// words of contracts have others.
pub fn shown(value: &impl Debug) -> String {
    let shown = format!("{value:?}");
    let mut parts = shown.split("Pos { file: ");
    let mut short = parts.next().unwrap_or_default().to_string();
    for part in parts {
        let (place, rest) = part.split_once(" }").unwrap();
        short += &place.replace(", offset: ", ":");
        short += rest;
    }
    short
        .replace("Type(Type {", "TypeDef(TypeDef {")
        .replace(" requires: [", " requires_: [")
}
