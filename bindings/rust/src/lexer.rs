//! Positions, tokens and the lexer, by the names of upstream's module.
//!
//! The static library has no call for tokens, so this lexer is written here: it isn't proved, and
//! is tested on the cases of the proved one. [`parser::parse`](crate::parser::parse) takes it, and
//! has the library read the text.

use crate::error::{Error, Span};
use crate::files::Files;
use std::borrow::Cow;

/// A position: a file and an offset in it.
///
/// The default position, file 0 at offset 0, stands for an unknown place. Positions are ordered by
/// file, then by offset.
#[derive(Clone, Copy, Debug, Default, PartialEq, Eq, PartialOrd, Ord, Hash)]
pub struct Pos {
    /// The number of the file.
    pub file: usize,
    /// The byte offset in the file, from 0.
    pub offset: usize,
}

impl Pos {
    /// Makes the position of a byte offset in a file.
    pub fn new(file: usize, offset: usize) -> Self {
        Self { file, offset }
    }

    /// Returns whether this is the default position, which stands for an unknown place.
    pub fn is_unknown(&self) -> bool {
        *self == Self::default()
    }

    /// The file's name and the line, as `a.isle line 12`. Lines are counted from 0, as upstream
    /// counts them here.
    ///
    /// # Panics
    ///
    /// If there is no file with this number.
    pub fn pretty_print_line(&self, files: &Files) -> String {
        let name = files.file_name(self.file);
        let lines = files.file_line_map(self.file);
        let (name, lines) = name.zip(lines).expect("a file with this number");
        format!("{name} line {}", lines.line(self.offset))
    }
}

/// A token.
#[derive(Clone, Debug, PartialEq, Eq)]
pub enum Token {
    /// `(`.
    LParen,
    /// `)`.
    RParen,
    /// A symbol, as it is written.
    Symbol(String),
    /// An integer. A literal from 2^127 up to 2^128 - 1 is the negative number of the same bits.
    Int(i128),
    /// `@`.
    At,
}

impl Token {
    /// Returns whether this is an integer.
    pub fn is_int(&self) -> bool {
        matches!(self, Token::Int(_))
    }

    /// Returns whether this is a symbol.
    pub fn is_sym(&self) -> bool {
        matches!(self, Token::Symbol(_))
    }
}

/// The tokens of a text, one of them ahead.
///
/// ```
/// use isle_syntax::lexer::{Lexer, Pos, Token};
///
/// let mut lexer = Lexer::new(3, "(f 0x10)")?;
/// assert_eq!(lexer.peek(), Some(&(Pos::new(3, 0), Token::LParen)));
/// lexer.next()?;
/// lexer.next()?;
/// assert_eq!(lexer.next()?, Some((Pos::new(3, 3), Token::Int(16))));
/// # Ok::<(), isle_syntax::error::Error>(())
/// ```
#[derive(Clone, Debug)]
pub struct Lexer<'src> {
    src: &'src str,
    /// After the token ahead; at the fault, if the lexer has failed.
    pos: Pos,
    ahead: Option<(Pos, Token)>,
    /// Whether a token was taken.
    is_begun: bool,
    /// The message, if the lexer has failed.
    fault: Option<String>,
}

impl<'src> Lexer<'src> {
    /// Makes a lexer of a text, with this number for the file of each position.
    ///
    /// # Errors
    ///
    /// [`Error::ParseError`] if the first token is bad.
    pub fn new(file: usize, src: &'src str) -> Result<Lexer<'src>, Error> {
        let mut lexer = Lexer {
            src,
            pos: Pos::new(file, 0),
            ahead: None,
            is_begun: false,
            fault: None,
        };
        lexer.reload()?;
        Ok(lexer)
    }

    /// The position after the token ahead.
    pub fn pos(&self) -> Pos {
        self.pos
    }

    /// Takes the token ahead, with the position of its first byte, or `None` at the end.
    ///
    /// # Errors
    ///
    /// [`Error::ParseError`] if the token after it is bad. Each later call returns the same error.
    #[expect(clippy::should_implement_trait, reason = "upstream's name")]
    pub fn next(&mut self) -> Result<Option<(Pos, Token)>, Error> {
        let token = self.ahead.take();
        self.is_begun |= token.is_some();
        self.reload()?;
        Ok(token)
    }

    /// The token ahead, which [`next`](Lexer::next) returns.
    pub fn peek(&self) -> Option<&(Pos, Token)> {
        self.ahead.as_ref()
    }

    /// Returns whether the text has no more tokens. A lexer that has failed is not at the end.
    pub fn eof(&self) -> bool {
        self.ahead.is_none() && self.fault.is_none()
    }

    /// The number of the file.
    pub(crate) fn file(&self) -> usize {
        self.pos.file
    }

    /// The text from the token ahead on, at its places: blanks stand for the tokens that were
    /// taken.
    ///
    /// # Errors
    ///
    /// That of [`next`](Lexer::next), if the lexer has failed.
    pub(crate) fn rest(&self) -> Result<Cow<'src, str>, Error> {
        if self.fault.is_some() {
            return Err(self.error());
        }
        if !self.is_begun {
            return Ok(Cow::Borrowed(self.src));
        }
        let ahead = self.ahead.as_ref();
        let from = ahead.map_or(self.src.len(), |(pos, _)| pos.offset);
        Ok(Cow::Owned(" ".repeat(from) + &self.src[from..]))
    }

    /// The error of a lexer that has failed.
    fn error(&self) -> Error {
        let msg = self.fault.clone().unwrap_or_default();
        let span = Span::new_single(self.pos);
        Error::ParseError { msg, span }
    }

    /// Reads a token ahead, if there is none.
    fn reload(&mut self) -> Result<(), Error> {
        if self.fault.is_some() {
            return Err(self.error());
        }
        if self.ahead.is_none() {
            let found = start(self.src, self.pos.offset).and_then(|from| token(self.src, from));
            match found {
                Ok(Some((from, token, end))) => {
                    self.ahead = Some((Pos::new(self.pos.file, from), token));
                    self.pos.offset = end;
                }
                Ok(None) => self.pos.offset = self.src.len(),
                Err((at, message)) => {
                    self.pos.offset = at;
                    self.fault = Some(message);
                    return Err(self.error());
                }
            }
        }
        Ok(())
    }
}

/// Where a text is bad, and why.
type Bad = (usize, String);

/// The offset of the first byte from here on that is in no blank and no comment.
fn start(text: &str, from: usize) -> Result<usize, Bad> {
    let bytes = text.as_bytes();
    let mut at = from;
    loop {
        at = match &bytes[at..] {
            [b' ' | b'\t' | b'\n' | b'\r', ..] => at + 1,
            [b';', rest @ ..] => at + 1 + run(rest, |byte| !matches!(byte, b'\n' | b'\r')),
            [b'(', b';', ..] => block_end(bytes, at)?,
            _ => return Ok(at),
        };
    }
}

/// The offset behind the block comment that begins here. Block comments may lie in one another.
fn block_end(bytes: &[u8], from: usize) -> Result<usize, Bad> {
    let (mut at, mut depth) = (from, 0usize);
    loop {
        match &bytes[at..] {
            [] => return Err((from, "unterminated block comment".to_string())),
            [b'(', b';', ..] => {
                depth += 1;
                at += 2;
            }
            [b';', b')', ..] => {
                depth -= 1;
                at += 2;
                if depth == 0 {
                    return Ok(at);
                }
            }
            _ => at += 1,
        }
    }
}

/// The token that begins here, between its offset and the one behind it, or `None` at the end.
fn token(text: &str, from: usize) -> Result<Option<(usize, Token, usize)>, Bad> {
    let rest = &text.as_bytes()[from..];
    let (token, len) = match rest {
        [] => return Ok(None),
        [b'(', ..] => (Token::LParen, 1),
        [b')', ..] => (Token::RParen, 1),
        [b'@', ..] => (Token::At, 1),
        [b'-', after @ ..] if run(after, is_in_symbol) == 0 => (Token::Symbol("-".to_string()), 1),
        [b'-' | b'0'..=b'9', ..] => integer(&text[from..]).map_err(|why| (from, why))?,
        // The only byte that is neither a blank nor a part of a token.
        [b'\x0c', ..] => return Err((from, "Unexpected character '12'".to_string())),
        [_, after @ ..] => {
            let len = 1 + run(after, is_in_symbol);
            (Token::Symbol(text[from..from + len].to_string()), len)
        }
    };
    Ok(Some((from, token, from + len)))
}

/// Whether a symbol may contain this byte after its first.
fn is_in_symbol(byte: u8) -> bool {
    !matches!(
        byte,
        b'(' | b')' | b';' | b'@' | b'\x0c' | b' ' | b'\t' | b'\n' | b'\r'
    )
}

/// The integer that a text begins with, and the length of its literal, or why it is none.
fn integer(text: &str) -> Result<(Token, usize), String> {
    let unsigned = text.strip_prefix('-').unwrap_or(text);
    let (radix, digits) = match unsigned.as_bytes() {
        [b'0', b'x' | b'X', ..] => (16, &unsigned[2..]),
        [b'0', b'o' | b'O', ..] => (8, &unsigned[2..]),
        [b'0', b'b' | b'B', ..] => (2, &unsigned[2..]),
        _ => (10, unsigned),
    };
    let len = run(digits.as_bytes(), |it| it.is_ascii_hexdigit() || it == b'_');
    let digits_only = digits[..len].replace('_', "");
    let bits = u128::from_str_radix(&digits_only, radix).map_err(|error| error.to_string())?;
    let number = match i128::try_from(bits) {
        Ok(number) if unsigned.len() < text.len() => -number,
        Ok(number) => number,
        Err(_) if unsigned.len() < text.len() => {
            return Err("integer literal cannot fit in i128".to_string());
        }
        Err(_) => bits as i128,
    };
    Ok((Token::Int(number), text.len() - digits.len() + len))
}

/// How many of the first bytes are of this kind.
fn run(bytes: &[u8], is_kind: impl Fn(u8) -> bool) -> usize {
    bytes.iter().take_while(|&&byte| is_kind(byte)).count()
}
