//! Parses texts, by the names of upstream's module.

use crate::ast::Def;
use crate::decode::Stop;
use crate::error::{Error, Span};
use crate::lexer::{Lexer, Pos};
use crate::{Fault, decode, encoding, fault, or_end};

/// Parses the tokens of a lexer, those that were taken apart.
///
/// [`parse_file`](crate::parse_file) does the same for a text and the number of its file, and its
/// error has the line.
///
/// # Errors
///
/// [`Error::ParseError`], with the place. Out of memory aborts the process.
pub fn parse(lexer: Lexer) -> Result<Vec<Def>, Error> {
    decoded(&lexer, decode::tree)
}

/// Parses as [`parse`] does, but each position is the default one, so that trees of texts that are
/// laid out differently can be compared.
///
/// # Errors
///
/// The same as those of [`parse`], at their places.
pub fn parse_without_pos(lexer: Lexer) -> Result<Vec<Def>, Error> {
    decoded(&lexer, decode::tree_without_pos)
}

/// The tree of what a lexer has ahead, decoded so.
fn decoded(
    lexer: &Lexer,
    decode: impl FnOnce(&[u8]) -> Result<Vec<Def>, Stop>,
) -> Result<Vec<Def>, Error> {
    let (file, text) = (lexer.file(), lexer.rest()?);
    let bytes = encoding(&text, file).map_err(|told| fault(&text, told));
    let defs = bytes.and_then(|bytes| decode(&bytes).map_err(Fault::from));
    defs.map_err(|fault| {
        let refusal = or_end(fault);
        Error::ParseError {
            msg: refusal.message,
            span: Span::new_single(Pos::new(file, refusal.offset)),
        }
    })
}
