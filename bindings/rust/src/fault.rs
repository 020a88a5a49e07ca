//! The errors of calls.

use crate::decode::Stop;
use std::error::Error;
use std::fmt;

/// An error in a text, with its place.
///
/// It is displayed as `LINE:COLUMN: MESSAGE`, for a file's name and a colon in front:
///
/// ```
/// let refusal = isle_syntax::check("(decl f () T)\n(decl pure () T)\n").unwrap_err();
/// assert_eq!(refusal.to_string(), "2:12: Unexpected token LParen");
/// ```
///
/// [`diagnostic`](crate::diagnostic) returns the text that upstream prints.
#[derive(Clone, Debug, PartialEq, Eq)]
#[non_exhaustive]
pub struct Refusal {
    /// The message, as upstream words it.
    pub message: String,
    /// The line of the error, from 1.
    pub line: usize,
    /// Its column in bytes, from 1.
    pub column: usize,
    /// Its byte offset in the text, from 0; the text's length if the text ends too early.
    pub offset: usize,
    /// That line, without its line feed.
    pub source_line: String,
}

impl fmt::Display for Refusal {
    fn fmt(&self, f: &mut fmt::Formatter<'_>) -> fmt::Result {
        let Refusal {
            message,
            line,
            column,
            ..
        } = self;
        write!(f, "{line}:{column}: {message}")
    }
}

impl Error for Refusal {}

/// The error of the functions `try_..`.
#[derive(Clone, Debug, PartialEq, Eq)]
#[non_exhaustive]
pub enum Fault {
    /// The text is rejected.
    Refused(Refusal),
    /// Out of memory, whatever the text is.
    Memory,
}

impl fmt::Display for Fault {
    fn fmt(&self, f: &mut fmt::Formatter<'_>) -> fmt::Result {
        match self {
            Fault::Refused(refusal) => refusal.fmt(f),
            Fault::Memory => f.write_str("out of memory"),
        }
    }
}

impl Error for Fault {}

impl From<Refusal> for Fault {
    fn from(refusal: Refusal) -> Fault {
        Fault::Refused(refusal)
    }
}

impl From<Stop> for Fault {
    fn from(stop: Stop) -> Fault {
        match stop {
            Stop::Memory => Fault::Memory,
            Stop::Broken => unreachable!("an answer encodes a tree"),
        }
    }
}
