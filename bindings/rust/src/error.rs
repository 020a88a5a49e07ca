//! The errors of the parser and of the compiler, by the names of upstream's module.
//!
//! The parser of this package makes [`Error::ParseError`] alone. The others are for programs that
//! report errors of their own.

use crate::files::Files;
use crate::lexer::Pos;
use std::error::Error as StdError;
use std::fmt;
use std::io;
use std::ops::Range;
use std::sync::Arc;

/// An error, with its place.
#[derive(Debug)]
pub enum Error {
    /// A file can't be read or written.
    IoError {
        /// The system's error.
        error: io::Error,
        /// What was tried.
        context: String,
    },
    /// A text does not parse.
    ParseError {
        /// The message.
        msg: String,
        /// The place.
        span: Span,
    },
    /// Types or names do not fit.
    TypeError {
        /// The message.
        msg: String,
        /// The place.
        span: Span,
    },
    /// A rule never matches.
    UnreachableError {
        /// The message.
        msg: String,
        /// The place of the rule.
        span: Span,
    },
    /// Rules of one priority match the same input.
    OverlapError {
        /// The message.
        msg: String,
        /// The places of the rules.
        rules: Vec<Span>,
    },
    /// A term is recursive without being declared so.
    RecursionError {
        /// The message.
        msg: String,
        /// The place of the declaration.
        span: Span,
    },
    /// Rules never match, since another one always matches first.
    ShadowedError {
        /// The places of these rules.
        shadowed: Vec<Span>,
        /// The place of the other one.
        mask: Span,
    },
}

impl Error {
    /// The line that the diagnostic begins with: the kind and the message.
    fn headline(&self) -> String {
        let (kind, msg) = match self {
            Error::IoError { context, .. } => return context.clone(),
            Error::ParseError { msg, .. } => ("parse error", msg),
            Error::TypeError { msg, .. } => ("type error", msg),
            Error::UnreachableError { msg, .. } => ("unreachable rule", msg),
            Error::OverlapError { msg, .. } => ("overlap error", msg),
            Error::RecursionError { msg, .. } => ("recursion error", msg),
            Error::ShadowedError { .. } => {
                return "more general higher-priority rule shadows other rules".to_string();
            }
        };
        format!("{kind}: {msg}")
    }

    /// The places of the error, the main one first.
    fn places(&self) -> Vec<Pos> {
        match self {
            Error::IoError { .. } => vec![],
            Error::ParseError { span, .. }
            | Error::TypeError { span, .. }
            | Error::UnreachableError { span, .. }
            | Error::RecursionError { span, .. } => vec![span.from],
            Error::OverlapError { rules, .. } => rules.iter().map(|it| it.from).collect(),
            Error::ShadowedError { shadowed, mask } => {
                let spans = std::iter::once(mask).chain(shadowed);
                spans.map(|it| it.from).collect()
            }
        }
    }
}

/// Errors, with the files that their places are in. Displayed, they are upstream's plain
/// diagnostics.
///
/// ```
/// use isle_syntax::error::Errors;
/// use isle_syntax::{files::Files, lexer::Lexer, parser};
/// use std::sync::Arc;
///
/// let text = "(decl pure () T)\n".to_string();
/// let error = parser::parse(Lexer::new(0, &text).unwrap()).unwrap_err();
/// let files = Files::from_names_and_contents([("a.isle".to_string(), text)]);
/// let shown = Errors::new(vec![error], Arc::new(files)).to_string();
/// let place = "a.isle:1:12: (decl pure () T)";
/// assert_eq!(shown, format!("parse error: Unexpected token LParen\n{place}\n\n"));
/// ```
#[derive(Debug)]
pub struct Errors {
    /// The errors.
    pub errors: Vec<Error>,
    files: Arc<Files>,
}

impl Errors {
    /// Makes errors whose places are in these files.
    pub fn new(errors: Vec<Error>, files: Arc<Files>) -> Self {
        Self { errors, files }
    }

    /// Makes one error of the system's, and of what was tried.
    pub fn from_io(error: io::Error, context: impl Into<String>) -> Self {
        let context = context.into();
        let builder = ErrorsBuilder::new().error(Error::IoError { error, context });
        builder.build()
    }

    /// Writes a place: file, line and column, from 1, and the line. Nothing is written of a place
    /// in no file.
    fn write_place(&self, f: &mut fmt::Formatter<'_>, pos: Pos) -> fmt::Result {
        let file = self.files.file_name(pos.file);
        let text = self.files.file_text(pos.file);
        let map = self.files.file_line_map(pos.file);
        let (Some(file), Some(text), Some(map)) = (file, text, map) else {
            return Ok(());
        };
        let line = map.line(pos.offset);
        let begin = line.checked_sub(1).map_or(0, |before| map[before]);
        let end = map.get(line).copied().unwrap_or(text.len());
        let source = text.get(begin..end).unwrap_or_default();
        let source = source.strip_suffix('\n').unwrap_or(source);
        let (line, column) = (line + 1, pos.offset.saturating_sub(begin) + 1);
        writeln!(f, "{file}:{line}:{column}: {source}")
    }
}

impl fmt::Display for Errors {
    fn fmt(&self, f: &mut fmt::Formatter<'_>) -> fmt::Result {
        for error in &self.errors {
            writeln!(f, "{}", error.headline())?;
            for pos in error.places() {
                self.write_place(f, pos)?;
            }
            if let Error::IoError { error, .. } = error {
                write_causes(f, error)?;
            }
            writeln!(f)?;
        }
        match self.errors.len() {
            0 | 1 => Ok(()),
            count => writeln!(f, "found {count} errors"),
        }
    }
}

impl StdError for Errors {}

/// Writes an error and its causes, a line each.
fn write_causes(f: &mut fmt::Formatter<'_>, error: &(dyn StdError + 'static)) -> fmt::Result {
    let mut next = Some(error);
    while let Some(error) = next {
        writeln!(f, "{error:?}")?;
        next = error.source();
    }
    Ok(())
}

/// Makes [`Errors`] step by step.
#[derive(Debug)]
pub struct ErrorsBuilder(Errors);

impl Default for ErrorsBuilder {
    fn default() -> Self {
        Self(Errors::new(vec![], Arc::default()))
    }
}

impl ErrorsBuilder {
    /// Begins with no errors and no files.
    pub fn new() -> Self {
        Self::default()
    }

    /// Takes these errors in place of the present ones.
    pub fn errors(self, errors: Vec<Error>) -> Self {
        Self(Errors { errors, ..self.0 })
    }

    /// Takes this error in place of the present ones.
    pub fn error(self, error: Error) -> Self {
        self.errors(vec![error])
    }

    /// Takes these files in place of the present ones.
    pub fn files(self, files: Arc<Files>) -> Self {
        Self(Errors { files, ..self.0 })
    }

    /// The errors.
    pub fn build(self) -> Errors {
        self.0
    }
}

/// A range of a file.
#[derive(Clone, Debug)]
pub struct Span {
    /// Its first byte.
    pub from: Pos,
    /// The byte behind it.
    pub to: Pos,
}

impl Span {
    /// Makes the span of one byte.
    pub fn new_single(pos: Pos) -> Span {
        let to = Pos {
            offset: pos.offset.saturating_add(1),
            ..pos
        };
        Span { from: pos, to }
    }
}

impl From<&Span> for Range<usize> {
    fn from(span: &Span) -> Self {
        span.from.offset..span.to.offset
    }
}
