//! Errors and warnings in programs.

use crate::archive::{self, Told};
use crate::decode::{self, ToldFinding, ToldNote};
use crate::lexer::Pos;
use crate::{Fault, MESSAGE_ROOM, Refusal, end, try_check, whole};
use std::error::Error;
use std::fmt;

/// An error or a warning in a program.
///
/// It is displayed as `NAME:LINE:COLUMN: error: MESSAGE [KIND]`, the line that `isle-check` or
/// `isle-lint` prints; its notes are not displayed with it.
#[derive(Clone, Debug, PartialEq, Eq)]
#[non_exhaustive]
pub struct Finding {
    /// Whether it is an error or a warning.
    pub severity: Severity,
    /// The name of its kind, such as `variable-type`, or of its lint, such as `unused-let`.
    pub kind: String,
    /// The message.
    pub message: String,
    /// Its place.
    pub place: Place,
    /// What is said of other rules: those that overlap with a rule, and those that a rule hides.
    pub notes: Vec<Note>,
}

/// What a finding counts for.
#[derive(Clone, Copy, Debug, PartialEq, Eq, Hash)]
#[non_exhaustive]
pub enum Severity {
    /// The compiler rejects the program.
    Error,
    /// It does not.
    Warning,
}

/// A message about another place, beside a finding.
///
/// It is displayed as `NAME:LINE:COLUMN: note: MESSAGE`.
#[derive(Clone, Debug, PartialEq, Eq)]
#[non_exhaustive]
pub struct Note {
    /// The message.
    pub message: String,
    /// Its place.
    pub place: Place,
}

/// A place in a file of a program. It is displayed as `NAME:LINE:COLUMN`.
#[derive(Clone, Debug, PartialEq, Eq)]
#[non_exhaustive]
pub struct Place {
    /// The index of the file.
    pub file: usize,
    /// Its name.
    pub name: String,
    /// The byte offset in its text, from 0.
    pub offset: usize,
    /// The line, from 1.
    pub line: usize,
    /// The column in bytes, from 1.
    pub column: usize,
}

/// The error of a file that does not parse.
///
/// It is displayed as `NAME:LINE:COLUMN: MESSAGE`.
#[derive(Clone, Debug, PartialEq, Eq)]
#[non_exhaustive]
pub struct FileRefusal {
    /// The index of the file.
    pub file: usize,
    /// Its name.
    pub name: String,
    /// Why its text does not parse.
    pub refusal: Refusal,
}

/// The error of [`try_check_program`] and [`try_lint_program`].
#[derive(Clone, Debug, PartialEq, Eq)]
#[non_exhaustive]
pub enum ProgramFault {
    /// A file does not parse.
    Refused(FileRefusal),
    /// Out of memory, whatever the texts are.
    Memory,
}

/// Checks a program of these files, each a name and a text. Returns its errors in the order in
/// which the compiler reports them, or without an error the warnings of `isle-check`.
///
/// The files are read together, in this order. `docs/CHECKS.md` in the repository lists the kinds.
/// Out of memory aborts the process; [`try_check_program`] returns an error instead.
///
/// ```
/// let files = [("types.isle", "(decl f (u8) u8)"), ("rules.isle", "(rule (f x)\n  y)")];
/// let found = isle_syntax::check_program(&files)?;
/// let shown = "rules.isle:2:3: error: Unknown variable 'y' [unknown-variable]";
/// assert_eq!(found[0].to_string(), shown);
/// assert_eq!(found.len(), 1);
/// # Ok::<(), isle_syntax::FileRefusal>(())
/// ```
///
/// # Errors
///
/// A [`FileRefusal`] for the first file that does not parse.
pub fn check_program(files: &[(&str, &str)]) -> Result<Vec<Finding>, FileRefusal> {
    try_check_program(files).map_err(or_end)
}

/// Checks as [`check_program`] does, but returns an error when it is out of memory.
///
/// # Errors
///
/// [`ProgramFault::Refused`] if [`check_program`] rejects a file, and [`ProgramFault::Memory`].
pub fn try_check_program(files: &[(&str, &str)]) -> Result<Vec<Finding>, ProgramFault> {
    findings(files, archive::check_program)
}

/// Runs lints on a program of these files, each a name and a text. Returns what they find, in order
/// of file and place: the lints that `isle-lint` runs by default, or all.
///
/// Comments that allow a lint change nothing here. Out of memory aborts the process;
/// [`try_lint_program`] returns an error instead.
///
/// ```
/// let files = [("a.isle", "(rule (f x) (let ((y u8 x)) x))")];
/// let found = isle_syntax::lint_program(&files, false)?;
/// assert_eq!(found[0].to_string(), "a.isle:1:20: warning: unused variable 'y' [unused-let]");
/// assert_eq!(found.len(), 1);
/// # Ok::<(), isle_syntax::FileRefusal>(())
/// ```
///
/// # Errors
///
/// A [`FileRefusal`] for the first file that does not parse.
pub fn lint_program(files: &[(&str, &str)], all: bool) -> Result<Vec<Finding>, FileRefusal> {
    try_lint_program(files, all).map_err(or_end)
}

/// Runs lints as [`lint_program`] does, but returns an error when it is out of memory.
///
/// # Errors
///
/// [`ProgramFault::Refused`] if [`lint_program`] rejects a file, and [`ProgramFault::Memory`].
pub fn try_lint_program(files: &[(&str, &str)], all: bool) -> Result<Vec<Finding>, ProgramFault> {
    findings(files, |texts, lengths, into| {
        archive::lint_program(texts, lengths, all, into)
    })
}

/// A call that writes the encoding of findings.
fn findings(
    files: &[(&str, &str)],
    call: impl Fn(&[u8], &[usize], &mut [u8]) -> Told,
) -> Result<Vec<Finding>, ProgramFault> {
    let memory = |_| ProgramFault::Memory;
    let mut texts = Vec::new();
    let mut lengths = Vec::new();
    lengths.try_reserve_exact(files.len()).map_err(memory)?;
    for (_, text) in files {
        texts.try_reserve(text.len()).map_err(memory)?;
        texts.extend_from_slice(text.as_bytes());
        lengths.push(text.len());
    }
    match whole(MESSAGE_ROOM, |into| call(&texts, &lengths, into)) {
        Ok(bytes) => {
            let told = decode::findings(bytes.as_bytes()).map_err(Fault::from)?;
            Ok(Placing::new(files)?.findings(told)?)
        }
        Err(Told::Refused) => Err(refusal(files)),
        Err(Told::Memory) => Err(ProgramFault::Memory),
        Err(told) => unreachable!("of texts the library doesn't tell {told:?} here"),
    }
}

/// The error of the first file that does not parse.
fn refusal(files: &[(&str, &str)]) -> ProgramFault {
    for (file, (name, text)) in files.iter().enumerate() {
        match try_check(text) {
            Ok(()) => {}
            Err(Fault::Memory) => return ProgramFault::Memory,
            Err(Fault::Refused(refusal)) => {
                return owned(name).map_or(ProgramFault::Memory, |name| {
                    ProgramFault::Refused(FileRefusal {
                        file,
                        name,
                        refusal,
                    })
                });
            }
        }
    }
    unreachable!("the library refused a program, so a text of it does not parse")
}

/// A text of its own.
fn owned(text: &str) -> Result<String, Fault> {
    let mut owned = String::new();
    owned
        .try_reserve_exact(text.len())
        .map_err(|_| Fault::Memory)?;
    owned.push_str(text);
    Ok(owned)
}

/// The files of a program, and where the lines of each begin.
struct Placing<'a> {
    files: &'a [(&'a str, &'a str)],
    /// The offset after each line feed of each text.
    lines: Vec<Vec<usize>>,
}

impl<'a> Placing<'a> {
    fn new(files: &'a [(&'a str, &'a str)]) -> Result<Placing<'a>, Fault> {
        let mut lines = Vec::new();
        lines
            .try_reserve_exact(files.len())
            .map_err(|_| Fault::Memory)?;
        for (_, text) in files {
            lines.push(line_ends(text)?);
        }
        Ok(Placing { files, lines })
    }

    fn findings(&self, told: Vec<ToldFinding>) -> Result<Vec<Finding>, Fault> {
        let mut found = Vec::new();
        found
            .try_reserve_exact(told.len())
            .map_err(|_| Fault::Memory)?;
        for it in told {
            found.push(Finding {
                severity: if it.is_error {
                    Severity::Error
                } else {
                    Severity::Warning
                },
                kind: it.kind,
                message: it.message,
                place: self.place(it.pos)?,
                notes: self.notes(it.notes)?,
            });
        }
        Ok(found)
    }

    fn notes(&self, told: Vec<ToldNote>) -> Result<Vec<Note>, Fault> {
        let mut notes = Vec::new();
        notes
            .try_reserve_exact(told.len())
            .map_err(|_| Fault::Memory)?;
        for it in told {
            notes.push(Note {
                message: it.message,
                place: self.place(it.pos)?,
            });
        }
        Ok(notes)
    }

    /// The place of a position. Each is in one of the files, as their definitions are.
    fn place(&self, Pos { file, offset }: Pos) -> Result<Place, Fault> {
        let ends = &self.lines[file];
        let line = ends.partition_point(|&end| end <= offset);
        let begin = if line == 0 { 0 } else { ends[line - 1] };
        Ok(Place {
            file,
            name: owned(self.files[file].0)?,
            offset,
            line: line + 1,
            column: offset - begin + 1,
        })
    }
}

/// The offset after each line feed of a text.
fn line_ends(text: &str) -> Result<Vec<usize>, Fault> {
    let feeds = || text.bytes().enumerate().filter(|(_, byte)| *byte == b'\n');
    let mut ends = Vec::new();
    ends.try_reserve_exact(feeds().count())
        .map_err(|_| Fault::Memory)?;
    ends.extend(feeds().map(|(offset, _)| offset + 1));
    Ok(ends)
}

/// The refusal in a fault. Out of memory aborts the process.
fn or_end(fault: ProgramFault) -> FileRefusal {
    match fault {
        ProgramFault::Refused(refusal) => refusal,
        ProgramFault::Memory => end(),
    }
}

impl fmt::Display for Severity {
    fn fmt(&self, f: &mut fmt::Formatter<'_>) -> fmt::Result {
        f.write_str(match self {
            Severity::Error => "error",
            Severity::Warning => "warning",
        })
    }
}

impl fmt::Display for Place {
    fn fmt(&self, f: &mut fmt::Formatter<'_>) -> fmt::Result {
        write!(f, "{}:{}:{}", self.name, self.line, self.column)
    }
}

impl fmt::Display for Finding {
    fn fmt(&self, f: &mut fmt::Formatter<'_>) -> fmt::Result {
        let Finding {
            severity,
            kind,
            message,
            place,
            ..
        } = self;
        write!(f, "{place}: {severity}: {message} [{kind}]")
    }
}

impl fmt::Display for Note {
    fn fmt(&self, f: &mut fmt::Formatter<'_>) -> fmt::Result {
        write!(f, "{}: note: {}", self.place, self.message)
    }
}

impl fmt::Display for FileRefusal {
    fn fmt(&self, f: &mut fmt::Formatter<'_>) -> fmt::Result {
        write!(f, "{}:{}", self.name, self.refusal)
    }
}

impl fmt::Display for ProgramFault {
    fn fmt(&self, f: &mut fmt::Formatter<'_>) -> fmt::Result {
        match self {
            ProgramFault::Refused(refusal) => refusal.fmt(f),
            ProgramFault::Memory => f.write_str("out of memory"),
        }
    }
}

impl Error for FileRefusal {}

impl Error for ProgramFault {}

impl From<FileRefusal> for ProgramFault {
    fn from(refusal: FileRefusal) -> ProgramFault {
        ProgramFault::Refused(refusal)
    }
}

impl From<Fault> for ProgramFault {
    fn from(fault: Fault) -> ProgramFault {
        match fault {
            Fault::Memory => ProgramFault::Memory,
            Fault::Refused(_) => unreachable!("only a file is refused"),
        }
    }
}
