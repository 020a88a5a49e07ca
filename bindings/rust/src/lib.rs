//! Tidies, checks, lints and formats ISLE, the rewriting language of Cranelift's instruction
//! selection.
//!
//! ```
//! let tidied = isle_syntax::tidy("(rule (lower (iadd x y)) ; why\n    ( add x y))")?;
//! assert_eq!(tidied, "(rule (lower (iadd x y)) ; why\n    (add x y))\n");
//!
//! let formatted = isle_syntax::format("(rule (lower (iadd x y)) (add x y))", 20)?;
//! assert_eq!(formatted, "(rule\n    (lower (iadd x y))\n    (add x y)\n)\n");
//! # Ok::<(), isle_syntax::Refusal>(())
//! ```
//!
//! A proved static library does the work, the crate `isle_c` of this repository. This package
//! passes it slices and returns its answers. The package isn't proved; its tests compare it with
//! the cases and the programs of the repository. `docs/PROMISES.md` there lists the promises.
//!
//! **The tree of a text has no comments and no blank lines, so formatting drops them. Tidying keeps
//! them.**
//!
//! [`parse`] returns the tree, in the types of upstream's module [`ast`], and [`parse_each`] hands
//! out one definition after another. The library writes a tree as bytes, whose meaning is proved;
//! the decoder in this package is only tested.
//!
//! [`check_program`] and [`lint_program`] return what `isle-check` and `isle-lint` find in the
//! files of a program.
//!
//! A program over the syntax layer of `cranelift-isle` compiles with the name of the crate changed:
//! the modules [`ast`], [`error`], [`files`], [`lexer`], [`parser`] and [`printer`] have upstream's
//! names and signatures. `docs/CALLING.md` in the repository lists what is missing.
//!
//! All functions are thread-safe. Out of memory aborts the process, as in the standard library; the
//! functions `try_..` return [`Fault::Memory`] instead.
//!
//! # Deep nesting
//!
//! [`check`], [`parse`], [`format()`], [`diagnostic`], [`check_program`] and [`lint_program`]
//! recurse, so the depth of nesting is limited by the thread's stack, and an input that is too deep
//! aborts the process. [`with_stack`] runs calls on a thread with a stack of a given size. 8 MiB
//! suffice for these depths, counted in parentheses around the innermost part:
//!
//! | Nest | Levels |
//! |---|---|
//! | patterns of terms, `(f (f ..))` | 19,000 |
//! | expressions of terms, `(f (f ..))` | 11,000 |
//! | expressions of `let` in `let` | 10,000 |
//! | expressions of specs, `(not (not ..))` | 4,000 |
//! | structs of model types | 34,000 |
//!
//! The main thread has 8 MiB on most systems, a thread that Rust starts has 2 MiB. [`tidy`] and
//! [`is_tidy`] do not recurse.

#![deny(missing_docs)]
#![deny(unsafe_op_in_unsafe_fn, clippy::undocumented_unsafe_blocks)]

mod archive;
pub mod ast;
pub mod codegen;
mod decode;
pub mod error;
mod fault;
pub mod files;
mod findings;
pub mod lexer;
pub mod parser;
pub mod printer;

use archive::Told;
use ast::Def;
pub use fault::{Fault, Refusal};
pub use findings::{
    FileRefusal, Finding, Note, Place, ProgramFault, Severity, check_program, lint_program,
    try_check_program, try_lint_program,
};
use std::alloc::{Layout, handle_alloc_error};
use std::panic::resume_unwind;
use std::thread;

/// The version of `cranelift-isle` as which this package reads and prints ISLE. [`version`] asks
/// the library that is linked.
pub const LANGUAGE_VERSION: &str = "0.137.1";

/// Bytes that suffice for nearly every message.
const MESSAGE_ROOM: usize = 256;

/// Fixes indentation and spacing to match Cranelift's style, and keeps the author's lines, every
/// comment and every token as it is written.
///
/// Tidying the result changes nothing. The text need not parse: it only needs valid tokens and
/// matching parentheses. Out of memory aborts the process; [`try_tidy`] returns an error instead.
///
/// # Errors
///
/// A [`Refusal`] has the place of the bad token or of the unmatched parenthesis:
///
/// ```
/// let refusal = isle_syntax::tidy("(rule (f x)\n  y").unwrap_err();
/// assert_eq!(refusal.to_string(), "1:1: unclosed '('");
/// ```
pub fn tidy(text: &str) -> Result<String, Refusal> {
    try_tidy(text).map_err(or_end)
}

/// Returns whether a text is tidy: whether [`tidy`] would change nothing.
///
/// Out of memory aborts the process; [`try_is_tidy`] returns an error instead.
///
/// ```
/// assert_eq!(isle_syntax::is_tidy("(rule (f x) y)\n"), Ok(true));
/// assert_eq!(isle_syntax::is_tidy("(rule (f x)y )\n"), Ok(false));
/// ```
///
/// # Errors
///
/// The same as those of [`tidy`].
pub fn is_tidy(text: &str) -> Result<bool, Refusal> {
    try_is_tidy(text).map_err(or_end)
}

/// Returns what [`is_tidy`] does, but an error when it is out of memory.
///
/// # Errors
///
/// [`Fault::Refused`] if [`tidy`] rejects the text, and [`Fault::Memory`].
pub fn try_is_tidy(text: &str) -> Result<bool, Fault> {
    match archive::is_tidy(text.as_bytes()) {
        Told::Accepted => Ok(true),
        Told::Untidy => Ok(false),
        told => Err(tidy_fault(text, told)),
    }
}

/// Tidies as [`tidy`] does, but returns an error when it is out of memory.
///
/// # Errors
///
/// [`Fault::Refused`] if [`tidy`] rejects the text, and [`Fault::Memory`].
pub fn try_tidy(text: &str) -> Result<String, Fault> {
    let room = text.len().saturating_add(text.len() / 8 + MESSAGE_ROOM);
    whole(room, |into| archive::tidy(text.as_bytes(), into)).map_err(|told| tidy_fault(text, told))
}

/// Parses a text and prints its tree, at this width in bytes.
///
/// The result parses, and formatting it again at this width changes nothing. Out of memory aborts
/// the process; [`try_format`] returns an error instead.
///
/// # Errors
///
/// A [`Refusal`] if the text does not parse.
pub fn format(text: &str, width: usize) -> Result<String, Refusal> {
    try_format(text, width).map_err(or_end)
}

/// Checks whether a text parses.
///
/// Out of memory aborts the process; [`try_check`] returns an error instead.
///
/// # Errors
///
/// The same as those of [`format()`].
pub fn check(text: &str) -> Result<(), Refusal> {
    try_check(text).map_err(or_end)
}

/// Formats as [`format()`] does, but returns an error when it is out of memory.
///
/// # Errors
///
/// [`Fault::Refused`] if [`format()`] rejects the text, and [`Fault::Memory`].
pub fn try_format(text: &str, width: usize) -> Result<String, Fault> {
    let room = text.len().saturating_mul(2).saturating_add(MESSAGE_ROOM);
    whole(room, |into| archive::format(text.as_bytes(), width, into))
        .map_err(|told| fault(text, told))
}

/// Checks as [`check`] does, but returns an error when it is out of memory.
///
/// # Errors
///
/// [`Fault::Refused`] if [`check`] rejects the text, and [`Fault::Memory`].
pub fn try_check(text: &str) -> Result<(), Fault> {
    match archive::check(text.as_bytes()) {
        Told::Accepted => Ok(()),
        told => Err(fault(text, told)),
    }
}

/// Parses a text, and returns its definitions.
///
/// Each position is a byte offset in the text, in file 0; [`parse_file`] takes another number. Out
/// of memory aborts the process; [`try_parse`] returns an error instead.
///
/// ```
/// use isle_syntax::ast::{Def, Ident, Pos};
///
/// let defs = isle_syntax::parse("(extern constructor add build_add)")?;
/// let [Def::Extern(add)] = &defs[..] else { unreachable!() };
/// # let isle_syntax::ast::Extern::Constructor { func, .. } = add else { unreachable!() };
/// assert_eq!(func, &Ident("build_add".to_string(), Pos { file: 0, offset: 24 }));
/// # Ok::<(), isle_syntax::Refusal>(())
/// ```
///
/// # Errors
///
/// The same as those of [`check`].
pub fn parse(text: &str) -> Result<Vec<Def>, Refusal> {
    parse_file(text, 0)
}

/// Parses as [`parse`] does, with this number for the file of each position, to distinguish the
/// trees of several files.
///
/// # Errors
///
/// The same as those of [`check`].
pub fn parse_file(text: &str, file: usize) -> Result<Vec<Def>, Refusal> {
    try_parse_file(text, file).map_err(or_end)
}

/// Parses as [`parse`] does, but returns an error when it is out of memory.
///
/// # Errors
///
/// [`Fault::Refused`] if [`parse`] rejects the text, and [`Fault::Memory`].
pub fn try_parse(text: &str) -> Result<Vec<Def>, Fault> {
    try_parse_file(text, 0)
}

/// Parses as [`parse_file`] does, but returns an error when it is out of memory.
///
/// # Errors
///
/// [`Fault::Refused`] if [`parse_file`] rejects the text, and [`Fault::Memory`].
pub fn try_parse_file(text: &str, file: usize) -> Result<Vec<Def>, Fault> {
    let bytes = encoding(text, file).map_err(|told| fault(text, told))?;
    decode::tree(&bytes).map_err(Fault::from)
}

/// Parses a text, and calls a closure with each definition, in order.
///
/// The whole text is parsed before the first call. Only one definition is made at a time, so this
/// takes less memory than [`parse`], and less time if the definitions are not kept. Positions are
/// as there. Out of memory aborts the process; [`try_parse_each`] returns an error instead.
///
/// ```
/// use isle_syntax::ast::Def;
///
/// let mut rules = 0;
/// isle_syntax::parse_each("(rule (f x) x) (decl f (A) A)", |definition| {
///     rules += usize::from(matches!(definition, Def::Rule(_)));
/// })?;
/// assert_eq!(rules, 1);
/// # Ok::<(), isle_syntax::Refusal>(())
/// ```
///
/// # Errors
///
/// The same as those of [`check`], before the first call.
pub fn parse_each(text: &str, call: impl FnMut(Def)) -> Result<(), Refusal> {
    try_parse_each(text, call).map_err(or_end)
}

/// Does what [`parse_each`] does, but returns an error when it is out of memory, which may come
/// after some calls.
///
/// # Errors
///
/// [`Fault::Refused`] if [`parse_each`] rejects the text, before the first call, and
/// [`Fault::Memory`].
pub fn try_parse_each(text: &str, mut call: impl FnMut(Def)) -> Result<(), Fault> {
    let bytes = encoding(text, 0).map_err(|told| fault(text, told))?;
    let calls = decode::each(&bytes, |def| {
        call(def);
        Ok(())
    });
    calls.map_err(Fault::from)
}

/// The encoding of a text's tree, or the status in its place.
fn encoding(text: &str, file: usize) -> Result<Vec<u8>, Told> {
    // Memory that isn't written to costs nothing, so this is enough for nearly every tree.
    let room = text.len().saturating_mul(4).saturating_add(MESSAGE_ROOM);
    match archive::parse(text.as_bytes(), file, room) {
        Err(Told::TooShort(len)) => archive::parse(text.as_bytes(), file, len),
        encoding => encoding,
    }
}

/// The diagnostic of a text, with this name for its file, or `None` if the text parses.
///
/// It is upstream's plain text, with a line feed after a source line that has none: the message;
/// file, line and column, counted from 1, with the line itself; and an empty line.
///
/// ```
/// let shown = isle_syntax::diagnostic("a.isle", "(decl pure () T)\n").unwrap();
/// let place = "a.isle:1:12: (decl pure () T)";
/// assert_eq!(shown, format!("parse error: Unexpected token LParen\n{place}\n\n"));
/// ```
///
/// Out of memory aborts the process.
pub fn diagnostic(file: &str, text: &str) -> Option<String> {
    let room = file.len().saturating_add(2 * MESSAGE_ROOM);
    let call = |into: &mut [u8]| archive::diagnostic(file.as_bytes(), text.as_bytes(), into);
    match whole(room, call) {
        Ok(shown) => Some(shown),
        Err(Told::Accepted) => None,
        Err(Told::Memory) => end(),
        Err(told) => unreachable!("of a `&str` the library doesn't tell {told:?} here"),
    }
}

/// The version of `cranelift-isle` whose behaviour the library has, as three numbers.
pub fn version() -> (u32, u32, u32) {
    let archive::Version {
        major,
        minor,
        patch,
    } = archive::version();
    (major, minor, patch)
}

/// Runs a closure on a thread with this many bytes of stack, and returns its result. Use it for
/// input that may be deeply nested:
///
/// ```
/// let text = format!("(rule (f x) {}y{})", "(g ".repeat(50_000), ")".repeat(50_000));
/// let checked = isle_syntax::with_stack(64 << 20, || isle_syntax::check(&text))?;
/// assert_eq!(checked, Ok(()));
/// # Ok::<(), std::io::Error>(())
/// ```
///
/// A panic of the closure is resumed in the caller.
///
/// # Errors
///
/// The system's, if it can't start such a thread.
pub fn with_stack<T: Send>(bytes: usize, calls: impl FnOnce() -> T + Send) -> std::io::Result<T> {
    thread::scope(|scope| {
        let made = thread::Builder::new()
            .stack_size(bytes)
            .spawn_scoped(scope, calls)?;
        match made.join() {
            Ok(given) => Ok(given),
            Err(panic) => resume_unwind(panic),
        }
    })
}

/// Makes a call with a buffer of `room` bytes, and again with a larger one if the answer needs it.
/// Returns the answer, or the status in its place.
fn whole(room: usize, mut call: impl FnMut(&mut [u8]) -> Told) -> Result<String, Told> {
    let mut into = Vec::new();
    let mut wanted = room;
    loop {
        let more = wanted.saturating_sub(into.len());
        into.try_reserve_exact(more).map_err(|_| Told::Memory)?;
        into.resize(wanted, 0);
        match call(&mut into) {
            Told::Written(len) => {
                into.truncate(len);
                return Ok(String::from_utf8(into).expect("an answer is UTF-8"));
            }
            Told::TooShort(len) => wanted = len,
            told => return Err(told),
        }
    }
}

/// A call that writes the message and the place of an error.
type Reason = fn(&[u8], &mut [u8], &mut archive::Place) -> Told;

/// The fault of a text that does not parse.
fn fault(text: &str, told: Told) -> Fault {
    fault_of(text, told, archive::refusal)
}

/// The fault of a text that can't be tidied.
fn tidy_fault(text: &str, told: Told) -> Fault {
    fault_of(text, told, archive::tidy_refusal)
}

fn fault_of(text: &str, told: Told, reason: Reason) -> Fault {
    match told {
        Told::Refused => refusal(text, reason).map_or_else(|fault| fault, Fault::Refused),
        Told::Memory => Fault::Memory,
        told => unreachable!("of a `&str` the library doesn't tell {told:?} here"),
    }
}

/// The message and the place of the error in a text that was rejected.
fn refusal(text: &str, reason: Reason) -> Result<Refusal, Fault> {
    let mut place = archive::Place::default();
    let call = |into: &mut [u8]| reason(text.as_bytes(), into, &mut place);
    // The text is rejected, so the only other status is out of memory.
    let message = whole(MESSAGE_ROOM, call).map_err(|_| Fault::Memory)?;
    let line = &text[place.line_begin..place.line_end];
    let line = line.strip_suffix('\n').unwrap_or(line);
    let mut source_line = String::new();
    source_line
        .try_reserve_exact(line.len())
        .map_err(|_| Fault::Memory)?;
    source_line.push_str(line);
    Ok(Refusal {
        message,
        line: place.line,
        column: place.column,
        offset: place.offset,
        source_line,
    })
}

/// The refusal in a fault. Out of memory aborts the process.
fn or_end(fault: Fault) -> Refusal {
    match fault {
        Fault::Refused(refusal) => refusal,
        Fault::Memory => end(),
    }
}

/// Aborts the process for lack of memory, as the standard library does.
fn end() -> ! {
    handle_alloc_error(Layout::new::<u8>())
}

/// The programs of the README, as tests.
#[cfg(doctest)]
#[doc = include_str!("../README.md")]
struct Readme;
