//! The calls of the static library, over slices.
//!
//! The declarations match `crates/isle_c/src/lib.rt`, which has each call's contract. A `&[u8]`
//! crosses as a pointer and then a length. The parameter for the allocator takes no bytes, so it
//! isn't passed. `bindings/c/test` compares the two files and the header for C.

/// The status of a call.
#[derive(Clone, Copy, Debug, PartialEq, Eq)]
pub(crate) enum Told {
    /// The whole answer is at the front of the slice, and has this many bytes. It is UTF-8.
    Written(usize),
    /// The slice is too short, and left unchanged. The answer has this many bytes.
    TooShort(usize),
    /// The text is valid ISLE.
    Accepted,
    /// The text is not valid ISLE.
    Refused,
    /// A text isn't UTF-8.
    NotUtf8,
    /// Out of memory.
    Memory,
    /// The text can be tidied, and isn't tidy.
    Untidy,
    /// The lengths of several texts do not add up to the length of all of them.
    BadLengths,
}

/// The status and the length of an answer, as they cross.
#[repr(C)]
struct Answer {
    status: u32,
    len: usize,
}

impl Answer {
    /// The answer of a call that returns a status alone.
    fn of(status: u32) -> Answer {
        Answer { status, len: 0 }
    }

    fn told(self) -> Told {
        match self.status {
            0 => Told::Written(self.len),
            1 => Told::TooShort(self.len),
            2 => Told::Accepted,
            3 => Told::Refused,
            4 => Told::NotUtf8,
            5 => Told::Memory,
            6 => Told::Untidy,
            7 => Told::BadLengths,
            status => unreachable!("{status} is above each number that the library's clauses name"),
        }
    }
}

/// The place of an error.
#[repr(C)]
#[derive(Clone, Copy, Debug, Default, PartialEq, Eq)]
pub(crate) struct Place {
    pub offset: usize,
    pub line: usize,
    pub column: usize,
    pub line_begin: usize,
    pub line_end: usize,
}

/// A version, by its three numbers.
#[repr(C)]
#[derive(Clone, Copy, Debug, PartialEq, Eq)]
pub(crate) struct Version {
    pub major: u32,
    pub minor: u32,
    pub patch: u32,
}

unsafe extern "C" {
    fn isle_c_format(
        text: *const u8,
        text_len: usize,
        width: usize,
        into: *mut u8,
        into_len: usize,
    ) -> Answer;

    fn isle_c_parse(
        text: *const u8,
        text_len: usize,
        file: usize,
        into: *mut u8,
        into_len: usize,
    ) -> Answer;

    fn isle_c_check(text: *const u8, text_len: usize) -> u32;

    fn isle_c_refusal(
        text: *const u8,
        text_len: usize,
        reason: *mut u8,
        reason_len: usize,
        place: *mut Place,
    ) -> Answer;

    fn isle_c_diagnostic(
        name: *const u8,
        name_len: usize,
        text: *const u8,
        text_len: usize,
        into: *mut u8,
        into_len: usize,
    ) -> Answer;

    fn isle_c_tidy(text: *const u8, text_len: usize, into: *mut u8, into_len: usize) -> Answer;

    fn isle_c_is_tidy(text: *const u8, text_len: usize) -> u32;

    fn isle_c_tidy_refusal(
        text: *const u8,
        text_len: usize,
        reason: *mut u8,
        reason_len: usize,
        place: *mut Place,
    ) -> Answer;

    fn isle_c_check_program(
        texts: *const u8,
        texts_len: usize,
        lengths: *const usize,
        lengths_len: usize,
        into: *mut u8,
        into_len: usize,
    ) -> Answer;

    fn isle_c_lint_program(
        texts: *const u8,
        texts_len: usize,
        lengths: *const usize,
        lengths_len: usize,
        all: u32,
        into: *mut u8,
        into_len: usize,
    ) -> Answer;

    safe fn isle_c_version() -> Version;
}

/// Formats a text at a width.
pub(crate) fn format(text: &[u8], width: usize, into: &mut [u8]) -> Told {
    // SAFETY: the declaration fits the library's. Each pointer and length are those of one slice,
    // which is borrowed for the call, `into` for it alone. The call has no `requires`.
    let answer = unsafe {
        isle_c_format(
            text.as_ptr(),
            text.len(),
            width,
            into.as_mut_ptr(),
            into.len(),
        )
    };
    answer.told()
}

/// Returns the encoding of a text's tree, with this number for the file of each position, if it has
/// at most `room` bytes.
pub(crate) fn parse(text: &[u8], file: usize, room: usize) -> Result<Vec<u8>, Told> {
    let mut into: Vec<u8> = Vec::with_capacity(room);
    // SAFETY: the declaration fits the library's. The pointer and the length of the text are those
    // of one slice, which is borrowed for the call. `into` has so much room, for the call alone;
    // the call writes the answer there, and reads nothing of it. The call has no `requires`.
    let answer = unsafe { isle_c_parse(text.as_ptr(), text.len(), file, into.as_mut_ptr(), room) };
    match answer.told() {
        Told::Written(len) => {
            // SAFETY: so many bytes are written, and there was room for them.
            unsafe { into.set_len(len) };
            Ok(into)
        }
        told => Err(told),
    }
}

/// Checks whether a text is valid ISLE.
pub(crate) fn check(text: &[u8]) -> Told {
    // SAFETY: the declaration fits the library's. The pointer and the length are those of one
    // slice, which is borrowed for the call. The call has no `requires`.
    let status = unsafe { isle_c_check(text.as_ptr(), text.len()) };
    Answer::of(status).told()
}

/// Writes the message and the place of an error.
pub(crate) fn refusal(text: &[u8], reason: &mut [u8], place: &mut Place) -> Told {
    // SAFETY: the declaration fits the library's. Each pointer and length are those of one slice,
    // which is borrowed for the call, `reason` and `place` for it alone. The call has no
    // `requires`, and any numbers are a place.
    let answer = unsafe {
        isle_c_refusal(
            text.as_ptr(),
            text.len(),
            reason.as_mut_ptr(),
            reason.len(),
            place,
        )
    };
    answer.told()
}

/// Writes the diagnostic of a text that is not valid, with this name for its file.
pub(crate) fn diagnostic(name: &[u8], text: &[u8], into: &mut [u8]) -> Told {
    // SAFETY: the declaration fits the library's. Each pointer and length are those of one slice,
    // which is borrowed for the call, `into` for it alone. The call has no `requires`.
    let answer = unsafe {
        isle_c_diagnostic(
            name.as_ptr(),
            name.len(),
            text.as_ptr(),
            text.len(),
            into.as_mut_ptr(),
            into.len(),
        )
    };
    answer.told()
}

/// Tidies a text.
pub(crate) fn tidy(text: &[u8], into: &mut [u8]) -> Told {
    // SAFETY: the declaration fits the library's. Each pointer and length are those of one slice,
    // which is borrowed for the call, `into` for it alone. The call has no `requires`.
    let answer = unsafe { isle_c_tidy(text.as_ptr(), text.len(), into.as_mut_ptr(), into.len()) };
    answer.told()
}

/// Checks whether a text is tidy.
pub(crate) fn is_tidy(text: &[u8]) -> Told {
    // SAFETY: the declaration fits the library's. The pointer and the length are those of one
    // slice, which is borrowed for the call. The call has no `requires`.
    let status = unsafe { isle_c_is_tidy(text.as_ptr(), text.len()) };
    Answer::of(status).told()
}

/// Writes the reason why a text can't be tidied, and the place.
pub(crate) fn tidy_refusal(text: &[u8], reason: &mut [u8], place: &mut Place) -> Told {
    // SAFETY: the declaration fits the library's. Each pointer and length are those of one slice,
    // which is borrowed for the call, `reason` and `place` for it alone. The call has no
    // `requires`, and any numbers are a place.
    let answer = unsafe {
        isle_c_tidy_refusal(
            text.as_ptr(),
            text.len(),
            reason.as_mut_ptr(),
            reason.len(),
            place,
        )
    };
    answer.told()
}

/// Writes the encoding of the errors and warnings of a program, whose texts have these lengths.
pub(crate) fn check_program(texts: &[u8], lengths: &[usize], into: &mut [u8]) -> Told {
    // SAFETY: the declaration fits the library's. Each pointer and length are those of one slice,
    // which is borrowed for the call, `into` for it alone. The call has no `requires`.
    let answer = unsafe {
        isle_c_check_program(
            texts.as_ptr(),
            texts.len(),
            lengths.as_ptr(),
            lengths.len(),
            into.as_mut_ptr(),
            into.len(),
        )
    };
    answer.told()
}

/// Writes the encoding of what lints find in a program, whose texts have these lengths.
pub(crate) fn lint_program(texts: &[u8], lengths: &[usize], all: bool, into: &mut [u8]) -> Told {
    // SAFETY: the declaration fits the library's. Each pointer and length are those of one slice,
    // which is borrowed for the call, `into` for it alone. The call has no `requires`.
    let answer = unsafe {
        isle_c_lint_program(
            texts.as_ptr(),
            texts.len(),
            lengths.as_ptr(),
            lengths.len(),
            u32::from(all),
            into.as_mut_ptr(),
            into.len(),
        )
    };
    answer.told()
}

/// The version of `cranelift-isle` whose behaviour the library has.
pub(crate) fn version() -> Version {
    isle_c_version()
}

#[cfg(test)]
mod tests;
