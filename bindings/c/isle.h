/* isle.h: ISLE, the language of Cranelift's instruction selection, from C and C++.
 *
 * The functions are those of the static library libisle_c.a, which is proved to meet the contracts
 * in crates/isle_c/src/lib.rt. It needs the C library and nothing else.
 *
 * Texts are UTF-8 without a terminating zero: a pointer and a length in bytes. An answer is written
 * into the caller's memory. Nothing that the library allocates outlives a call, so there is nothing
 * to free, and no pointer is kept. Offsets, lengths and columns count bytes.
 *
 * Preconditions of every call:
 * - No pointer is null, not even for an empty text. A length is below 2^63.
 * - A buffer that is written to overlaps no other argument, and nothing else accesses it during the
 *   call. The functions are thread-safe.
 * - The stack must be deep enough for the nesting of the input: all functions but the `tidy` ones
 *   recurse.
 * - No call comes from a signal handler, or from the forked child of a process with threads.
 */
#ifndef ISLE_H
#define ISLE_H

#include <stddef.h>
#include <stdint.h>

#ifdef __cplusplus
extern "C" {
#endif

/* How a call ends. */
enum {
    /* The whole answer is written. */
    ISLE_WRITTEN = 0,
    /* The buffer is too small, and left unchanged. The length is the one that is needed. */
    ISLE_TOO_SHORT = 1,
    /* The text is valid ISLE. */
    ISLE_ACCEPTED = 2,
    /* The text is not valid ISLE. */
    ISLE_REFUSED = 3,
    /* A text, or the name of a file, is not UTF-8. */
    ISLE_NOT_UTF8 = 4,
    /* Out of memory, whatever the text is. */
    ISLE_MEMORY = 5,
    /* The text can be tidied, and isn't tidy. */
    ISLE_UNTIDY = 6,
    /* The lengths of the texts of a program do not add up to the length of all of them. */
    ISLE_BAD_LENGTHS = 7
};

/* How a call ended, and the length of its whole answer, 0 if there is none. */
typedef struct isle_answer {
    uint32_t status;
    size_t len;
} isle_answer;

/* The place of an error. */
typedef struct isle_place {
    /* The byte offset of the error, from 0; the text's length if it ends too early. */
    size_t offset;
    /* Its line and its column, from 1. */
    size_t line;
    size_t column;
    /* The offsets of the beginning of that line, and of its end, after the line feed if any. */
    size_t line_begin;
    size_t line_end;
} isle_place;

/* A version, by its three numbers. */
typedef struct isle_version {
    uint32_t major;
    uint32_t minor;
    uint32_t patch;
} isle_version;

/* Formats a text: writes the print of its tree, at a width in bytes. Comments are not part of the
 * tree, so they are dropped.
 *
 * ISLE_WRITTEN, ISLE_TOO_SHORT, ISLE_REFUSED, ISLE_NOT_UTF8 or ISLE_MEMORY. */
isle_answer isle_c_format(const uint8_t *text, size_t text_len, size_t width,
                          uint8_t *into, size_t into_len);

/* Parses a text: writes the encoding of its tree, whose positions have this number for their file.
 * crates/isle_encoding/src/lib.rt describes the bytes.
 *
 * ISLE_WRITTEN, ISLE_TOO_SHORT, ISLE_REFUSED, ISLE_NOT_UTF8 or ISLE_MEMORY. */
isle_answer isle_c_parse(const uint8_t *text, size_t text_len, size_t file,
                         uint8_t *into, size_t into_len);

/* Checks whether a text is valid: ISLE_ACCEPTED, ISLE_REFUSED, ISLE_NOT_UTF8 or ISLE_MEMORY. */
uint32_t isle_c_check(const uint8_t *text, size_t text_len);

/* Explains why a text is not valid: writes the message, and the place.
 *
 * ISLE_WRITTEN, ISLE_TOO_SHORT (the place is written, too), ISLE_ACCEPTED if the text is valid,
 * ISLE_NOT_UTF8 or ISLE_MEMORY. */
isle_answer isle_c_refusal(const uint8_t *text, size_t text_len,
                           uint8_t *reason, size_t reason_len, isle_place *place);

/* Writes the diagnostic of a text that is not valid, with this name for its file: the message, then
 * file, line and column, and the line itself.
 *
 * ISLE_WRITTEN, ISLE_TOO_SHORT, ISLE_ACCEPTED if the text is valid, ISLE_NOT_UTF8 (for the name,
 * too) or ISLE_MEMORY. */
isle_answer isle_c_diagnostic(const uint8_t *name, size_t name_len,
                              const uint8_t *text, size_t text_len,
                              uint8_t *into, size_t into_len);

/* Tidies a text: fixes indentation and spacing, and keeps the author's lines, every comment and
 * every token as it is written. The text need not be valid, but its tokens and its parentheses
 * must.
 *
 * ISLE_WRITTEN, ISLE_TOO_SHORT, ISLE_REFUSED, ISLE_NOT_UTF8 or ISLE_MEMORY. */
isle_answer isle_c_tidy(const uint8_t *text, size_t text_len, uint8_t *into, size_t into_len);

/* Checks whether tidying a text changes nothing: ISLE_ACCEPTED or ISLE_UNTIDY, or ISLE_REFUSED,
 * ISLE_NOT_UTF8 or ISLE_MEMORY. */
uint32_t isle_c_is_tidy(const uint8_t *text, size_t text_len);

/* Explains why a text can't be tidied: writes the message, and the place.
 *
 * ISLE_WRITTEN, ISLE_TOO_SHORT (the place is written, too), ISLE_ACCEPTED if it can be tidied,
 * ISLE_NOT_UTF8 or ISLE_MEMORY. */
isle_answer isle_c_tidy_refusal(const uint8_t *text, size_t text_len,
                                uint8_t *reason, size_t reason_len, isle_place *place);

/* Checks a program: writes the encoding of the errors that isle-check reports, or without an error
 * of its warnings. crates/isle_encoding/src/findings.rt describes the bytes.
 *
 * The texts of its files stand one behind the other, with the length of each in `lengths`. A
 * position in the answer is a byte offset in a text, with the index of the text for its file. A
 * text that nests more than 500 lists, which isle-check refuses, is checked like any other.
 *
 * ISLE_WRITTEN, ISLE_TOO_SHORT, ISLE_REFUSED if a text is not valid (isle_c_refusal of it says
 * why), ISLE_NOT_UTF8 if a text isn't, ISLE_BAD_LENGTHS or ISLE_MEMORY. */
isle_answer isle_c_check_program(const uint8_t *texts, size_t texts_len,
                                 const size_t *lengths, size_t lengths_len,
                                 uint8_t *into, size_t into_len);

/* Runs lints on a program: writes the encoding of what they find. These are the lints that
 * isle-lint runs by default if `all` is 0, and otherwise all. Comments that allow a lint change
 * nothing.
 *
 * Texts and statuses are those of isle_c_check_program. */
isle_answer isle_c_lint_program(const uint8_t *texts, size_t texts_len,
                                const size_t *lengths, size_t lengths_len, uint32_t all,
                                uint8_t *into, size_t into_len);

/* The version of cranelift-isle whose behaviour the library has. */
isle_version isle_c_version(void);

#ifdef __cplusplus
}
#endif

#endif
