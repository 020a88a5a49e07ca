/* example tidy|format FILE: writes the tidy text of a file, or its print at width 78.
 *
 * It ends with 1 where the text is refused, and says where and why; with 2 for wrong words; with 3
 * where the file can't be read or isn't UTF-8, or the output can't be written; with 4 where memory
 * ran out. */
#include "isle.h"

#include <stdio.h>
#include <stdlib.h>
#include <string.h>

/* Bytes with room for more. */
typedef struct buffer {
    uint8_t *bytes;
    size_t len;
    size_t room;
} buffer;

/* Gives a buffer room for so many bytes, or 0 where memory ran out. */
static int reserve(buffer *into, size_t room) {
    uint8_t *bytes = (uint8_t *)realloc(into->bytes, room);
    if (bytes == NULL) {
        return 0;
    }
    into->bytes = bytes;
    into->room = room;
    return 1;
}

/* Reads a file to its end. It gives 0, or the status of what failed. */
static int read_file(const char *name, buffer *text) {
    FILE *file = fopen(name, "rb");
    int status = file == NULL ? 3 : 0;
    while (status == 0 && !feof(file)) {
        if (text->len == text->room && !reserve(text, 2 * text->room + 4096)) {
            status = 4;
            break;
        }
        text->len += fread(text->bytes + text->len, 1, text->room - text->len, file);
        if (ferror(file)) {
            status = 3;
        }
    }
    if (file != NULL) {
        fclose(file);
    }
    return status;
}

/* One call on the text, with the room that there is. */
static isle_answer answer(int tidies, const buffer *text, buffer *into) {
    if (tidies) {
        return isle_c_tidy(text->bytes, text->len, into->bytes, into->room);
    }
    return isle_c_format(text->bytes, text->len, 78, into->bytes, into->room);
}

/* Calls until the answer has room. It gives how the last call ended. */
static uint32_t whole_answer(int tidies, const buffer *text, buffer *into) {
    isle_answer is = answer(tidies, text, into);
    while (is.status == ISLE_TOO_SHORT) {
        if (!reserve(into, is.len)) {
            return ISLE_MEMORY;
        }
        is = answer(tidies, text, into);
    }
    into->len = is.len;
    return is.status;
}

/* Says where and why a text is refused, with the room that the reason needs. It gives the status. */
static int tell_refusal(int tidies, const char *name, const buffer *text, buffer *into) {
    isle_place place;
    isle_answer is;
    memset(&place, 0, sizeof place);
    do {
        is = tidies ? isle_c_tidy_refusal(text->bytes, text->len, into->bytes, into->room, &place)
                    : isle_c_refusal(text->bytes, text->len, into->bytes, into->room, &place);
    } while (is.status == ISLE_TOO_SHORT && reserve(into, is.len));
    if (is.status != ISLE_WRITTEN) {
        fprintf(stderr, "%s: out of memory\n", name);
        return 4;
    }
    fprintf(stderr, "%s:%zu:%zu: ", name, place.line, place.column);
    fwrite(into->bytes, 1, is.len, stderr);
    fputc('\n', stderr);
    return 1;
}

/* Writes the answer. It gives the status. */
static int finish(int tidies, const char *name, const buffer *text, buffer *into) {
    switch (whole_answer(tidies, text, into)) {
    case ISLE_WRITTEN:
        if (fwrite(into->bytes, 1, into->len, stdout) < into->len || fflush(stdout) != 0) {
            return 3;
        }
        return 0;
    case ISLE_REFUSED:
        return tell_refusal(tidies, name, text, into);
    case ISLE_NOT_UTF8:
        fprintf(stderr, "%s: not UTF-8\n", name);
        return 3;
    default:
        fprintf(stderr, "%s: out of memory\n", name);
        return 4;
    }
}

int main(int argc, char **argv) {
    buffer text = {NULL, 0, 0};
    buffer into = {NULL, 0, 0};
    int status;
    if (argc != 3 || (strcmp(argv[1], "tidy") != 0 && strcmp(argv[1], "format") != 0)) {
        fprintf(stderr, "usage: example tidy|format FILE\n");
        return 2;
    }
    /* An empty text has a pointer, too. */
    status = reserve(&text, 4096) && reserve(&into, 4096) ? read_file(argv[2], &text) : 4;
    if (status == 0) {
        status = finish(argv[1][0] == 't', argv[2], &text, &into);
    } else {
        fprintf(stderr, "%s: %s\n", argv[2], status == 4 ? "out of memory" : "can't be read");
    }
    free(text.bytes);
    free(into.bytes);
    return status;
}
