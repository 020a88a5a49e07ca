/* check FILE..: checks files as one program, and prints each error or warning with its notes, as
 * FILE:OFFSET: error: MESSAGE [KIND], at the byte offset in the file.
 *
 * It ends with 1 where there is an error or a file does not parse, with 2 without files, with 3
 * where a file can't be read or isn't UTF-8, with 4 where memory ran out. */
#include "isle.h"

#include <stdio.h>
#include <stdlib.h>

/* The names of files, and their texts, one behind the other, with their lengths. */
typedef struct program {
    char **names;
    size_t *lengths;
    size_t files;
    uint8_t *texts;
    size_t len;
} program;

/* Gives memory of at least one byte a new size, or ends with 4. */
static void *resized(void *bytes, size_t size) {
    void *more = realloc(bytes, size + 1);
    if (more == NULL) {
        fprintf(stderr, "out of memory\n");
        exit(4);
    }
    return more;
}

/* Adds the text of a file, or ends with 3. */
static void add_file(program *all, char *name) {
    FILE *file = fopen(name, "rb");
    size_t begin = all->len;
    size_t read = 1;
    while (file != NULL && read > 0) {
        all->texts = (uint8_t *)resized(all->texts, all->len + 4096);
        read = fread(all->texts + all->len, 1, 4096, file);
        all->len += read;
    }
    if (file == NULL || ferror(file)) {
        fprintf(stderr, "%s: can't be read\n", name);
        exit(3);
    }
    fclose(file);
    all->names[all->files] = name;
    all->lengths[all->files++] = all->len - begin;
}

/* Reads a number: its digits to the base 64, the lowest first, each but the last one plus 64. */
static size_t number(const uint8_t **at) {
    size_t value = 0;
    unsigned shift = 0;
    for (; **at >= 64; ++*at, shift += 6) {
        value |= (size_t)(**at & 63) << shift;
    }
    return value | (size_t)*(*at)++ << shift;
}

/* Passes a text, and gives its beginning and its length. */
static const char *text(const uint8_t **at, int *len) {
    const char *begin;
    *len = (int)number(at);
    begin = (const char *)*at;
    *at += *len;
    return begin;
}

/* Prints a finding and its notes. It gives whether it is an error. */
static int show_finding(const program *all, const uint8_t **at) {
    int kind_len, len;
    int is_error = *(*at)++;
    const char *kind = text(at, &kind_len);
    size_t file = number(at);
    size_t offset = number(at);
    const char *message = text(at, &len);
    size_t notes = number(at);
    printf("%s:%zu: %s: %.*s [%.*s]\n", all->names[file], offset,
           is_error ? "error" : "warning", len, message, kind_len, kind);
    for (; notes > 0; notes--) {
        file = number(at);
        offset = number(at);
        message = text(at, &len);
        printf("%s:%zu: note: %.*s\n", all->names[file], offset, len, message);
    }
    return is_error;
}

/* Prints all findings, which the bytes of an answer are. It gives the status. */
static int show(const program *all, const uint8_t *at) {
    int status = 0;
    size_t findings;
    number(&at); /* the version */
    for (findings = number(&at); findings > 0; findings--) {
        status |= show_finding(all, &at);
    }
    return status;
}

/* Checks the program. It gives the status. */
static int check(const program *all) {
    uint8_t *into = NULL;
    size_t room = 4096;
    isle_answer is;
    int status = 1;
    do {
        into = (uint8_t *)resized(into, room);
        is = isle_c_check_program(all->texts, all->len, all->lengths, all->files, into, room);
        room = is.len;
    } while (is.status == ISLE_TOO_SHORT);
    switch (is.status) {
    case ISLE_WRITTEN:
        status = show(all, into);
        break;
    case ISLE_REFUSED:
        fprintf(stderr, "a file does not parse\n");
        break;
    case ISLE_NOT_UTF8:
        fprintf(stderr, "a file is not UTF-8\n");
        status = 3;
        break;
    default:
        fprintf(stderr, "out of memory\n");
        status = 4;
    }
    free(into);
    return status;
}

int main(int argc, char **argv) {
    program all = {NULL, NULL, 0, NULL, 0};
    int status;
    int file;
    if (argc < 2) {
        fprintf(stderr, "usage: check FILE..\n");
        return 2;
    }
    all.names = (char **)resized(NULL, (size_t)argc * sizeof *all.names);
    all.lengths = (size_t *)resized(NULL, (size_t)argc * sizeof *all.lengths);
    for (file = 1; file < argc; file++) {
        add_file(&all, argv[file]);
    }
    status = check(&all);
    free(all.names);
    free(all.lengths);
    free(all.texts);
    return status;
}
