/* Standard input as one text, for the examples that take one: all of it, or the program ends with a message. */
#ifndef STANDARD_INPUT_H
#define STANDARD_INPUT_H

#include <errno.h>
#include <stdint.h>
#include <stdio.h>
#include <stdlib.h>
#include <string.h>

typedef struct {
    uint8_t *bytes; /* never null; the caller frees it */
    size_t length;
} standard_text;

static void end_with(const char *what) {
    fprintf(stderr, "%s: %s\n", what, strerror(errno));
    exit(1);
}

/* So many cells, at least one, so that the pointer is valid whatever the count is. */
static void *cells_for(size_t count, size_t size) {
    void *cells = calloc(count + 1, size);
    if (cells == NULL)
        end_with("memory");
    return cells;
}

static standard_text read_standard_input(void) {
    enum { FIRST_ROOM = 1 << 16 };
    size_t room = FIRST_ROOM, got;
    standard_text text = {cells_for(room, 1), 0};
    while ((got = fread(text.bytes + text.length, 1, room - text.length, stdin)) > 0) {
        text.length += got;
        if (text.length == room) {
            room *= 2;
            text.bytes = realloc(text.bytes, room);
            if (text.bytes == NULL)
                end_with("memory");
        }
    }
    if (ferror(stdin))
        end_with("read");
    return text;
}

#endif
