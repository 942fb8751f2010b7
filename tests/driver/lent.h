/* Lists and lent buffers of a call, read from text, and what became of them.
 *
 * A list is its numbers, a lent buffer its length and fill: its cell i holds
 * fill + i before the call, wrapped to the cell's type. Each lies between
 * guard cells, and a call that writes to a guard or to a list adds a word that
 * no right result has. With the argument --exact there are no guards: each
 * block is as long as what it holds, so that a checker of memory sees a read
 * or write outside. */

#ifndef LENT_H
#define LENT_H

#define _POSIX_C_SOURCE 200809L

#include <inttypes.h>
#include <stdbool.h>
#include <stdio.h>
#include <stdlib.h>
#include <string.h>

#define WALZHIK_PROVED_CALLS /* the calls themselves, without the header\'s functions around them */
#include "walzhik.h"

enum { GUARDS = 64, DECIMAL = 10, GUARD_BYTE = 0x5A, GUARD_STEP = 7 };

static size_t guards = GUARDS;

typedef enum { UNSIGNED_8, UNSIGNED_32, SIGNED_32, SIGNED_64, SIZE } cell_type;

/* The cells of a list or of a lent buffer between their guards, and a copy of all from before the call. */
typedef struct {
    const char *name;
    cell_type type;
    bool lent;
    size_t length;
    unsigned char *block;
    unsigned char *before;
} cells;

static inline void give_up(const char *why, const char *text)
{
    fprintf(stderr, "driver: %s: %.60s\n", why, text);
    exit(2);
}

static inline size_t size_of(cell_type type)
{
    switch (type) {
    case UNSIGNED_8:
        return sizeof(uint8_t);
    case SIGNED_64:
        return sizeof(int64_t);
    case SIZE:
        return sizeof(size_t);
    default:
        return sizeof(uint32_t);
    }
}

/* Single cells, counted from the first one behind the guards. */

static inline void set_cell(cells *held, size_t i, uint64_t number)
{
    size_t size = size_of(held->type);
    uint8_t byte = (uint8_t)number;
    uint32_t word = (uint32_t)number;
    const void *cell = size == sizeof byte ? (void *)&byte : size == sizeof word ? (void *)&word : (void *)&number;
    memcpy(held->block + (guards + i) * size, cell, size);
}

static inline int64_t cell_of(const cells *held, const unsigned char *block, size_t i)
{
    size_t size = size_of(held->type);
    uint32_t word;
    int64_t number;
    const unsigned char *cell = block + (guards + i) * size;
    if (held->type == UNSIGNED_8)
        return *cell;
    if (size == sizeof number) {
        memcpy(&number, cell, size);
        return number;
    }
    memcpy(&word, cell, size);
    return held->type == SIGNED_32 ? (int64_t)(int32_t)word : (int64_t)word;
}

static inline int64_t now_in(const cells *held, size_t i) { return cell_of(held, held->block, i); }
static inline int64_t once_in(const cells *held, size_t i) { return cell_of(held, held->before, i); }

/* What the call is handed. */
static inline void *in(const cells *held) { return held->block + guards * size_of(held->type); }

/* Reading a call line. */

static inline const char *after_word(const char *line, const char *word)
{
    size_t length = strlen(word);
    return strncmp(line, word, length) == 0 ? line + length : NULL;
}

static inline const char *after_name(const char **line, const char *name)
{
    while (**line == ' ')
        ++*line;
    const char *rest = after_word(*line, name);
    if (rest == NULL || *rest != '=')
        give_up("expected another word", *line);
    return *line = rest + 1;
}

static inline long long read_number(const char **line)
{
    char *end;
    long long number = strtoll(*line, &end, DECIMAL);
    if (end == *line)
        give_up("expected a number", *line);
    *line = end;
    return number;
}

static inline size_t count_numbers(const char *text)
{
    size_t count = *text == '-' || (*text >= '0' && *text <= '9') ? 1 : 0;
    for (; *text != ' ' && *text != '\n' && *text != '\0'; text++)
        count += *text == ',';
    return count;
}

static inline size_t bytes_of(const cells *held) { return (held->length + 2 * guards) * size_of(held->type); }

static inline cells new_cells(const char *name, cell_type type, bool lent, size_t length)
{
    cells held = {name, type, lent, length, NULL, NULL};
    held.block = malloc(bytes_of(&held));
    held.before = malloc(bytes_of(&held));
    if (held.block == NULL || held.before == NULL)
        give_up("out of memory", name);
    for (size_t i = 0; i < bytes_of(&held); i++)
        held.block[i] = (unsigned char)(GUARD_BYTE + GUARD_STEP * i);
    return held;
}

static inline cells read_list(const char **line, const char *name, cell_type type)
{
    cells held = new_cells(name, type, false, count_numbers(after_name(line, name)));
    for (size_t i = 0; i < held.length; i++) {
        long long number = read_number(line);
        set_cell(&held, i, (uint64_t)number);
        if (now_in(&held, i) != number)
            give_up("a number does not fit its list", name);
        if (**line == ',')
            ++*line;
    }
    memcpy(held.before, held.block, bytes_of(&held));
    return held;
}

static inline cells read_buffer(const char **line, const char *name, cell_type type)
{
    after_name(line, name);
    long long length = read_number(line);
    if (length < 0 || **line != ':')
        give_up("expected length:fill of", name);
    ++*line;
    uint64_t fill = (uint64_t)read_number(line);
    cells held = new_cells(name, type, true, (size_t)length);
    for (size_t i = 0; i < held.length; i++)
        set_cell(&held, i, fill + i);
    memcpy(held.before, held.block, bytes_of(&held));
    return held;
}

/* Printing a result line. */

static inline void print_reply(walzhik_reply reply)
{
    printf("reply=%" PRIu64 ",%" PRIu32 ",%" PRIu32, reply.count, reply.number, reply.place);
}

/* All cells that differ from what they held. */
static inline void print_changed(const cells *held)
{
    printf(" %s=", held->name);
    const char *comma = "";
    for (size_t i = 0; i < held->length; i++) {
        if (now_in(held, i) != once_in(held, i)) {
            printf("%s%zu:%" PRId64, comma, i, now_in(held, i));
            comma = ",";
        }
    }
    if (*comma == '\0')
        printf("same");
}

/* A word that only a wrong call adds, and the end of the blocks' life. */
static inline void end_cells(cells *held)
{
    size_t guard = guards * size_of(held->type), all = bytes_of(held);
    bool kept = held->lent ? memcmp(held->block, held->before, guard) == 0 &&
                                 memcmp(held->block + all - guard, held->before + all - guard, guard) == 0
                           : memcmp(held->block, held->before, all) == 0;
    if (!kept)
        printf(" broken=%s", held->name);
    free(held->block);
    free(held->before);
}

static inline void end_all(cells *held, size_t count)
{
    for (size_t i = 0; i < count; i++)
        end_cells(&held[i]);
}

/* One call a line; each result is out before the next call, so a crash shows its line. */
static inline int run_lines(int count, char **words, void (*run_line)(const char *))
{
    if (count > 1 && strcmp(words[1], "--exact") == 0)
        guards = 0;
    char *line = NULL;
    size_t room = 0;
    while (getline(&line, &room, stdin) > 0) {
        run_line(line);
        putchar('\n');
        fflush(stdout);
    }
    free(line);
    return 0;
}

#endif
