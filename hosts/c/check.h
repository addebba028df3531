/*
 * What the tests of the calls from C share: how memory is lent, and what is expected of states.
 *
 * Every buffer is lent so that it ends right before memory that cannot be touched, and buffers that a call only reads are made
 * read-only. So an access past a length that was given, or a write to what is only read, ends the program.
 */
#ifndef CHECK_H
#define CHECK_H

#include <stdint.h>
#include <stdio.h>
#include <stdlib.h>
#include <string.h>
#include <sys/mman.h>
#include <unistd.h>

#include "atlite.h"

static int failures;

static void expect(int holds, const char *what, const char *file, int line)
{
    if (!holds) {
        printf("%s:%d: not so: %s\n", file, line, what);
        failures += 1;
    }
}

#define EXPECT(holds) expect((holds), #holds, __FILE__, __LINE__)

/* Memory of some bytes, all of one value, that ends where nothing may be touched. */
static void *lend(size_t bytes, int value)
{
    size_t page = (size_t)sysconf(_SC_PAGESIZE);
    size_t pages = (bytes + page - 1) / page;
    uint8_t *at = mmap(NULL, (pages + 1) * page, PROT_READ | PROT_WRITE, MAP_PRIVATE | MAP_ANONYMOUS, -1, 0);
    if (at == MAP_FAILED || mprotect(at + pages * page, page, PROT_NONE) != 0) {
        perror("check");
        exit(2);
    }
    uint8_t *start = at + pages * page - bytes;
    memset(start, value, bytes);
    return start;
}

/* The same bytes where nothing can write to them. */
static void *shut(const void *from, size_t bytes)
{
    size_t page = (size_t)sysconf(_SC_PAGESIZE);
    uint8_t *start = lend(bytes, 0);
    memcpy(start, from, bytes);
    uint8_t *first = start - (uintptr_t)start % page;
    if (bytes > 0 && mprotect(first, (size_t)(start + bytes - first), PROT_READ) != 0) {
        perror("check");
        exit(2);
    }
    return start;
}

static int all(const void *at, size_t bytes, int value)
{
    const uint8_t *b = at;
    for (size_t i = 0; i < bytes; i += 1) {
        if (b[i] != value) {
            return 0;
        }
    }
    return 1;
}

static uint32_t read_text(const char *text, uint32_t *table, size_t words)
{
    return atlite_read(shut(text, strlen(text)), strlen(text), table, words);
}

/* The state in which a script begins. */
static uint32_t *begin(const char *text)
{
    uint32_t *table = lend(4 * ATLITE_TABLE_WORDS, 0);
    uint32_t *state = lend(4 * ATLITE_STATE_WORDS, 0xaa);
    EXPECT(read_text(text, table, ATLITE_TABLE_WORDS) == ATLITE_DONE);
    EXPECT(atlite_load(shut(table, 4 * ATLITE_TABLE_WORDS), ATLITE_TABLE_WORDS, state, ATLITE_STATE_WORDS) == ATLITE_DONE);
    return state;
}

/* Whether a state's listing is the text, in a buffer of exactly its length; one byte less is refused. */
static int lists(const uint32_t *state, const char *text)
{
    size_t length = strlen(text);
    size_t bytes = 77;
    uint8_t *out = lend(length, 0x55);
    const uint32_t *same = shut(state, 4 * ATLITE_STATE_WORDS);
    uint8_t *less = lend(length - 1, 0x55);
    EXPECT(atlite_list(same, ATLITE_STATE_WORDS, less, length - 1, &bytes) == ATLITE_SHORT);
    EXPECT(all(less, length - 1, 0x55) && bytes == 77);
    return atlite_list(same, ATLITE_STATE_WORDS, out, length, &bytes) == ATLITE_DONE && bytes == length && memcmp(out, text, length) == 0;
}

/* Moves an actor until it is refused and answers the cause. The refusal leaves the state and both places alone. */
static uint32_t until_refused(uint32_t *state, uint8_t actor)
{
    uint32_t *before = lend(4 * ATLITE_STATE_WORDS, 0);
    uint32_t cause, kind, other;
    do {
        memcpy(before, state, 4 * ATLITE_STATE_WORDS);
        kind = 1000;
        other = 2000;
        cause = atlite_move(state, ATLITE_STATE_WORDS, actor, &kind, &other);
    } while (cause == ATLITE_DONE);
    EXPECT(memcmp(before, state, 4 * ATLITE_STATE_WORDS) == 0);
    EXPECT(kind == 1000 && other == 2000);
    return cause;
}

#endif
