/*
 * quote SCRIPT SCHEDULE: runs the script in the file SCRIPT by the schedule in the file SCHEDULE and prints the listing of what is there
 * in the end.
 *
 * A schedule is a line of digits 0 to 3, each the actor that is to move next. How many moves were made and how many entries were refused
 * is told on standard error, so that standard output is the listing alone. The exit status is 0, or 1 with one line on standard error.
 */
#include <stdint.h>
#include <stdio.h>
#include <stdlib.h>

#include "atlite.h"

struct bytes {
    uint8_t *at;
    size_t length;
};

/* What to tell the person who wrote the script, by the number of the cause. */
static const char *const causes[] = {
    "done",
    "the text is empty or has over 4096 bytes",
    "the text is not of the grammar",
    "a variable that nothing binds, or the binding rule is broken",
    "one list has two fields or parameters of one name, or two methods of one name and equally many parameters, "
    "or a future names both its parts alike",
    "too many brackets open together, different words or nodes",
    "a buffer is too short",
    "the words are not those of a table, or of a state",
    "there is no such actor",
    "nothing to do: a value, and the inbox is empty",
    "get, set, call or send on null or a number",
    "get, set or call on what another actor owns",
    "no such field, no method of the name for so many arguments, or an entity of another kind",
    "the future is resolved already",
    "a future given as the value of a future",
    "plus or percent on what is no number, or a result over 16777215",
    "a limit would be passed",
};

static void fail(const char *what, const char *why)
{
    fprintf(stderr, "quote: %s: %s\n", what, why);
    exit(1);
}

/* Stops the program where a call was refused. */
static void must(const char *what, uint32_t cause)
{
    if (cause != ATLITE_DONE) {
        fprintf(stderr, "quote: %s: refused with %u: %s\n", what, (unsigned)cause, causes[cause]);
        exit(1);
    }
}

/* A larger piece of memory with the same content; never of no bytes, since a call wants a pointer even for an empty text. */
static uint8_t *grow(uint8_t *at, size_t length)
{
    uint8_t *more = realloc(at, length);
    if (more == NULL) {
        fail("memory", "none is left");
    }
    return more;
}

/* The whole content of a file. */
static struct bytes content(const char *name)
{
    FILE *file = fopen(name, "rb");
    if (file == NULL) {
        fail(name, "cannot be opened");
    }
    size_t room = 4096;
    struct bytes all = {grow(NULL, room), 0};
    size_t got;
    while ((got = fread(all.at + all.length, 1, room - all.length, file)) > 0) {
        all.length += got;
        if (all.length == room) {
            room *= 2;
            all.at = grow(all.at, room);
        }
    }
    if (ferror(file)) {
        fail(name, "cannot be read");
    }
    fclose(file);
    return all;
}

/* A schedule's line as entries: the digits become numbers, in place. */
static struct bytes schedule(const char *name)
{
    struct bytes line = content(name);
    if (line.length == 0 || line.at[line.length - 1] != '\n') {
        fail(name, "does not end in a line end");
    }
    line.length -= 1;
    for (size_t i = 0; i < line.length; i += 1) {
        if (line.at[i] < '0' || '3' < line.at[i]) {
            fail(name, "is not one line of digits 0 to 3");
        }
        line.at[i] -= '0';
    }
    return line;
}

/* The listing of a state. The words are a state here, so that a refusal with ATLITE_SHORT means the text's buffer. */
static struct bytes listing(const uint32_t *state)
{
    size_t room = 65536;
    struct bytes text = {grow(NULL, room), 0};
    uint32_t cause;
    while ((cause = atlite_list(state, ATLITE_STATE_WORDS, text.at, room, &text.length)) == ATLITE_SHORT) {
        room *= 2;
        text.at = grow(text.at, room);
    }
    must("listing", cause);
    return text;
}

int main(int count, char **words)
{
    static uint32_t table[ATLITE_TABLE_WORDS];
    static uint32_t state[ATLITE_STATE_WORDS];
    if (count != 3) {
        fail("usage", "quote SCRIPT SCHEDULE");
    }
    struct bytes script = content(words[1]);
    struct bytes entries = schedule(words[2]);
    must(words[1], atlite_read(script.at, script.length, table, ATLITE_TABLE_WORDS));
    must(words[1], atlite_load(table, ATLITE_TABLE_WORDS, state, ATLITE_STATE_WORDS));
    size_t moves, refusals;
    must(words[2], atlite_run(state, ATLITE_STATE_WORDS, entries.at, entries.length, &moves, &refusals));
    struct bytes text = listing(state);
    size_t written = fwrite(text.at, 1, text.length, stdout);
    if (written != text.length || fflush(stdout) != 0) {
        fail("listing", "cannot be written");
    }
    fprintf(stderr, "quote: moves %zu, refused %zu\n", moves, refusals);
    free(text.at);
    free(entries.at);
    free(script.at);
    return 0;
}
