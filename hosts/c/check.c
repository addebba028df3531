/*
 * Tests of the calls from C: each answer, each refusal, and what they leave alone.
 */
#define _GNU_SOURCE
#include "check.h"

static void reading(void)
{
    static const struct {
        const char *text;
        uint32_t cause;
    } refused[] = {
        {"", ATLITE_TEXT_LENGTH},
        {"(plus 2 3)", ATLITE_GRAMMAR},
        {"(plus 2  3)\n", ATLITE_GRAMMAR},
        {"(def x 1)\n", ATLITE_GRAMMAR},
        {"01\n", ATLITE_GRAMMAR},
        {"16777216\n", ATLITE_GRAMMAR},
        {"(if 1 2)\n", ATLITE_GRAMMAR},
        {"(same 1 2 3)\n", ATLITE_GRAMMAR},
        {"(let if 1 2)\n", ATLITE_GRAMMAR},
        {"(object (field same 1))\n", ATLITE_GRAMMAR},
        {"(let x 1 y)\n", ATLITE_BINDING},
        {"(if 1 2 x)\n", ATLITE_BINDING},
        {"(def x 1)\n(actor (field a x))\n", ATLITE_BINDING},
        {"(object (field a 1) (field a 2))\n", ATLITE_TWICE},
        {"(future x x 1)\n", ATLITE_TWICE},
        {"(object (method m (x) 1) (method m (y) 2))\n", ATLITE_TWICE},
    };
    uint32_t *table = lend(4 * ATLITE_TABLE_WORDS, 0x33);
    for (size_t i = 0; i < sizeof refused / sizeof refused[0]; i += 1) {
        uint32_t cause = read_text(refused[i].text, table, ATLITE_TABLE_WORDS);
        if (cause != refused[i].cause) {
            printf("check.c: %u, not %u, for the text %s\n", (unsigned)cause, (unsigned)refused[i].cause, refused[i].text);
            failures += 1;
        }
    }
    EXPECT(read_text("(plus 2 3)\n", table, ATLITE_TABLE_WORDS - 1) == ATLITE_SHORT);
    EXPECT(read_text("", table, 0) == ATLITE_SHORT);
    EXPECT(all(table, 4 * ATLITE_TABLE_WORDS, 0x33));

    /* 33 brackets open together, and texts of 4,096 and of 4,097 bytes */
    static char deep[300];
    for (int i = 0; i < 33; i += 1) {
        strcat(deep, "(seq 1 ");
    }
    strcat(deep, "1");
    for (int i = 0; i < 33; i += 1) {
        strcat(deep, ")");
    }
    strcat(deep, "\n");
    EXPECT(read_text(deep, table, ATLITE_TABLE_WORDS) == ATLITE_TOO_LARGE);
    uint8_t *longest = lend(4097, '1');
    for (size_t i = 8; i < 4096; i += 9) {
        longest[i] = '\n';
    }
    longest[4095] = longest[4096] = '\n';
    EXPECT(atlite_read(longest, 4096, table, ATLITE_TABLE_WORDS) == ATLITE_GRAMMAR);
    EXPECT(atlite_read(longest, 4097, table, ATLITE_TABLE_WORDS) == ATLITE_TEXT_LENGTH);
    EXPECT(all(table, 4 * ATLITE_TABLE_WORDS, 0x33));

    /* words behind the table stay */
    uint32_t *more = lend(4 * (ATLITE_TABLE_WORDS + 5), 0x33);
    EXPECT(read_text("(plus 2 3)\n", more, ATLITE_TABLE_WORDS + 5) == ATLITE_DONE);
    EXPECT(all(more + ATLITE_TABLE_WORDS, 4 * 5, 0x33));
}

static void printing(void)
{
    const char *text = "(def shop (actor (field rate 12)))\n(percent 250 12)\n";
    uint32_t *table = lend(4 * ATLITE_TABLE_WORDS, 0);
    EXPECT(read_text(text, table, ATLITE_TABLE_WORDS) == ATLITE_DONE);
    const uint32_t *same = shut(table, 4 * ATLITE_TABLE_WORDS);
    size_t bytes = 77;
    uint8_t *out = lend(4200, 0x55);
    EXPECT(atlite_print(same, ATLITE_TABLE_WORDS - 1, out, 4200, &bytes) == ATLITE_SHORT);
    EXPECT(atlite_print(same, ATLITE_TABLE_WORDS, out, strlen(text) - 1, &bytes) == ATLITE_SHORT);
    EXPECT(all(out, 4200, 0x55) && bytes == 77);
    EXPECT(atlite_print(same, ATLITE_TABLE_WORDS, out, 4200, &bytes) == ATLITE_DONE);
    EXPECT(bytes == strlen(text) && memcmp(out, text, bytes) == 0 && all(out + bytes, 4200 - bytes, 0x55));

    /* words that are no table: all zero, and a table in which one bit of one word is another */
    bytes = 77;
    EXPECT(atlite_print(lend(4 * ATLITE_TABLE_WORDS, 0), ATLITE_TABLE_WORDS, out, 4200, &bytes) == ATLITE_NEITHER);
    table[ATLITE_TABLE_WORDS - 1] ^= 1;
    EXPECT(atlite_print(table, ATLITE_TABLE_WORDS, out, 4200, &bytes) == ATLITE_NEITHER);
    EXPECT(bytes == 77);
}

static void loading(void)
{
    uint32_t *table = lend(4 * ATLITE_TABLE_WORDS, 0);
    uint32_t *state = lend(4 * (ATLITE_STATE_WORDS + 3), 0x44);
    EXPECT(read_text("(plus 2 3)\n", table, ATLITE_TABLE_WORDS) == ATLITE_DONE);
    EXPECT(atlite_load(table, ATLITE_TABLE_WORDS - 1, state, ATLITE_STATE_WORDS) == ATLITE_SHORT);
    EXPECT(atlite_load(table, ATLITE_TABLE_WORDS, state, ATLITE_STATE_WORDS - 1) == ATLITE_SHORT);
    EXPECT(atlite_load(lend(4 * ATLITE_TABLE_WORDS, 0), ATLITE_TABLE_WORDS, state, ATLITE_STATE_WORDS) == ATLITE_NEITHER);

    /* 200 lines are a text that is read; joined they are more than an expression may have */
    static char many[2 * 200 + 1];
    for (int i = 0; i < 200; i += 1) {
        strcat(many, "1\n");
    }
    EXPECT(read_text(many, table, ATLITE_TABLE_WORDS) == ATLITE_DONE);
    EXPECT(atlite_load(table, ATLITE_TABLE_WORDS, state, ATLITE_STATE_WORDS) == ATLITE_LIMIT);
    EXPECT(all(state, 4 * (ATLITE_STATE_WORDS + 3), 0x44));

    /* words behind the state stay; what the state's words held does not matter */
    EXPECT(read_text("(plus 2 3)\n", table, ATLITE_TABLE_WORDS) == ATLITE_DONE);
    EXPECT(atlite_load(table, ATLITE_TABLE_WORDS, state, ATLITE_STATE_WORDS + 3) == ATLITE_DONE);
    EXPECT(all(state + ATLITE_STATE_WORDS, 4 * 3, 0x44));
    EXPECT(memcmp(state, begin("(plus 2 3)\n"), 4 * ATLITE_STATE_WORDS) == 0);
}

static void moving(void)
{
    uint32_t kind, other;
    uint32_t *state = begin("(send (actor (field a 1) (method put (n) (set this a n))) put 5)\n");
    EXPECT(atlite_move(state, ATLITE_STATE_WORDS, 1, &kind, &other) == ATLITE_NO_ACTOR);
    EXPECT(atlite_move(state, ATLITE_STATE_WORDS, 255, &kind, &other) == ATLITE_NO_ACTOR);
    EXPECT(atlite_move(state, ATLITE_STATE_WORDS, 0, &kind, &other) == ATLITE_DONE && kind == ATLITE_CREATED && other == 1);
    EXPECT(atlite_move(state, ATLITE_STATE_WORDS, 0, &kind, &other) == ATLITE_DONE && kind == ATLITE_SENT && other == 1);
    EXPECT(until_refused(state, 0) == ATLITE_NOTHING);
    EXPECT(atlite_move(state, ATLITE_STATE_WORDS, 1, &kind, &other) == ATLITE_DONE && kind == ATLITE_INNER && other == ATLITE_NO_OTHER);
    EXPECT(atlite_move(state, ATLITE_STATE_WORDS, 1, &kind, &other) == ATLITE_DONE && kind == ATLITE_INNER);
    EXPECT(atlite_move(state, ATLITE_STATE_WORDS, 1, &kind, &other) == ATLITE_DONE && kind == ATLITE_TAKEN && other == ATLITE_NO_OTHER);
    EXPECT(until_refused(state, 1) == ATLITE_NOTHING);
    EXPECT(lists(state, "(actor 0 2 0 0 null)\n"
                        "(actor 1 5 1 0 5)\n"
                        "(object 1 m 0 (field a 5) (method put (n) (set this a n)))\n"));

    static const struct {
        const char *text;
        uint32_t cause;
    } refused[] = {
        {"(get null a)\n", ATLITE_RECEIVER},
        {"(ask null m)\n", ATLITE_RECEIVER},
        {"(resolve null 5)\n", ATLITE_RECEIVER},
        {"(when null x x)\n", ATLITE_NOTHING},
        {"(get (actor (field a 1)) a)\n", ATLITE_NOT_OWN},
        {"(get (object (field a 1)) b)\n", ATLITE_NO_MEMBER},
        {"(future f r (seq (call r apply 1) f))\n", ATLITE_NO_MEMBER},
        {"(call (object (method m () 1) (method m (x y) 2)) m 3)\n", ATLITE_NO_MEMBER},
        {"(ask (object (method m () 1) (method m (x y) 2)) m 3)\n", ATLITE_NO_MEMBER},
        {"(future f r (seq (resolve r 1) (resolve r 2)))\n", ATLITE_RESOLVED},
        {"(plus 16777215 1)\n", ATLITE_ARITHMETIC},
        {"(percent null 1)\n", ATLITE_ARITHMETIC},
        {"(if (same null 0) 1 (plus null 1))\n", ATLITE_ARITHMETIC},
        {"(if (same null null) 1 (plus null 1))\n", ATLITE_NOTHING},
        {"(let o (object (method go (x) (plus 1 (call this go (plus x 1))))) (call o go 0))\n", ATLITE_LIMIT},
    };
    for (size_t i = 0; i < sizeof refused / sizeof refused[0]; i += 1) {
        uint32_t cause = until_refused(begin(refused[i].text), 0);
        if (cause != refused[i].cause) {
            printf("check.c: %u, not %u, for moves of %s\n", (unsigned)cause, (unsigned)refused[i].cause, refused[i].text);
            failures += 1;
        }
    }

    /* too few words, and words that are no state */
    uint32_t *words = lend(4 * ATLITE_STATE_WORDS, 0x66);
    kind = 1000;
    other = 2000;
    EXPECT(atlite_move(words, ATLITE_STATE_WORDS - 1, 0, &kind, &other) == ATLITE_SHORT);
    EXPECT(atlite_move(words, ATLITE_STATE_WORDS, 0, &kind, &other) == ATLITE_NEITHER);
    EXPECT(all(words, 4 * ATLITE_STATE_WORDS, 0x66) && kind == 1000 && other == 2000);
}

static void choosing(void)
{
    static const struct {
        const char *text;
        const char *listing;
    } chosen[] = {
        {"(if null 3 4)\n", "(actor 0 1 0 0 4)\n"},
        {"(if (same 2 2) (same null 0) 5)\n", "(actor 0 3 0 0 0)\n"},
        {"(let o (object) (if o (same o o) 5))\n", "(actor 0 4 1 0 1)\n(object 0 m 0)\n"},
        {"(same (object) (object))\n", "(actor 0 3 2 0 0)\n(object 0 m 0)\n(object 0 m 1)\n"},
        {"(future f r (if f r 5))\n", "(actor 0 2 2 0 (ref 0 m 1))\n(future 0 m 0 open)\n(resolver 0 m 1 0)\n"},
    };
    for (size_t i = 0; i < sizeof chosen / sizeof chosen[0]; i += 1) {
        uint32_t *state = begin(chosen[i].text);
        if (until_refused(state, 0) != ATLITE_NOTHING || !lists(state, chosen[i].listing)) {
            printf("check.c: another end than that of %s\n", chosen[i].text);
            failures += 1;
        }
    }

    /* one move takes a part, and leaves it as it stands */
    uint32_t kind, other;
    uint32_t *state = begin("(if 1 (plus 2 null) 3)\n");
    EXPECT(atlite_move(state, ATLITE_STATE_WORDS, 0, &kind, &other) == ATLITE_DONE && kind == ATLITE_INNER && other == ATLITE_NO_OTHER);
    EXPECT(lists(state, "(actor 0 1 0 0 (plus 2 null))\n"));
}

/* A word that stands for a form is in no dictionary. The first entry of one begins with the third word of a state, the fourth of a table. */
static void reserved(void)
{
    uint32_t *table = lend(4 * ATLITE_TABLE_WORDS, 0);
    uint32_t *state = begin("(get null a)\n");
    size_t moves, refusals, bytes;
    uint8_t out[100];
    memcpy(state + 2, "same", 4);
    EXPECT(atlite_run(state, ATLITE_STATE_WORDS, out, 0, &moves, &refusals) == ATLITE_NEITHER);
    memcpy(state + 2, "sam", 4);
    EXPECT(atlite_run(state, ATLITE_STATE_WORDS, out, 0, &moves, &refusals) == ATLITE_DONE);
    EXPECT(read_text("(get null a)\n", table, ATLITE_TABLE_WORDS) == ATLITE_DONE);
    memcpy(table + 3, "if", 3);
    EXPECT(atlite_print(table, ATLITE_TABLE_WORDS, out, sizeof out, &bytes) == ATLITE_NEITHER);
    memcpy(table + 3, "iff", 4);
    EXPECT(atlite_print(table, ATLITE_TABLE_WORDS, out, sizeof out, &bytes) == ATLITE_DONE);
    EXPECT(bytes == 15 && memcmp(out, "(get null iff)\n", 15) == 0);
}

#define CUTS "(method cut (l) l) (method cut (l w) (plus l w))"

/* The header of a method: two bits, its name, the number of its parameters and three places for them, an empty one having 127. */
static uint32_t header(uint32_t name, uint32_t count, uint32_t first, uint32_t second)
{
    return (uint32_t)3 << 30 | (uint32_t)127 << 23 | second << 16 | first << 9 | count << 7 | name;
}

/* Two methods of one name, found by the number of arguments. */
static void naming(void)
{
    static const struct {
        const char *text;
        const char *listing;
    } called[] = {
        {"(call (object " CUTS ") cut 4)\n", "(actor 0 2 1 0 4)\n(object 0 m 0 " CUTS ")\n"},
        {"(call (object " CUTS ") cut 4 5)\n", "(actor 0 3 1 0 9)\n(object 0 m 0 " CUTS ")\n"},
        {"(send (isolate " CUTS ") cut 4)\n", "(actor 0 4 1 0 4)\n(isolate 0 m 0 " CUTS ")\n"},
        {"(send (isolate " CUTS ") cut 4 5)\n", "(actor 0 5 1 0 9)\n(isolate 0 m 0 " CUTS ")\n"},
    };
    for (size_t i = 0; i < sizeof called / sizeof called[0]; i += 1) {
        uint32_t *state = begin(called[i].text);
        if (until_refused(state, 0) != ATLITE_NOTHING || !lists(state, called[i].listing)) {
            printf("check.c: another end than that of %s\n", called[i].text);
            failures += 1;
        }
    }
}

/* Words in which two methods have both alike are none. A state's expression begins with word 272, a table's first line with word 256. */
static void namesakes(void)
{
    size_t moves, refusals, bytes;
    uint8_t out[100];
    uint32_t *state = begin("(object (method m (x) 1) (method m (x y) 2))\n");
    EXPECT(state[275] == header(8, 2, 9, 10));
    state[275] = header(8, 1, 10, 127);
    EXPECT(atlite_run(state, ATLITE_STATE_WORDS, out, 0, &moves, &refusals) == ATLITE_NEITHER);
    state[275] = header(8, 0, 127, 127);
    EXPECT(atlite_run(state, ATLITE_STATE_WORDS, out, 0, &moves, &refusals) == ATLITE_DONE);

    static const char *const text = "(object (method m (x) 1) (method m () 2) (method y (x) 3))\n";
    uint32_t *table = lend(4 * ATLITE_TABLE_WORDS, 0);
    EXPECT(read_text("(object (method m (x) 1) (method m (x y) 2) (method y (x) 3))\n", table, ATLITE_TABLE_WORDS) == ATLITE_DONE);
    EXPECT(table[259] == header(8, 2, 9, 10));
    table[259] = header(8, 1, 9, 127);
    EXPECT(atlite_print(table, ATLITE_TABLE_WORDS, out, sizeof out, &bytes) == ATLITE_NEITHER);
    table[259] = header(8, 0, 127, 127);
    EXPECT(atlite_print(table, ATLITE_TABLE_WORDS, out, sizeof out, &bytes) == ATLITE_DONE);
    EXPECT(bytes == strlen(text) && memcmp(out, text, bytes) == 0);
}

static void running(void)
{
    size_t moves = 77, refusals = 88;
    uint32_t *words = lend(4 * ATLITE_STATE_WORDS, 0x66);
    const uint8_t *entries = shut("\0\1\1\4\377", 5);
    EXPECT(atlite_run(words, ATLITE_STATE_WORDS - 1, entries, 5, &moves, &refusals) == ATLITE_SHORT);
    EXPECT(atlite_run(words, ATLITE_STATE_WORDS, entries, 5, &moves, &refusals) == ATLITE_NEITHER);
    EXPECT(all(words, 4 * ATLITE_STATE_WORDS, 0x66) && moves == 77 && refusals == 88);

    uint32_t *state = begin("(actor (field a 1))\n");
    EXPECT(atlite_run(state, ATLITE_STATE_WORDS, entries, 0, &moves, &refusals) == ATLITE_DONE && moves == 0 && refusals == 0);
    EXPECT(lists(state, "(actor 0 0 0 0 (actor (field a 1)))\n"));
    EXPECT(atlite_run(state, ATLITE_STATE_WORDS, entries, 5, &moves, &refusals) == ATLITE_DONE && moves == 3 && refusals == 2);
    EXPECT(lists(state, "(actor 0 1 0 0 (ref 1 m 0))\n(actor 1 2 1 0 (ref 1 m 0))\n(object 1 m 0 (field a 1))\n"));

    /* words behind the state stay */
    uint32_t *more = lend(4 * (ATLITE_STATE_WORDS + 3), 0x44);
    memcpy(more, begin("(plus 2 3)\n"), 4 * ATLITE_STATE_WORDS);
    EXPECT(atlite_run(more, ATLITE_STATE_WORDS + 3, entries, 1, &moves, &refusals) == ATLITE_DONE && moves == 1);
    EXPECT(all(more + ATLITE_STATE_WORDS, 4 * 3, 0x44));
    EXPECT(lists(more, "(actor 0 1 0 0 5)\n"));

    /* one run and many moves come to the same */
    const char *script = "(def o (object (field n 0) (method up (k) (seq (set this n (plus (get this n) k)) (send this up 1)))))\n(call o up 1)\n";
    uint32_t *once = begin(script);
    uint32_t *often = begin(script);
    const uint8_t *zeros = lend(500, 0);
    size_t made = 0;
    for (int i = 0; i < 500; i += 1) {
        uint32_t kind, other;
        made += atlite_move(often, ATLITE_STATE_WORDS, 0, &kind, &other) == ATLITE_DONE;
    }
    EXPECT(atlite_run(once, ATLITE_STATE_WORDS, zeros, 500, &moves, &refusals) == ATLITE_DONE);
    EXPECT(moves == made && moves + refusals == 500 && made > 400);
    EXPECT(memcmp(once, often, 4 * ATLITE_STATE_WORDS) == 0);
}

static void listing(void)
{
    size_t bytes = 77;
    uint8_t *out = lend(100, 0x55);
    uint32_t *state = begin("null\n");
    EXPECT(atlite_list(state, ATLITE_STATE_WORDS - 1, out, 100, &bytes) == ATLITE_SHORT);
    EXPECT(atlite_list(state, ATLITE_STATE_WORDS, out, 0, &bytes) == ATLITE_SHORT);
    state[ATLITE_STATE_WORDS - 1] = 1;
    EXPECT(atlite_list(state, ATLITE_STATE_WORDS, out, 100, &bytes) == ATLITE_NEITHER);
    EXPECT(all(out, 100, 0x55) && bytes == 77);
    state[ATLITE_STATE_WORDS - 1] = 0;
    EXPECT(atlite_list(state, ATLITE_STATE_WORDS, out, 100, &bytes) == ATLITE_DONE);
    EXPECT(bytes == 21 && memcmp(out, "(actor 0 0 0 0 null)\n", 21) == 0 && all(out + 21, 79, 0x55));
}

int main(void)
{
    reading();
    printing();
    loading();
    moving();
    choosing();
    reserved();
    naming();
    namesakes();
    running();
    listing();
    if (failures == 0) {
        printf("check: all as it should be\n");
    }
    return failures != 0;
}
