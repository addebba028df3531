/*
 * The calls of the AT-LITE engine, for C. Link with libatlite_calls.a; nothing else is needed.
 *
 * A script's text is read into a table, a table is loaded into a state, and actors of a state move. The caller lends all memory: a
 * table is ATLITE_TABLE_WORDS words, a state ATLITE_STATE_WORDS. Both are plain data, so they may be copied, stored, compared with memcmp
 * and sent elsewhere. Two states that are the same have the same words. Of those that were stored before `if` and `same` were words of the
 * language, the ones whose script has either as a name of its own are ATLITE_NEITHER now; all others are what they were. Every table and
 * state from before methods of one name were told apart by the number of their parameters is one still.
 *
 * Every call returns ATLITE_DONE or the number of the cause that refused it. Whatever stands in the lent memory, the answer is one that
 * the engine's contracts give: no call asks that words are a table or a state, it tests them and returns ATLITE_NEITHER. A refused call
 * has written nothing, neither to buffers nor to the places for numbers. Nothing is ever written past the words or the text that a
 * call is for.
 *
 * What C has to see to, as of any function:
 * - a pointer is not null, is aligned for its type and points to as many elements as the length beside it says, also if that is 0;
 * - what a call writes to does not overlap anything else that it is lent, and no other thread uses it during the call.
 *
 * The calls keep nothing between them, take no memory of their own but the stack (less than ATLITE_STACK_BYTES) and always return.
 */
#ifndef ATLITE_H
#define ATLITE_H

#include <stddef.h>
#include <stdint.h>

#ifdef __cplusplus
extern "C" {
#endif

/* Published lengths: a buffer that is longer may be lent, and only these first words are looked at or written. */
#define ATLITE_TABLE_WORDS 1280
#define ATLITE_STATE_WORDS 16384

/* The longest text of a script, so that a buffer of this size always takes what atlite_print writes. */
#define ATLITE_TEXT_BYTES 4096

/*
 * Enough stack for any call. A script that is read and run needs a tenth of it; the most that was measured, of words that hold the
 * deepest terms that a state's words have room for, is less than half. A stack's size is tested and not proved.
 */
#define ATLITE_STACK_BYTES 1048576

/* What a call returns. */
enum {
    ATLITE_DONE = 0,
    ATLITE_TEXT_LENGTH = 1,  /* the text is empty or has over 4,096 bytes */
    ATLITE_GRAMMAR = 2,      /* the text is not of the grammar */
    ATLITE_BINDING = 3,      /* a variable that nothing binds, or the binding rule broken */
    ATLITE_TWICE = 4,        /* one list has two fields or parameters of one name, or two methods of one name and equally many
                                parameters; or a future names both its parts alike */
    ATLITE_TOO_LARGE = 5,    /* too many brackets open together, different words or nodes */
    ATLITE_SHORT = 6,        /* a lent buffer is shorter than its published length, or than the text to write */
    ATLITE_NEITHER = 7,      /* the words are not those of a table that was read, or of a state */
    ATLITE_NO_ACTOR = 8,     /* there is no such actor */
    ATLITE_NOTHING = 9,      /* the actor's expression is a value and its inbox is empty */
    ATLITE_RECEIVER = 10,    /* get, set, call or send on null or a number, which take nothing but a listener */
    ATLITE_NOT_OWN = 11,     /* get, set or call on what another actor owns */
    ATLITE_NO_MEMBER = 12,   /* no such field, no method of the name for so many arguments, or an entity of another kind */
    ATLITE_RESOLVED = 13,    /* the future is resolved already */
    ATLITE_FUTURE = 14,      /* a future given as the value of a future */
    ATLITE_ARITHMETIC = 15,  /* plus or percent on what is no number, or a result over 16777215 */
    ATLITE_LIMIT = 16        /* a limit would be passed */
};

/* The kinds of a move. */
enum {
    ATLITE_INNER = 1,   /* inside the actor */
    ATLITE_TAKEN = 2,   /* a message was taken from the inbox */
    ATLITE_SENT = 3,    /* a message was sent, to the actor's own inbox or another's */
    ATLITE_CREATED = 4  /* an actor was created */
};

/* In the place for the other actor, where a move neither sent nor created. No actor has this number. */
#define ATLITE_NO_OTHER 255

/*
 * Reads the script in the first text_bytes bytes of text into the first ATLITE_TABLE_WORDS words of table.
 * Refusals: ATLITE_SHORT first, then 1 to 5, the lowest that applies.
 */
uint32_t atlite_read(const uint8_t *text, size_t text_bytes, uint32_t *table, size_t table_words);

/*
 * Writes the text of a table in front of text, and its length to *bytes. No zero byte is put behind it.
 * Refusals: ATLITE_SHORT (table), ATLITE_NEITHER, ATLITE_SHORT (text).
 */
uint32_t atlite_print(const uint32_t *table, size_t table_words, uint8_t *text, size_t text_bytes, size_t *bytes);

/*
 * Writes the state in which the script of a table begins to the first ATLITE_STATE_WORDS words of state; what they held does not
 * matter. Refusals: ATLITE_SHORT, ATLITE_NEITHER, and ATLITE_LIMIT where the script is too large once it is expanded.
 */
uint32_t atlite_load(const uint32_t *table, size_t table_words, uint32_t *state, size_t state_words);

/*
 * Lets an actor move once. The kind of the move goes to *kind, and the actor that it sent to or created to *other, or
 * ATLITE_NO_OTHER. Refusals: ATLITE_SHORT, ATLITE_NEITHER, then 8 to 16.
 */
uint32_t atlite_move(uint32_t *state, size_t state_words, uint8_t actor, uint32_t *kind, uint32_t *other);

/*
 * Lets actors move one after another, each entry being an actor's number (0 to 3, not the digit '0' to '3'). A move that is refused is
 * passed over. The number of moves made goes to *moves and the number of entries refused to *refusals; together they are entries_bytes.
 * Refusals of the whole call: ATLITE_SHORT, ATLITE_NEITHER.
 */
uint32_t atlite_run(uint32_t *state, size_t state_words, const uint8_t *entries, size_t entries_bytes, size_t *moves,
                    size_t *refusals);

/*
 * Writes the listing of a state in front of text, and its length to *bytes. No zero byte is put behind it.
 * Refusals: ATLITE_SHORT (state), ATLITE_NEITHER, ATLITE_SHORT (text).
 */
uint32_t atlite_list(const uint32_t *state, size_t state_words, uint8_t *text, size_t text_bytes, size_t *bytes);

#ifdef __cplusplus
}
#endif

#endif
