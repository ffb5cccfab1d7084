/* Gorgalhut: a priority queue of 64-bit entries in an array that the caller lends, its day tally, its frames, and a
 * report of how punctual the doors were.
 *
 * Every function is proved to answer as said here for every array, work area, line, list and number there can be: an
 * array of any words, damaged or too short, is refused by its number and left as it was. What no function can see is the
 * caller's to keep:
 *   - No pointer is null, not even of a length of 0.
 *   - Every pointer is aligned as its type is: a uint64_t at a multiple of 8.
 *   - A length counts what its pointer points to, words, ticks, numbers or bytes, never bytes of words, and all of them
 *     are the caller's.
 *   - No two things lent for writing in one call overlap each other or anything else lent for it: not array and work
 *     area, not word and steps, not a number inside the array.
 *   - No other thread uses the same memory during a call. The library itself keeps nothing: it has no memory of its
 *     own, so queues in different arrays never touch.
 * The book's words in the array are the library's to write; docs/BOOK.md says what stands in them.
 *
 * C99 and C++. Link with libgorgalhut.a: `tools/install` lays it and this header where pkg-config finds them.
 */
#ifndef GORGALHUT_H
#define GORGALHUT_H

#include <stdbool.h>
#include <stddef.h>
#include <stdint.h>

/* The version of header and library; CHANGELOG.md says what each changed. */
#define GORGALHUT_VERSION "0.4.0"
#define GORGALHUT_VERSION_MAJOR 0
#define GORGALHUT_VERSION_MINOR 4
#define GORGALHUT_VERSION_PATCH 0

#ifdef __cplusplus
extern "C" {
#endif

/* The number that every call answers with. Anything but 0 is a refusal, and a refusal changes nothing that was lent
 * except word, steps and packed, which become 0, and a report, as said there. */
enum gorgalhut_answer {
    GORGALHUT_DONE = 0,           /* done */
    GORGALHUT_NO_SUCH_LINKS = 1,  /* setup: links not 1 to 4 */
    GORGALHUT_ARRAY_SHORT = 2,    /* array shorter than 296 words, or than its links need */
    GORGALHUT_WORK_SHORT = 3,     /* insert: work area shorter than its links need */
    GORGALHUT_BOOK_BROKEN = 4,    /* the array's book breaks a book rule: no setup yet, or damaged */
    GORGALHUT_FULL = 5,           /* insert: as many entries held as its links can hold */
    GORGALHUT_NONE_HELD = 6,      /* take, look: no entry held */
    GORGALHUT_DOOR_ABOVE = 7,     /* insert, lateness: door above 2 */
    /* 8 is not used */
    GORGALHUT_ORDER_BROKEN = 9,   /* audit: book sound, entries out of order */
    GORGALHUT_NOT_A_FRAME = 10,   /* frames: not a frame, not an order's numbers, or too short a buffer;
                                   * lateness: lists of different lengths, or too short a report */
    /* 11 to 14 are not used yet */
    GORGALHUT_TOO_MANY_PAIRS = 15 /* lateness: more than 4096 pairs */
};

/* A call's number, for the tally and in frames. */
enum gorgalhut_call {
    GORGALHUT_SETUP = 0,
    GORGALHUT_INSERT = 1,
    GORGALHUT_TAKE = 2,
    GORGALHUT_LOOK = 3,
    GORGALHUT_HELD = 4,
    GORGALHUT_AUDIT = 5
};

/* The door of an entry. */
enum gorgalhut_door {
    GORGALHUT_BOTH = 0,
    GORGALHUT_LEFT = 1,
    GORGALHUT_RIGHT = 2
};

/* Words of an array, and words of a work area, which is also how many entries are held at most; for 1 to 4 links. */
#define GORGALHUT_ARRAY_WORDS_1 296
#define GORGALHUT_ARRAY_WORDS_2 536
#define GORGALHUT_ARRAY_WORDS_3 2628
#define GORGALHUT_ARRAY_WORDS_4 28436
#define GORGALHUT_WORK_WORDS_1 16
#define GORGALHUT_WORK_WORDS_2 96
#define GORGALHUT_WORK_WORDS_3 960
#define GORGALHUT_WORK_WORDS_4 17280

/* Bytes of the longest frame, without its line end, and of an answer line, with it. */
#define GORGALHUT_FRAME_BYTES 18
#define GORGALHUT_ANSWER_LINE_BYTES 27

/* An entry is one word: due tick in bits 32 to 63 (0.1 ms each), door in bits 24 to 31, command in bits 0 to 23 (of a
 * larger command its last 24 bits). Entries come out in the order of the whole word: tick, then door, then command. */
static inline uint64_t gorgalhut_entry(uint32_t tick, uint8_t door, uint32_t command) {
    return (uint64_t)tick << 32 | (uint64_t)door << 24 | (command & 0xFFFFFFu);
}

static inline uint32_t gorgalhut_entry_tick(uint64_t entry) {
    return (uint32_t)(entry >> 32);
}

static inline uint8_t gorgalhut_entry_door(uint64_t entry) {
    return (uint8_t)(entry >> 24);
}

static inline uint32_t gorgalhut_entry_command(uint64_t entry) {
    return (uint32_t)(entry & 0xFFFFFFu);
}

/* ---- the six calls: the answer's number comes back; *word and *steps (merge steps made) are always written.
 * Whatever stands in the array, if its book names 1 to 4 links, one take or look makes at most 16, 224, 2396 or 23500
 * merge steps, one insert at most 16, 352, 5712 or 138176, and every other call none. */

/* Makes an empty queue of so many links in the array, whatever stood there; answers 0, 1 or 2. */
uint8_t gorgalhut_setup(uint64_t *array, size_t array_words, uint64_t links, uint64_t *word, uint64_t *steps);

/* Puts an entry in; *packed says whether everything was packed anew; answers 0, 2, 3, 4, 5 or 7. What stands in
 * the work area need not be kept between calls, and is not cleared. */
uint8_t gorgalhut_insert(uint64_t *array, size_t array_words, uint64_t *work, size_t work_words, uint64_t entry,
                         uint64_t *word, uint64_t *steps, bool *packed);

/* Takes the smallest entry out: *word is the entry; answers 0, 2, 4 or 6. */
uint8_t gorgalhut_take(uint64_t *array, size_t array_words, uint64_t *word, uint64_t *steps);

/* Looks at the smallest entry and leaves it: *word is the entry; may move entries inside the array, as take does;
 * answers 0, 2, 4 or 6. */
uint8_t gorgalhut_look(uint64_t *array, size_t array_words, uint64_t *word, uint64_t *steps);

/* Says how many entries are held: *word is their number; answers 0, 2 or 4. */
uint8_t gorgalhut_held(const uint64_t *array, size_t array_words, uint64_t *word, uint64_t *steps);

/* Says whether every entry stands in order; answers 0, 2, 4 or 9. */
uint8_t gorgalhut_audit(const uint64_t *array, size_t array_words, uint64_t *word, uint64_t *steps);

/* Whether the array has a book that keeps every book rule (its length for the entries is not looked at). */
bool gorgalhut_book_sound(const uint64_t *array, size_t array_words);

/* ---- the day tally: four numbers, each from 0 on; one that would pass its largest value keeps that value */

/* Adds a call (gorgalhut_call) with its answer, its merge steps and whether it packed: an accepted insert counts in
 * *inserts, an accepted take in *takes; setup and refused calls add nothing. False, and nothing added, if call is
 * above 5, or answer is not 0 to 7, 9 or 10. */
bool gorgalhut_tally_add(uint64_t *inserts, uint64_t *takes, uint64_t *steps, uint64_t *packings, uint8_t call,
                         uint8_t answer, uint64_t call_steps, bool packed);

/* ---- frames: one order a line, in capital hexadecimal */

/* Reads a line without its line end: *kind is the order (gorgalhut_call), *value a setup's links or an insert's entry,
 * else 0; answers 0, or 10 with *kind and *value 0. An entry's door above 2 is read as it stands. */
uint8_t gorgalhut_read_frame(const uint8_t *line, size_t line_bytes, uint8_t *kind, uint64_t *value);

/* Writes an order's digits, without line end and without a 0 byte behind them: *written is how many; no byte behind
 * them changes. Answers 0, or 10 with *written 0 and nothing written: kind above 5, links above 255, a value other than
 * 0 where none belongs, or too short a buffer. */
uint8_t gorgalhut_write_frame(uint8_t kind, uint64_t value, uint8_t *out, size_t out_bytes, size_t *written);

/* Writes the line that answers a call, 27 bytes with its line end: answer, word, steps. Answers 0, or 10 with *written
 * 0 and nothing written: steps of more than 32 bits (no call has so many) or too short a buffer. */
uint8_t gorgalhut_answer_line(uint8_t answer, uint64_t word, uint64_t steps, uint8_t *out, size_t out_bytes,
                              size_t *written);

/* ---- lateness: how punctual the doors were, in whole ticks */

/* At most so many pairs a day. */
#define GORGALHUT_MOST_PAIRS 4096

/* A report has six numbers for each door: report[6 * door + GORGALHUT_MEDIAN] is the median of that door. */
#define GORGALHUT_REPORT_NUMBERS 18
enum gorgalhut_number {
    GORGALHUT_COUNT = 0,    /* pairs of this door */
    GORGALHUT_EARLIEST = 1, /* the smallest lateness */
    GORGALHUT_LATEST = 2,   /* the largest */
    GORGALHUT_SUM = 3,      /* of all; the mean is sum and count */
    GORGALHUT_EXACT = 4,    /* pairs with a lateness of 0 */
    GORGALHUT_MEDIAN = 5    /* the lower median: of n in order, number (n + 1) / 2 rounded down, counted from 1 */
};

/* Reports on pairs: pair i is due[i], the tick that an order was due at, acting[i], the tick that its door acted at, and
 * doors[i]. Lateness is acting less due around the clock of 2^32 ticks, from -2147483648 to 2147483647: early is below
 * 0, and exactly half the clock counts as early. A door without pairs has six zeros; "both" does not add to left and
 * right. Answers 0, or the first of these that applies: 10 if the three counts differ or report_numbers is below 18, and
 * then nothing is written; 15 for more than 4096 pairs; 7 for a door above 2. On 15 and 7 all eighteen numbers are 0.
 * Numbers behind the eighteenth, and the pairs, never change. No other memory is needed. */
uint8_t gorgalhut_lateness(const uint32_t *due, size_t due_count, const uint32_t *acting, size_t acting_count,
                           const uint8_t *doors, size_t door_count, int64_t *report, size_t report_numbers);

#ifdef __cplusplus
}
#endif

#endif
