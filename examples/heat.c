/* A heat at the start gate: its orders go into the queue as they are thought of and come out as they are due.
 * Built and run as README.md says; examples/heat does the same from Rust and prints the same text. */
#include "gorgalhut.h"

#include <stdio.h>

/* One link is enough for a heat: 16 orders. */
static uint64_t array[GORGALHUT_ARRAY_WORDS_1];
static uint64_t work[GORGALHUT_WORK_WORDS_1];

struct order {
    uint32_t tick; /* 0.1 ms each */
    uint8_t door;
    uint32_t command;
};

static const struct order heat[] = {
    {30000, GORGALHUT_LEFT, 3},  {30000, GORGALHUT_RIGHT, 3}, {30000, GORGALHUT_BOTH, 2}, {10000, GORGALHUT_BOTH, 1},
    {20000, GORGALHUT_BOTH, 1},  {0, GORGALHUT_BOTH, 5},      {29500, GORGALHUT_BOTH, 6}, {45000, GORGALHUT_RIGHT, 4},
    {45000, GORGALHUT_LEFT, 4},  {60000, GORGALHUT_BOTH, 5},  {29999, 3, 3},
};

static const char *const doors[] = {"both", "left", "right"};
static const char *const commands[] = {"", "lamp", "horn", "open", "shut", "beam off", "beam on"};

struct tally {
    uint64_t inserts, takes, steps, packings;
};

static void add(struct tally *tally, enum gorgalhut_call call, uint8_t answer, uint64_t steps, bool packed) {
    gorgalhut_tally_add(&tally->inserts, &tally->takes, &tally->steps, &tally->packings, (uint8_t)call, answer, steps,
                        packed);
}

int main(void) {
    struct tally tally = {0, 0, 0, 0};
    uint64_t word, steps;
    bool packed;
    if (gorgalhut_setup(array, GORGALHUT_ARRAY_WORDS_1, 1, &word, &steps) != GORGALHUT_DONE) {
        return 1;
    }
    for (size_t i = 0; i < sizeof heat / sizeof heat[0]; i++) {
        uint64_t entry = gorgalhut_entry(heat[i].tick, heat[i].door, heat[i].command);
        uint8_t answer = gorgalhut_insert(array, GORGALHUT_ARRAY_WORDS_1, work, GORGALHUT_WORK_WORDS_1, entry, &word,
                                          &steps, &packed);
        add(&tally, GORGALHUT_INSERT, answer, steps, packed);
        if (answer != GORGALHUT_DONE) {
            printf("order for door %u refused with %u\n", (unsigned)heat[i].door, (unsigned)answer);
        }
    }
    if (gorgalhut_held(array, GORGALHUT_ARRAY_WORDS_1, &word, &steps) != GORGALHUT_DONE) {
        return 1;
    }
    printf("%u orders held\n", (unsigned)word);
    for (;;) {
        uint8_t answer = gorgalhut_take(array, GORGALHUT_ARRAY_WORDS_1, &word, &steps);
        add(&tally, GORGALHUT_TAKE, answer, steps, false);
        if (answer != GORGALHUT_DONE) {
            printf("take refused with %u\n", (unsigned)answer);
            break;
        }
        uint8_t frame[GORGALHUT_FRAME_BYTES];
        size_t written;
        if (gorgalhut_write_frame(GORGALHUT_INSERT, word, frame, sizeof frame, &written) != GORGALHUT_DONE) {
            return 1;
        }
        uint32_t tick = gorgalhut_entry_tick(word);
        printf("%.*s  %u.%04u s  %-5s  %s\n", (int)written, (const char *)frame, (unsigned)(tick / 10000),
               (unsigned)(tick % 10000), doors[gorgalhut_entry_door(word)], commands[gorgalhut_entry_command(word)]);
    }
    printf("inserts %u, takes %u, merge steps %u, packings %u\n", (unsigned)tally.inserts, (unsigned)tally.takes,
           (unsigned)tally.steps, (unsigned)tally.packings);
    return 0;
}
