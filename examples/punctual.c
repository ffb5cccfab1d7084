/* How punctual the doors were on a day: the box noted when each door was due and when it acted.
 * Built and run as README.md says. */
#include "gorgalhut.h"

#include <inttypes.h>
#include <stdio.h>

/* The clock turns over between the second and the third opening of the left door. */
static const uint32_t due[] = {4294000000u, 4294100000u, 4294200000u, 4294200000u, 4294967295u, 300000u, 300000u};
static const uint32_t acting[] = {4294000007u, 4294099988u, 4294200001u, 4294200000u, 39u, 300000u, 299998u};
static const uint8_t doors[] = {GORGALHUT_LEFT, GORGALHUT_LEFT,  GORGALHUT_RIGHT, GORGALHUT_RIGHT,
                                GORGALHUT_LEFT, GORGALHUT_RIGHT, GORGALHUT_RIGHT};
static const size_t pairs = sizeof doors / sizeof doors[0];

static const char *const names[] = {"both", "left", "right"};

int main(void) {
    int64_t report[GORGALHUT_REPORT_NUMBERS];
    uint8_t answer = gorgalhut_lateness(due, pairs, acting, pairs, doors, pairs, report, GORGALHUT_REPORT_NUMBERS);
    if (answer != GORGALHUT_DONE) {
        printf("refused with %u\n", (unsigned)answer);
        return 1;
    }
    for (int door = GORGALHUT_BOTH; door <= GORGALHUT_RIGHT; door++) {
        const int64_t *row = &report[6 * door];
        printf("%-5s  %" PRId64 " openings, %" PRId64 " on the tick, from %" PRId64 " to %" PRId64 ", median %" PRId64 ", mean %" PRId64 "/%" PRId64 "\n",
               names[door], row[GORGALHUT_COUNT], row[GORGALHUT_EXACT], row[GORGALHUT_EARLIEST], row[GORGALHUT_LATEST],
               row[GORGALHUT_MEDIAN], row[GORGALHUT_SUM], row[GORGALHUT_COUNT]);
    }
    return 0;
}
