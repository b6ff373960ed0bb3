/* How often each call met each refusal and each kind of answer and message, quotes
 * each state of a row and each sort of price, lines of rows each sort of side, runs
 * each way to stop, searches each sort of index, images and moves each version and the
 * counts of rows and blocks at its ends, and sides each sort of time: a comparison that
 * never met one says nothing of it. */
#ifndef MET_H
#define MET_H

#include "pair.h"

/* The sides that quotes set: the letter, and where its record has the side. */
struct met_side {
    const char *name;
    uint8_t letter;
    size_t place;
};

extern const struct met_side met_sides[MET_SIDES];

/* Counts the plain reader's answer to a call that was made with this input, and
 * found its memory so. */
void met_count(struct met *m, const struct call *c, uint64_t answer,
               const struct world *plain, const uint8_t *input, const struct met_before *before);

/* Prints the counts, and names on standard error what was met although no call
 * may answer so, and where `all` is asked for, what was never met: false then. */
bool met_report(const struct met *m, bool all);

#endif
