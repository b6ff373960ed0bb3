/* What calls met of the times at which sides were set: in images that they took, in those
 * they refused for such times alone, by quotes and before purges. */
#ifndef MET_TIMES_H
#define MET_TIMES_H

#include "pair.h"

/* Adds what a step finds of the row that it is to purge, by a directory that lies whole in
 * its piece. */
void met_look_times(struct met_before *before, const struct world *plain, const struct call *c,
                    const uint8_t *piece, size_t n);

/* Counts the plain reader's answer to a call that was made with this input. */
void met_count_times(struct met *m, const struct call *c, uint32_t answer, const struct world *plain,
                     const uint8_t *input, const struct met_before *before);

/* Counts the row of a quote that was taken. */
void met_count_set(struct met *m, uint8_t letter, const uint8_t *row);

/* Whether the time of every seen side of an image is unknown. */
bool met_knows_no_time(const uint8_t *image);

#endif
