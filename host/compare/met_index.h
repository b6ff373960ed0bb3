/* What calls met of index memory: each sort of index by what a search came to,
 * where a search went astray, where new ids were entered, and wrong lengths. */
#ifndef MET_INDEX_H
#define MET_INDEX_H

#include "pair.h"

/* The plain reader's memory as a call finds it. `is_ours` says that our own calls
 * made the index, so that it is true. */
struct met_before met_look(const struct world *plain, bool is_ours);

/* Counts the plain reader's answer to a call that was made with this input. */
void met_count_index(struct met *m, const struct call *c, uint64_t answer, const struct met_before *before,
                     const struct world *plain, const uint8_t *input);

#endif
