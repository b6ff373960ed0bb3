/* A run made of steps, by the words of its request: what a run must answer and
 * leave, whoever makes the steps. Same arguments as the run, same answer. */
#ifndef STEPPED_H
#define STEPPED_H

#include "calls.h"

uint64_t stepped_run(const struct calls *f, uint8_t *handle, size_t handle_n,
                     uint8_t *table, size_t table_n,
                     uint8_t *index, size_t index_n,
                     const uint8_t *piece, size_t piece_n, uint32_t ceiling);

#endif
