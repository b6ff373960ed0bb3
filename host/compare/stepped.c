#include "stepped.h"

#include "nelqubat.h"

static uint64_t answer(unsigned refusal, unsigned why, uint64_t finished, uint64_t taken)
{
    return refusal | why << 8 | finished << 16 | taken << 32;
}

/* A step with no bytes changes nothing, and says whether the reader has ended or
 * refused, or is no reader. */
uint64_t stepped_run(const struct calls *f, uint8_t *handle, size_t handle_n,
                     uint8_t *table, size_t table_n,
                     uint8_t *index, size_t index_n,
                     const uint8_t *piece, size_t piece_n, uint32_t ceiling)
{
    uint8_t event[NELQUBAT_RECORD_BYTES];
    uint64_t finished = 0, taken = 0;
    for (;;) {
        uint32_t a = f->step(handle, handle_n, table, table_n, index, index_n, piece, 0,
                             event, sizeof event);
        if (nelqubat_refusal(a) != NELQUBAT_REFUSED_MEMORY && ceiling > NELQUBAT_MAX_PACKETS)
            return answer(NELQUBAT_REFUSED_CEILING, NELQUBAT_REFUSED, 0, 0);
        if (nelqubat_kind(a) == NELQUBAT_MORE && finished == ceiling)
            return answer(0, NELQUBAT_CEILING, finished, taken);
        if (nelqubat_kind(a) == NELQUBAT_MORE)
            a = f->step(handle, handle_n, table, table_n, index, index_n, piece + taken,
                        piece_n - (size_t)taken, event, sizeof event);
        taken += nelqubat_taken(a);
        if (!nelqubat_is_event(a))
            return answer(nelqubat_refusal(a), nelqubat_kind(a), finished, taken);
        finished++;
    }
}
