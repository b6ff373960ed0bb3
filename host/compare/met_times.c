#include "met_times.h"

#include "generate.h"
#include "met.h"
#include "met_image.h"
#include "oracle.h"

#include <string.h>

enum { SIDES = 2, TAIL = 122, TAIL_BYTES = 2 };

/* Where a row has the times of its bid and its ask. */
static const size_t places[SIDES] = {106, 114};

static bool is_seen(const uint8_t *row, size_t side)
{
    return row[NELQUBAT_ROW_SIDES] >> side & 1;
}

static uint64_t time_at(const uint8_t *row, size_t side)
{
    return nelqubat_get(row + places[side], 8);
}

static enum met_time time_of(const uint8_t *row, size_t side)
{
    uint64_t time = time_at(row, side);
    if (!is_seen(row, side))
        return MET_UNSEEN;
    if (time == 0)
        return MET_AT_ZERO;
    if (time == PLAIN_UNKNOWN_TIME)
        return MET_AT_UNKNOWN;
    return time == PLAIN_MAX_TIME ? MET_AT_LATEST : MET_AT_KNOWN;
}

bool met_knows_no_time(const uint8_t *image)
{
    for (size_t k = 0; k < met_named(image); k++)
        for (size_t side = 0; side < SIDES; side++)
            if (is_seen(met_image_row(image, k), side) &&
                time_of(met_image_row(image, k), side) != MET_AT_UNKNOWN)
                return false;
    return true;
}

/* The rows of an image that has times. */
static void count_rows(struct met *m, enum met_call call, const uint8_t *image)
{
    for (size_t k = 0; k < met_named(image); k++) {
        const uint8_t *row = met_image_row(image, k);
        m->bids[call][time_of(row, 0)]++;
        m->asks[call][time_of(row, 1)]++;
    }
}

/* Faults. */

static enum met_untimely fault_of(uint64_t time, bool timed, bool seen)
{
    uint64_t lacking = ~time;
    if (!timed)
        return seen ? MET_OLD_SEEN : MET_OLD_UNSEEN;
    if (!seen)
        return MET_TIME_UNSEEN;
    return (lacking & (lacking - 1)) == 0 ? MET_TIME_NEARLY : MET_TIME_PAST;
}

/* Makes bytes 106-123 of a row right, and notes what was wrong with them. */
static void mend_row(uint8_t *row, bool timed, bool *faults)
{
    for (size_t side = 0; side < SIDES; side++) {
        uint64_t time = time_at(row, side);
        bool seen = is_seen(row, side), free = timed && seen;
        if (time == 0 || (free && (time <= PLAIN_MAX_TIME || time == PLAIN_UNKNOWN_TIME)))
            continue;
        faults[fault_of(time, timed, seen)] = true;
        nelqubat_set(row + places[side], 8, 0);
    }
    for (size_t i = 0; i < TAIL_BYTES; i++) {
        if (row[TAIL + i] != 0)
            faults[(timed ? MET_TAIL_122 : MET_OLD_122) + i] = true;
        row[TAIL + i] = 0;
    }
}

/* A save that was refused with 24: 25 comes after it, where nothing else is wrong. */
static void mend_table(const struct world *plain, bool *faults, bool *alone)
{
    static uint8_t table[NELQUBAT_TABLE_BYTES];
    const uint8_t *handle = plain->handle + GUARD_BYTES;
    uint8_t none;
    memcpy(table, plain->table + GUARD_BYTES, sizeof table);
    for (size_t k = 0; k < nelqubat_handle_rows(handle); k++)
        mend_row(table + k * NELQUBAT_ROW_BYTES, true, faults);
    *alone = nelqubat_refusal(oracle_save(handle, NELQUBAT_HANDLE_BYTES, table, sizeof table, &none, 0)) ==
             NELQUBAT_REFUSED_SHORT;
}

/* An image that was refused with 24, for which the same holds of its own move. */
static void mend_image(const uint8_t *image, size_t n, bool *faults, bool *alone)
{
    static uint8_t mended[NELQUBAT_IMAGE_BYTES];
    struct bytes sealed = {mended, n, sizeof mended};
    bool timed = met_version(image) == PLAIN_VERSION_TIMED;
    size_t room = (n / NELQUBAT_BLOCK_BYTES - 1) * PLAIN_BLOCK_ROWS;
    uint8_t none;
    memcpy(mended, image, n);
    for (size_t k = 0; k < met_named(image) && k < room; k++)
        mend_row(mended + (met_image_row(image, k) - image), timed, faults);
    seal_image(&sealed);
    *alone = nelqubat_refusal((timed ? oracle_back : oracle_forward)(mended, n, &none, 0)) == NELQUBAT_REFUSED_SHORT;
}

static void count_untimely(struct met *m, enum met_call call, const struct call *c, const struct world *plain,
                           const uint8_t *input)
{
    bool faults[MET_UNTIMELY] = {false}, alone;
    if (c->op == CALL_SAVE)
        mend_table(plain, faults, &alone);
    else
        mend_image(input, c->input_n, faults, &alone);
    for (size_t i = 0; alone && i < MET_UNTIMELY; i++)
        m->untimely[call][i] += faults[i];
}

/* Steps. */

static const uint8_t *row_with(const struct world *plain, uint32_t id)
{
    const uint8_t *table = plain->table + GUARD_BYTES;
    return nelqubat_found_row(table, oracle_find(plain->handle + GUARD_BYTES, NELQUBAT_HANDLE_BYTES, table,
                                                 NELQUBAT_TABLE_BYTES, plain->index + GUARD_BYTES,
                                                 NELQUBAT_INDEX_BYTES, id));
}

void met_look_times(struct met_before *before, const struct world *plain, const struct call *c,
                    const uint8_t *piece, size_t n)
{
    enum { PACKET_LETTER = 2, MESSAGE_LETTER = 3, PACKET_ID = 14, PACKET_TRADABLE = 48, PACKET = 66 };
    const uint8_t *row;
    before->purges = false;
    if (c->op != CALL_STEP || before->held != 0 || n < PACKET || piece[PACKET_LETTER] != 'S' ||
        piece[MESSAGE_LETTER] != 'm' || piece[PACKET_TRADABLE] != 'N')
        return;
    row = row_with(plain, (uint32_t)nelqubat_get(piece + PACKET_ID, 4));
    if (row == NULL)
        return;
    before->purges = true;
    before->bid = time_of(row, 0);
    before->ask = time_of(row, 1);
}

void met_count_set(struct met *m, uint8_t letter, const uint8_t *row)
{
    for (size_t i = 0; i < MET_SIDES; i++) {
        size_t side = met_sides[i].place == NELQUBAT_RECORD_BID ? 0 : 1;
        if (met_sides[i].letter != letter)
            continue;
        m->set[i][time_of(row, side)]++;
        if (letter != 'q' && letter != 'Q')
            m->kept[1 - side][time_of(row, 1 - side)]++;
    }
}

void met_count_times(struct met *m, const struct call *c, uint32_t answer, const struct world *plain,
                     const uint8_t *input, const struct met_before *before)
{
    static const enum met_call calls[OPERATIONS] = {
        [CALL_SAVE] = MET_SAVED, [CALL_RESTORE] = MET_RESTORED, [CALL_FORWARD] = MET_FORWARDED,
        [CALL_BACK] = MET_BACKED};
    unsigned refusal = nelqubat_refusal(answer);
    bool has_image = c->op == CALL_SAVE || c->op == CALL_RESTORE || c->op == CALL_FORWARD || c->op == CALL_BACK;
    bool writes = c->op == CALL_SAVE || c->op == CALL_FORWARD;
    const uint8_t *image = writes ? plain->image + GUARD_BYTES : input;
    if (c->op == CALL_STEP && before->purges && nelqubat_kind(answer) == NELQUBAT_MESSAGE) {
        m->purged[0][before->bid]++;
        m->purged[1][before->ask]++;
    }
    if (has_image && refusal == NELQUBAT_REFUSED_CONTENTS)
        count_untimely(m, calls[c->op], c, plain, input);
    if (has_image && refusal == NELQUBAT_DONE && met_version(image) == PLAIN_VERSION_TIMED)
        count_rows(m, calls[c->op], image);
}
