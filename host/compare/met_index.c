#include "met_index.h"

#include "oracle.h"

#include <string.h>

enum { PACKET_LETTER = 3 };

static size_t row_named(const uint8_t *index, size_t place)
{
    return (size_t)nelqubat_get(index + 2 * place, 2);
}

static bool is_zero(const uint8_t *bytes, size_t n)
{
    for (size_t i = 0; i < n; i++)
        if (bytes[i] != 0)
            return false;
    return true;
}

/* The first fault among the places in use, or that there is none. */
static enum met_index fault_of(const uint8_t *table, const uint8_t *index, size_t rows)
{
    bool named[NELQUBAT_MAX_ROWS] = {false}, is_twice = false, is_unsorted = false;
    uint32_t before = 0;
    for (size_t place = 0; place < rows; place++) {
        size_t row = row_named(index, place);
        uint32_t id;
        if (row >= rows)
            return MET_PAST;
        id = nelqubat_row_id(nelqubat_row(table, row));
        is_twice |= named[row];
        is_unsorted |= id < before;
        named[row] = true;
        before = id;
    }
    if (is_twice)
        return is_zero(index, 2 * rows) ? MET_ZEROS : MET_TWICE;
    return is_unsorted ? MET_ORDER : MET_TRUE;
}

static enum met_index index_of(const uint8_t *table, const uint8_t *index, size_t rows)
{
    enum met_index fault;
    if (rows > NELQUBAT_MAX_ROWS)
        return MET_TRUE;
    fault = fault_of(table, index, rows);
    if (fault != MET_TRUE)
        return fault;
    return is_zero(index + 2 * rows, NELQUBAT_INDEX_BYTES - 2 * rows) ? MET_TRUE : MET_UNUSED;
}

struct met_before met_look(const struct world *plain, bool is_ours)
{
    const uint8_t *handle = plain->handle + GUARD_BYTES, *index = plain->index + GUARD_BYTES;
    struct met_before b = {.held = nelqubat_handle_held(handle), .rows = nelqubat_handle_rows(handle),
                           .index = MET_TRUE, .is_zero = is_zero(index, NELQUBAT_INDEX_BYTES)};
    if (!is_ours)
        b.index = index_of(plain->table + GUARD_BYTES, index, b.rows);
    return b;
}

/* Whether every memory but the index has its right length. */
static bool others_fit(const struct call *c)
{
    bool has_event = c->op == CALL_STEP;
    return c->handle_n == NELQUBAT_HANDLE_BYTES && c->table_n == NELQUBAT_TABLE_BYTES &&
           (!has_event || c->memory_n == NELQUBAT_RECORD_BYTES);
}

/* Whether 20 came from a search: the lengths are right, and the handle is one within
 * its limits, as its lines can be listed. */
static bool went_astray(const struct call *c, const struct world *plain)
{
    uint8_t none;
    return others_fit(c) && c->index_n == NELQUBAT_INDEX_BYTES &&
           oracle_line(plain->handle + GUARD_BYTES, NELQUBAT_HANDLE_BYTES, plain->table + GUARD_BYTES,
                       NELQUBAT_TABLE_BYTES, SIZE_MAX, &none, 0) == 0;
}

static void count_length(struct met *m, const struct call *c)
{
    static const unsigned calls[OPERATIONS] = {
        [CALL_START] = 1, [CALL_STEP] = 2, [CALL_RUN] = 3, [CALL_RESTORE] = 4, [CALL_FIND] = 5};
    unsigned call = calls[c->op];
    if (call == 0 || c->index_n == NELQUBAT_INDEX_BYTES || !others_fit(c))
        return;
    m->lengths[call - 1][c->index_n == 0 ? 0 : c->index_n < NELQUBAT_INDEX_BYTES ? 1 : 2]++;
}

/* Where the newest row was entered, into an index that was true. */
static void count_entered(struct met *m, const struct world *plain)
{
    size_t rows = nelqubat_handle_rows(plain->handle + GUARD_BYTES), place = 0;
    while (place < rows - 1 && row_named(plain->index + GUARD_BYTES, place) != rows - 1)
        place++;
    m->entered[rows == 1 ? 0 : place == 0 ? 1 : place < rows - 1 ? 2 : 3]++;
    m->entered[4] += rows == PLAIN_ROWS_OF_VERSION_1 + 1;
    m->entered[5] += rows == NELQUBAT_MAX_ROWS;
}

/* A message that a step told, or 13 to 16 by one whose packet it took. */
static void count_step(struct met *m, uint32_t answer, const struct met_before *before,
                       const struct world *plain)
{
    unsigned refusal = nelqubat_refusal(answer);
    uint8_t letter = nelqubat_record_letter(plain->small + GUARD_BYTES);
    bool is_new = nelqubat_handle_rows(plain->handle + GUARD_BYTES) != before->rows;
    if (refusal >= NELQUBAT_REFUSED_NO_ROW && nelqubat_taken(answer) != 0)
        m->searches[MET_NO_ROW + refusal - NELQUBAT_REFUSED_NO_ROW][before->index]++;
    if (nelqubat_kind(answer) != NELQUBAT_MESSAGE || letter == 'S' || letter == 'M')
        return;
    if (letter == 'm')
        m->searches[is_new ? MET_NEW : MET_KNOWN][before->index]++;
    else
        m->searches[letter == 'H' ? MET_ACTION : MET_QUOTE][before->index]++;
    if (is_new && before->index == MET_TRUE)
        count_entered(m, plain);
}

/* A search that went astray: for which letter, where its packet lay whole, and in
 * which call. */
static void count_astray(struct met *m, const struct call *c, uint64_t answer, size_t held,
                         const uint8_t *input)
{
    bool is_later = c->op == CALL_RUN && nelqubat_run_finished(answer) != 0;
    if (c->op == CALL_FIND) {
        m->astray[MET_ASTRAY_FIND]++;
    } else if (c->op == CALL_RUN) {
        m->astray[is_later ? MET_ASTRAY_LATER : held != 0 ? MET_ASTRAY_RUN_HELD : MET_ASTRAY_RUN]++;
    } else if (held != 0) {
        m->astray[MET_ASTRAY_HELD]++;
    } else {
        uint8_t letter = input[PACKET_LETTER];
        m->astray[letter == 'm' ? MET_ASTRAY_M : letter == 'H' ? MET_ASTRAY_H : MET_ASTRAY_QUOTE]++;
    }
}

void met_count_index(struct met *m, const struct call *c, uint64_t answer, const struct met_before *before,
                     const struct world *plain, const uint8_t *input)
{
    unsigned refusal = nelqubat_refusal((uint32_t)answer);
    bool searches = c->op == CALL_STEP || c->op == CALL_RUN || c->op == CALL_FIND;
    count_length(m, c);
    if (searches && refusal == NELQUBAT_REFUSED_MEMORY && went_astray(c, plain))
        count_astray(m, c, answer, before->held, input);
    if (c->op == CALL_STEP)
        count_step(m, (uint32_t)answer, before, plain);
    if (c->op == CALL_FIND && refusal == NELQUBAT_DONE)
        m->searches[nelqubat_found((uint32_t)answer) ? MET_FOUND : MET_NOT_FOUND][before->index]++;
    if (c->op == CALL_RESTORE && refusal == NELQUBAT_DONE)
        m->built[before->is_zero ? 0 : 1]++;
}
