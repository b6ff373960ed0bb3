#include "met_image.h"

#include "generate.h"
#include "oracle.h"

#include <string.h>

enum { AT_VERSION = 4, AT_BODY = 14, AT_ROWS = 26, BLOCKS_OF_1 = 1 + PLAIN_ROWS_OF_VERSION_1 / PLAIN_BLOCK_ROWS };

uint64_t met_version(const uint8_t *image)
{
    return nelqubat_get(image + AT_VERSION, 2);
}

uint64_t met_named(const uint8_t *image)
{
    return nelqubat_get(image + AT_ROWS, 2);
}

const uint8_t *met_image_row(const uint8_t *image, size_t k)
{
    return image + (1 + k / PLAIN_BLOCK_ROWS) * NELQUBAT_BLOCK_BYTES + AT_BODY +
           k % PLAIN_BLOCK_ROWS * NELQUBAT_ROW_BYTES;
}

/* Which of versions 1 and 2 the rows that are named ask for, and which as many as the
 * blocks have room for. */
static uint64_t version_by_rows(const uint8_t *image)
{
    return met_named(image) <= PLAIN_ROWS_OF_VERSION_1 ? 1 : 2;
}

static uint64_t version_by_blocks(size_t n)
{
    return n / NELQUBAT_BLOCK_BYTES <= BLOCKS_OF_1 ? 1 : 2;
}

/* An image that was saved, restored or moved. */
static void count_taken(unsigned long *counts, const uint8_t *image)
{
    uint64_t rows_used = met_named(image);
    counts[MET_VERSION_1 + met_version(image) - 1]++;
    counts[MET_LAST_OF_1] += rows_used == PLAIN_ROWS_OF_VERSION_1;
    counts[MET_FIRST_OF_2] += rows_used == PLAIN_ROWS_OF_VERSION_1 + 1;
    counts[MET_MOST_ROWS] += rows_used == NELQUBAT_MAX_ROWS;
}

static unsigned restore_refusal(const uint8_t *image, size_t n)
{
    static uint8_t table[NELQUBAT_TABLE_BYTES], index[NELQUBAT_INDEX_BYTES];
    uint8_t handle[NELQUBAT_HANDLE_BYTES];
    return nelqubat_refusal(oracle_restore(handle, sizeof handle, table, sizeof table, index, sizeof index, image, n));
}

/* Makes the versions right, and tells whether 23 is not given then. */
static bool is_mended(const uint8_t *image, size_t n)
{
    static uint8_t mended[NELQUBAT_IMAGE_BYTES];
    struct bytes sealed = {mended, n, sizeof mended};
    memcpy(mended, image, n);
    for (size_t at = 0; at < n; at += NELQUBAT_BLOCK_BYTES)
        nelqubat_set(mended + at + AT_VERSION, 2, version_by_rows(image));
    seal_image(&sealed);
    return restore_refusal(mended, n) != NELQUBAT_REFUSED_HEAD;
}

/* How many blocks have this version. */
static size_t blocks_with(const uint8_t *image, size_t n, uint64_t version)
{
    size_t count = 0;
    for (size_t at = 0; at < n; at += NELQUBAT_BLOCK_BYTES)
        count += met_version(image + at) == version;
    return count;
}

/* Any version in the image that is not this one, or this one where there is no other. */
static uint64_t version_beside(const uint8_t *image, size_t n, uint64_t right)
{
    uint64_t found = right;
    for (size_t at = 0; at < n; at += NELQUBAT_BLOCK_BYTES)
        if (met_version(image + at) != right)
            found = met_version(image + at);
    return found;
}

/* An image that a restore refused with 23: which version stands where another should, if
 * all else in the heads is right. */
static void count_version(struct met *m, const uint8_t *image, size_t n)
{
    uint64_t right = met_version(image) == PLAIN_VERSION_TIMED ? PLAIN_VERSION_TIMED : version_by_rows(image);
    uint64_t found = version_beside(image, n, right);
    size_t blocks = n / NELQUBAT_BLOCK_BYTES, wrong = blocks - blocks_with(image, n, right);
    if (wrong == 0 || !is_mended(image, n))
        return;
    m->versions[found < MET_VERSIONS - 1 ? found : MET_VERSIONS - 1]++;
    m->versions_in[wrong == blocks ? 0 : 1]++;
    m->named[0] += wrong == blocks && blocks_with(image, n, version_by_blocks(n)) == blocks;
}

/* Rows that are named but do not fit the count. */
static void count_named(struct met *m, const uint8_t *image, size_t n)
{
    bool is_other = version_by_rows(image) != version_by_blocks(n);
    bool is_timed = met_version(image) == PLAIN_VERSION_TIMED;
    m->named[1] += is_other && !is_timed;
    m->named[2] += met_named(image) > NELQUBAT_MAX_ROWS;
    m->named[3] += is_other && is_timed;
}

static void count_restored(struct met *m, unsigned refusal, const uint8_t *image, size_t n)
{
    size_t blocks = n / NELQUBAT_BLOCK_BYTES;
    if (refusal == NELQUBAT_REFUSED_IMAGE_LENGTH)
        m->blocks[3] += n == NELQUBAT_IMAGE_BYTES + NELQUBAT_BLOCK_BYTES;
    if (refusal == NELQUBAT_REFUSED_HEAD)
        count_version(m, image, n);
    if (refusal == NELQUBAT_REFUSED_CONTENTS)
        count_named(m, image, n);
    if (refusal != NELQUBAT_DONE)
        return;
    count_taken(m->images[MET_RESTORED], image);
    m->blocks[0] += blocks == BLOCKS_OF_1;
    m->blocks[1] += blocks == BLOCKS_OF_1 + 1;
    m->blocks[2] += blocks == NELQUBAT_MAX_BLOCKS;
}

/* Moves. */

static enum met_wrong wrong_of(const uint8_t *image, size_t n)
{
    uint64_t version = met_version(image);
    if (blocks_with(image, n, version) != n / NELQUBAT_BLOCK_BYTES)
        return MET_MIXED;
    if (version == 0)
        return MET_WRONG_0;
    if (version > PLAIN_VERSION_TIMED)
        return MET_WRONG_OTHER;
    if (version == PLAIN_VERSION_TIMED || version == version_by_rows(image))
        return (enum met_wrong)(MET_WRONG_0 + version);
    return version == 1 ? MET_MISFIT_1 : MET_MISFIT_2;
}

/* An image that a move refused with 23: which version is at fault, if all else in the
 * heads is right, and what restoring answers. */
static void count_wrong(unsigned long *counts, uint64_t right, const uint8_t *image, size_t n)
{
    unsigned refusal;
    if (blocks_with(image, n, right) == n / NELQUBAT_BLOCK_BYTES || !is_mended(image, n))
        return;
    counts[wrong_of(image, n)]++;
    refusal = restore_refusal(image, n);
    counts[MET_ELSE_DONE] += refusal == NELQUBAT_DONE;
    counts[MET_ELSE_24] += refusal == NELQUBAT_REFUSED_CONTENTS;
}

static unsigned output_of(size_t room, size_t n)
{
    if (room < n)
        return room == 0 ? 0 : room == n - 1 ? 1 : 2;
    return room == n ? 3 : 4;
}

static void count_move(struct met *m, const struct call *c, unsigned refusal, const uint8_t *image,
                       const uint8_t *moved)
{
    bool is_back = c->op == CALL_BACK;
    if (refusal == NELQUBAT_REFUSED_HEAD)
        count_wrong(m->wrong[is_back], is_back ? PLAIN_VERSION_TIMED : version_by_rows(image), image, c->input_n);
    if (refusal == NELQUBAT_DONE || refusal == NELQUBAT_REFUSED_SHORT)
        m->outputs[is_back][output_of(c->memory_n, c->input_n)]++;
    if (refusal == NELQUBAT_DONE)
        count_taken(m->images[is_back ? MET_BACKED : MET_FORWARDED], is_back ? moved : image);
}

void met_count_image(struct met *m, const struct call *c, uint32_t answer, const struct world *plain,
                     const uint8_t *input)
{
    unsigned refusal = nelqubat_refusal(answer);
    const uint8_t *written = plain->image + GUARD_BYTES;
    if (c->op == CALL_SAVE && refusal == NELQUBAT_DONE)
        count_taken(m->images[MET_SAVED], written);
    if (c->op == CALL_RESTORE)
        count_restored(m, refusal, input, c->input_n);
    if (c->op == CALL_FORWARD || c->op == CALL_BACK)
        count_move(m, c, refusal, input, written);
}

void met_count_round(struct met *m, const uint8_t *image, bool is_same)
{
    m->rounds[is_same ? met_version(image) - 1 : MET_ROUNDS - 1]++;
}
