#include "parts.h"

#include <string.h>

void seal_image(struct bytes *image)
{
    for (size_t at = 0; at + PLAIN_BLOCK_BYTES <= image->n; at += PLAIN_BLOCK_BYTES) {
        uint64_t sum = 0;
        for (uint64_t i = 0; i < 510; i++)
            sum += (i + 1) * image->at[at + i];
        set_number(image->at + at + 510, 2, sum % 65521);
    }
}

static uint8_t *pick_block(struct dice *d, struct bytes *image)
{
    return image->at + dice_below(d, image->n / PLAIN_BLOCK_BYTES) * PLAIN_BLOCK_BYTES;
}

/* The row in slot k, counted through the blocks. */
static uint8_t *slot(struct bytes *image, size_t k)
{
    return image->at + (1 + k / PLAIN_BLOCK_ROWS) * PLAIN_BLOCK_BYTES + 14 + k % PLAIN_BLOCK_ROWS * PLAIN_ROW_BYTES;
}

static size_t blocks_for(uint64_t rows)
{
    return 1 + (size_t)(rows + PLAIN_BLOCK_ROWS - 1) / PLAIN_BLOCK_ROWS;
}

/* The version of an image without the times of sides that names so many rows. */
static uint64_t version_for(uint64_t rows)
{
    return rows <= PLAIN_ROWS_OF_VERSION_1 ? 1 : 2;
}

static void set_versions(struct bytes *image, uint64_t version)
{
    for (size_t at = 0; at < image->n; at += PLAIN_BLOCK_BYTES)
        set_number(image->at + at + 4, 2, version);
}

static bool is_timed(const struct bytes *image)
{
    return get_number(image->at + 4, 2) == 3;
}

/* The version that an image has once it names so many rows. */
static uint64_t version_like(const struct bytes *image, uint64_t rows)
{
    return is_timed(image) ? 3 : version_for(rows);
}

void age_image(struct bytes *image)
{
    uint64_t rows = get_number(image->at + 26, 2);
    for (size_t k = 0; k < rows; k++)
        memset(slot(image, k) + ROW_BID_TIME, 0, ROW_TAIL - ROW_BID_TIME);
    set_versions(image, version_for(rows));
    seal_image(image);
}

void make_image(struct dice *d, struct bytes *image)
{
    uint8_t table[PLAIN_TABLE_BYTES];
    struct plain_reader r;
    make_reader(d, false, &r, table);
    plain_save(&r, table, sizeof table, image->at, image->room, &image->n);
    if (dice_chance(d, 50))
        age_image(image);
}

/* Gives an image so many blocks, if there is room; new ones are all zero. */
static void set_blocks(struct bytes *image, size_t blocks)
{
    size_t n = blocks * PLAIN_BLOCK_BYTES;
    if (n > image->room)
        return;
    if (n > image->n)
        memset(image->at + image->n, 0, n - image->n);
    image->n = n;
}

static void damage_image_length(struct dice *d, enum image_damage kind,
                                struct bytes *image)
{
    if (kind == IMAGE_EMPTY) {
        image->n = 0;
    } else if (kind == IMAGE_PART) {
        image->n -= dice_between(d, 1, 511);
    } else {
        set_blocks(image, PLAIN_MAX_BLOCKS + 1);
    }
}

/* Another next number in one block, or in all. */
static void damage_next(struct dice *d, enum image_damage kind,
                        struct bytes *image)
{
    uint64_t bad = dice_chance(d, 50) ? 0 : PLAIN_MAX_NUMBER + 1 + dice_below(d, 9);
    if (kind == IMAGE_NEXT_DIFFERS) {
        uint8_t *block = pick_block(d, image);
        set_number(block + 6, 8, get_number(block + 6, 8) % PLAIN_MAX_NUMBER + 1);
        return;
    }
    for (size_t at = 0; at < image->n; at += PLAIN_BLOCK_BYTES)
        set_number(image->at + at + 6, 8, bad);
}

static void damage_head(struct dice *d, enum image_damage kind,
                        struct bytes *image)
{
    size_t at = kind == IMAGE_NUMBER ? 0 : 2;
    uint8_t *block = pick_block(d, image);
    if (dice_chance(d, 50))
        set_number(block + at, 2, get_number(block + at, 2) + 1);
    else
        set_other(d, &block[at + dice_below(d, 2)]);
}

/* Numbers and counts of all blocks made right for the image's length, with the next
 * number of block 0. */
static void number_blocks(struct bytes *image)
{
    size_t count = image->n / PLAIN_BLOCK_BYTES;
    for (size_t k = 0; k < count; k++) {
        uint8_t *block = image->at + k * PLAIN_BLOCK_BYTES;
        set_number(block, 2, k);
        set_number(block + 2, 2, count);
        memmove(block + 6, image->at + 6, 8);
    }
}

static void damage_blocks(struct dice *d, enum image_damage kind,
                          struct bytes *image)
{
    uint8_t copy[PLAIN_BLOCK_BYTES];
    uint8_t *a = pick_block(d, image), *b = pick_block(d, image);
    if (kind == IMAGE_BLOCKS_SWAPPED) {
        memcpy(copy, a, sizeof copy);
        memmove(a, b, sizeof copy);
        memcpy(b, copy, sizeof copy);
        return;
    }
    memcpy(copy, image->at, sizeof copy);
    memset(copy + 14, 0, sizeof copy - 14);
    if (kind == IMAGE_BLOCK_DROPPED)
        image->n -= PLAIN_BLOCK_BYTES;
    else
        put_bytes(image, copy, sizeof copy);
    if (dice_chance(d, 70))
        number_blocks(image);
}

/* Versions. */

/* A version from 0 to 4, or any other, in all blocks or in one. */
static void change_version(struct dice *d, struct bytes *image)
{
    uint64_t version = dice_chance(d, 80) ? dice_below(d, 5) : dice_below(d, 1 << 16);
    if (dice_chance(d, 60))
        set_versions(image, version);
    else
        set_number(pick_block(d, image) + 4, 2, version);
}

/* The version of the other sort, in all blocks or in one. */
static void relabel(struct dice *d, struct bytes *image)
{
    uint64_t version = is_timed(image) ? version_for(get_number(image->at + 26, 2)) : 3;
    if (dice_chance(d, 70))
        set_versions(image, version);
    else
        set_number(pick_block(d, image) + 4, 2, version);
}

/* Blocks are cut off or added; the version is that of the rows named or of as many
 * as the blocks have room for, or stays. */
static void resize(struct dice *d, struct bytes *image)
{
    static const size_t counts[] = {1 + PLAIN_ROWS_OF_VERSION_1 / PLAIN_BLOCK_ROWS,
                                    2 + PLAIN_ROWS_OF_VERSION_1 / PLAIN_BLOCK_ROWS,
                                    PLAIN_MAX_BLOCKS - 1, PLAIN_MAX_BLOCKS, PLAIN_MAX_BLOCKS + 1};
    size_t count = counts[dice_below(d, sizeof counts / sizeof *counts)];
    set_blocks(image, count);
    number_blocks(image);
    if (dice_chance(d, 40))
        set_versions(image, version_like(image, get_number(image->at + 26, 2)));
    else if (dice_chance(d, 50))
        set_versions(image, version_like(image, (count - 1) * PLAIN_BLOCK_ROWS));
}

/* Other rows are named; the version is theirs, or stays. */
static void name_rows(struct dice *d, struct bytes *image)
{
    static const uint16_t edges[] = {0, PLAIN_ROWS_OF_VERSION_1, PLAIN_ROWS_OF_VERSION_1 + 1, PLAIN_MAX_ROWS,
                                     PLAIN_MAX_ROWS + 1, UINT16_MAX};
    uint64_t rows = dice_below(d, 2 * PLAIN_MAX_ROWS);
    if (dice_chance(d, 60))
        rows = edges[dice_below(d, sizeof edges / sizeof *edges)];
    set_number(image->at + 26, 2, rows);
    if (dice_chance(d, 50))
        set_versions(image, version_like(image, rows));
}

static void damage_version(struct dice *d, enum image_damage kind,
                           struct bytes *image)
{
    if (kind == IMAGE_VERSION)
        change_version(d, image);
    else if (kind == IMAGE_RELABELLED)
        relabel(d, image);
    else if (kind == IMAGE_RESIZED)
        resize(d, image);
    else
        name_rows(d, image);
}

static void damage_summary(struct dice *d, enum image_damage kind,
                           struct bytes *image)
{
    uint8_t *block = image->at;
    switch (kind) {
    case IMAGE_KNOWN:
        block[24] = (uint8_t)dice_between(d, 2, 255);
        break;
    case IMAGE_EVENT:
        block[25] = (uint8_t)(dice_chance(d, 50) ? dice_between(d, 'a', 255) : 'T');
        break;
    case IMAGE_ROWS:
        set_number(block + 26, 2, dice_chance(d, 70) ? get_number(block + 26, 2) + 1 - 2 * dice_below(d, 2)
                                              : dice_next(d));
        break;
    case IMAGE_LIVE:
        set_number(block + 28, 8, PLAIN_MAX_NUMBER + 1 +
                               pick_number(d, UINT64_MAX - PLAIN_MAX_NUMBER - 1));
        break;
    case IMAGE_PADDING:
        set_other(d, &block[dice_between(d, 36, 509)]);
        break;
    default: /* unknown, yet with something else than a fresh reader has */
        block[24] = 0;
        if (dice_chance(d, 50))
            memset(block + 14, ' ', 10);
        break;
    }
}

static void damage_rows(struct dice *d, enum image_damage kind,
                        struct bytes *image)
{
    size_t rows = (size_t)get_number(image->at + 26, 2);
    uint8_t *row;
    if (rows == 0 || blocks_for(rows) > image->n / PLAIN_BLOCK_BYTES)
        return;
    row = slot(image, dice_below(d, rows));
    if (kind == IMAGE_ROW) {
        break_row(d, row);
    } else if (kind == IMAGE_TIME) {
        break_times(d, is_timed(image), row);
    } else if (kind == IMAGE_ID_TWICE) {
        memmove(row, slot(image, dice_below(d, rows)), 4);
    } else if (rows % PLAIN_BLOCK_ROWS != 0) {
        row = slot(image, dice_between(d, rows, (blocks_for(rows) - 1) * PLAIN_BLOCK_ROWS - 1));
        set_between(d, &row[dice_below(d, PLAIN_ROW_BYTES)], 1, 255);
    }
}

static void damage_once(struct dice *d, enum image_damage kind,
                        struct bytes *image)
{
    uint8_t *block = pick_block(d, image);
    if (kind <= IMAGE_LONG)
        damage_image_length(d, kind, image);
    else if (kind <= IMAGE_CHECK)
        set_other(d, &block[dice_between(d, 510, 511)]);
    else if (kind <= IMAGE_COUNT)
        damage_head(d, kind, image);
    else if (kind <= IMAGE_NEXT_DIFFERS)
        damage_next(d, kind, image);
    else if (kind <= IMAGE_BLOCKS_SWAPPED)
        damage_blocks(d, kind, image);
    else if (kind <= IMAGE_NAMED)
        damage_version(d, kind, image);
    else if (kind <= IMAGE_UNKNOWN_SESSION)
        damage_summary(d, kind, image);
    else if (kind <= IMAGE_SLOT)
        damage_rows(d, kind, image);
    else
        set_other(d, &image->at[dice_below(d, image->n)]);
}

void damage_image(struct dice *d, enum image_damage kind, struct bytes *image)
{
    unsigned times = kind == IMAGE_SEVERAL ? 3 : 1;
    bool spoil_check = kind == IMAGE_SEVERAL && dice_chance(d, 30);
    for (unsigned i = 0; i < times && image->n >= PLAIN_BLOCK_BYTES; i++)
        damage_once(d, kind == IMAGE_SEVERAL
                           ? (enum image_damage)dice_between(d, IMAGE_NUMBER, IMAGE_ANY_BYTE)
                           : kind, image);
    if (kind != IMAGE_CHECK)
        seal_image(image);
    if (spoil_check && image->n != 0)
        damage_once(d, IMAGE_CHECK, image);
}
