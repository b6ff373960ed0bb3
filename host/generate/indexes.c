#include "parts.h"

#include <stdlib.h>
#include <string.h>

enum { PLACE_BYTES = 2 };

static uint8_t *place_at(uint8_t *index, size_t place)
{
    return index + place * PLACE_BYTES;
}

static int by_value(const void *a, const void *b)
{
    uint64_t first = *(const uint64_t *)a, second = *(const uint64_t *)b;
    return (first > second) - (first < second);
}

/* Sorts ids with the numbers of their rows behind them. */
void make_index(const uint8_t *table, uint32_t rows, uint8_t *index)
{
    uint64_t ids[PLAIN_MAX_ROWS];
    for (uint32_t row = 0; row < rows; row++)
        ids[row] = get_number(table + row * (size_t)PLAIN_ROW_BYTES, 4) << 16 | row;
    qsort(ids, rows, sizeof *ids, by_value);
    memset(index, 0, PLAIN_INDEX_BYTES);
    for (size_t place = 0; place < rows; place++)
        set_number(place_at(index, place), PLACE_BYTES, ids[place]);
}

/* A number of no row in use: the first, the first that no table has, or any. */
static uint64_t pick_past(struct dice *d, uint32_t rows)
{
    uint64_t far = dice_between(d, rows, UINT16_MAX);
    if (dice_chance(d, 40))
        return rows;
    return dice_chance(d, 30) ? PLAIN_MAX_ROWS : far;
}

static void swap_places(uint8_t *a, uint8_t *b)
{
    uint8_t kept[PLACE_BYTES];
    memcpy(kept, a, sizeof kept);
    memcpy(a, b, sizeof kept);
    memcpy(b, kept, sizeof kept);
}

/* Two places exchanged, or all of those in use turned around. */
static void spoil_order(struct dice *d, uint32_t rows, uint8_t *index)
{
    size_t one = dice_below(d, rows), other = dice_below(d, rows);
    if (dice_chance(d, 70)) {
        swap_places(place_at(index, one), place_at(index, other));
        return;
    }
    for (size_t place = 0; place < rows / 2; place++)
        swap_places(place_at(index, place), place_at(index, rows - 1 - place));
}

/* Every place in use names some row in use, or has any bytes. */
static void spoil_all(struct dice *d, uint32_t rows, uint8_t *index)
{
    bool in_use = dice_chance(d, 70);
    for (size_t place = 0; place < rows; place++)
        set_number(place_at(index, place), PLACE_BYTES, in_use ? dice_below(d, rows) : dice_below(d, 1 << 16));
}

void damage_index(struct dice *d, enum index_damage kind, uint32_t rows, uint8_t *index)
{
    uint8_t *one, *other;
    if (rows == 0 || rows > PLAIN_MAX_ROWS)
        return;
    one = place_at(index, dice_below(d, rows));
    other = place_at(index, dice_below(d, rows));
    switch (kind) {
    case INDEX_PAST:
        set_number(one, PLACE_BYTES, pick_past(d, rows));
        break;
    case INDEX_ORDER:
        spoil_order(d, rows, index);
        break;
    case INDEX_TWICE:
        memmove(one, other, PLACE_BYTES);
        break;
    case INDEX_ZEROS:
        memset(index, 0, PLAIN_INDEX_BYTES);
        break;
    case INDEX_UNUSED:
        dice_fill(d, place_at(index, rows), PLAIN_INDEX_BYTES - rows * (size_t)PLACE_BYTES);
        break;
    default:
        spoil_all(d, rows, index);
        break;
    }
}
