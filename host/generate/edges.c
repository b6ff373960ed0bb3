#include "edges.h"

#include "nelqubat.h"

#include <string.h>

/* A place and the values on both sides of its limits. */
struct edge {
    uint8_t at, count;
    uint8_t values[8];
};

static void set_edge(struct dice *d, const struct edge *list, size_t n, uint8_t *bytes)
{
    const struct edge *e = &list[dice_below(d, n)];
    bytes[e->at] = e->values[dice_below(d, e->count)];
}

#define SET_EDGE(d, list, bytes) set_edge((d), (list), sizeof(list) / sizeof *(list), (bytes))

/* A number at its greatest, or one above. */
static void set_greatest(struct dice *d, uint8_t *at, size_t width, uint64_t greatest)
{
    nelqubat_set(at, width, greatest + dice_below(d, 2));
}

/* Over a row's first bytes, which are also those of a directory from its id. */
static const struct edge directory_edges[] = {
    {ROW_YEAR, 2, {99, 100}},
    {ROW_MONTH, 4, {0, 1, 12, 13}},
    {ROW_DAY, 4, {0, 1, 31, 32}},
    {ROW_STRIKE, 2, {0x7F, 0x80}},
    {ROW_SYMBOL, 4, {' ', '!', '~', 0x7F}},
    {ROW_SYMBOL + 7, 5, {0x1F, ' ', '!', '~', 0x7F}},
    {ROW_UNDERLYING, 4, {' ', '!', '~', 0x7F}},
    {ROW_UNDERLYING + 12, 5, {0x1F, ' ', '!', '~', 0x7F}},
};

/* The number of a login or an end of replay, in characters. */
static void set_digits(struct dice *d, uint8_t *at)
{
    static const char *const texts[] = {
        "       1000000000000", "       1000000000001", "1000000000000       ",
        "1000000000001       ", "      10000000000000", "10000000000000      ",
        "                   0", "0                   ", "                    ",
        "                  01", "01                  ", "00000000000000000001",
        "99999999999999999999", "                   1", "1                   ",
        "                 1 1", "1 1                 ", "                   :",
        "/                   "};
    memcpy(at, texts[dice_below(d, sizeof texts / sizeof *texts)], 20);
}

static void set_price(struct dice *d, uint8_t *at)
{
    at[0] = (uint8_t)dice_between(d, 0x7F, 0x80);
}

void edge_message(struct dice *d, uint8_t *bytes, size_t n)
{
    if (n >= 21 && bytes[0] == 'M')
        set_digits(d, bytes + 1);
    else if (n >= 63 && bytes[0] == 'm' && dice_chance(d, 80))
        SET_EDGE(d, directory_edges, bytes + 11);
    else if (n >= 56 && bytes[0] == 'Q' && dice_chance(d, 50))
        set_price(d, bytes + (dice_chance(d, 50) ? 20 : 40));
    else if (n >= 36 && (bytes[0] == 'B' || bytes[0] == 'A') && dice_chance(d, 50))
        set_price(d, bytes + 20);
    else if (n >= 11)
        set_greatest(d, bytes + 3, 8, PLAIN_MAX_TIME);
}

/* The packet's length made one more or less, or the least or greatest. */
static void edge_length(struct dice *d, uint8_t *packet)
{
    uint64_t length = nelqubat_get(packet, 2);
    const uint64_t lengths[] = {0, 1, 256, 257, length - 1, length + 1};
    nelqubat_set(packet, 2, lengths[dice_below(d, 6)]);
}

void edge_session(struct dice *d, struct bytes *session)
{
    size_t wanted = dice_chance(d, 10) ? 0 : dice_below(d, session->n + 1), at = 0, end = 0;
    while (at + 2 <= session->n) {
        end = at + 2 + (size_t)nelqubat_get(session->at + at, 2);
        if (end > wanted || end > session->n)
            break;
        at = end;
    }
    if (at + 3 > session->n || end > session->n)
        return;
    if (dice_chance(d, 10))
        edge_length(d, session->at + at);
    else if (session->at[at + 2] == 'A' && end - at == 33)
        set_digits(d, session->at + at + 13);
    else if (session->at[at + 2] == 'S')
        edge_message(d, session->at + at + 3, end - at - 3);
}

/* A number of a record's sides, often the price of one that its letter sets. */
static size_t side_number(struct dice *d, const uint8_t *record)
{
    bool is_bid = nelqubat_record_quotes_bid(record);
    if (is_bid && nelqubat_record_quotes_ask(record))
        is_bid = dice_chance(d, 50);
    if (dice_chance(d, 50))
        return (is_bid ? NELQUBAT_RECORD_BID : NELQUBAT_RECORD_ASK) + 4;
    return NELQUBAT_RECORD_BID + 4 * dice_below(d, 10);
}

void edge_record(struct dice *d, uint8_t *record)
{
    static const struct edge edges[] = {
        {NELQUBAT_RECORD_YEAR, 2, {99, 100}},
        {NELQUBAT_RECORD_MONTH, 4, {0, 1, 12, 13}},
        {NELQUBAT_RECORD_DAY, 4, {0, 1, 31, 32}},
        {NELQUBAT_RECORD_STRIKE, 2, {0x7F, 0x80}},
        {NELQUBAT_RECORD_SYMBOL, 4, {' ', '!', '~', 0x7F}},
        {NELQUBAT_RECORD_UNDERLYING, 4, {' ', '!', '~', 0x7F}},
    };
    size_t number = side_number(d, record);
    switch (record[NELQUBAT_RECORD_LETTER]) {
    case 'M':
        nelqubat_set(record + NELQUBAT_RECORD_NUMBER, 8,
                     dice_chance(d, 30) ? dice_below(d, 2) : PLAIN_MAX_NUMBER + dice_below(d, 2));
        break;
    case 'm':
        SET_EDGE(d, edges, record);
        break;
    case 'Q':
    case 'B':
    case 'A':
        set_price(d, record + number);
        break;
    case 'q':
    case 'b':
    case 'a':
        set_greatest(d, record + number, 4, UINT16_MAX);
        break;
    default:
        set_greatest(d, record + NELQUBAT_RECORD_TIME, 8, PLAIN_MAX_TIME);
        break;
    }
}

/* When a side was set. */
static void set_side_time(struct dice *d, uint8_t *at)
{
    static const uint64_t times[] = {0, 1, PLAIN_MAX_TIME, PLAIN_MAX_TIME + 1, PLAIN_UNKNOWN_TIME - 1,
                                     PLAIN_UNKNOWN_TIME, PLAIN_UNKNOWN_TIME / 2};
    nelqubat_set(at, 8, times[dice_below(d, sizeof times / sizeof *times)]);
}

void edge_row(struct dice *d, uint8_t *row)
{
    static const struct edge edges[] = {
        {ROW_STATE, 8, {0, 'A', 'B', 'C', 'R', 'S', 'T', 'U'}},
        {ROW_CONDITION, 4, {' ', 'X', 'Z', 0}},
        {ROW_SIDES, 5, {0, 1, 2, 3, 4}},        {ROW_GAP, 2, {0, 1}},
        {ROW_BID + 4, 3, {0, 0x7F, 0x80}},      {ROW_ASK + 4, 3, {0, 0x7F, 0x80}},
        {ROW_BID, 1, {1}},                      {ROW_BID + 19, 1, {1}},
        {ROW_ASK, 1, {1}},                      {ROW_ASK + 19, 1, {1}},
        {ROW_TAIL, 2, {0, 1}},                  {PLAIN_ROW_BYTES - 1, 2, {0, 1}},
    };
    if (dice_chance(d, 40))
        SET_EDGE(d, directory_edges, row);
    else if (dice_chance(d, 20))
        set_greatest(d, row + ROW_TIME, 8, PLAIN_MAX_TIME);
    else if (dice_chance(d, 30))
        set_side_time(d, row + (dice_chance(d, 50) ? ROW_BID_TIME : ROW_ASK_TIME));
    else
        SET_EDGE(d, edges, row);
}

void edge_handle(struct dice *d, uint8_t *handle)
{
    static const struct edge edges[] = {
        {NELQUBAT_HANDLE_KNOWN, 3, {0, 1, 2}},
        {NELQUBAT_HANDLE_LOGGED_IN, 3, {0, 1, 2}},
        {NELQUBAT_HANDLE_ENDED, 3, {0, 1, 2}},
        {NELQUBAT_HANDLE_REFUSAL, 8, {0, 1, 6, 7, 9, 10, 16, 17}},
    };
    uint64_t length = nelqubat_get(handle + NELQUBAT_HANDLE_PACKET, 2);
    switch (dice_below(d, 6)) {
    case 0:
        nelqubat_set(handle + NELQUBAT_HANDLE_NEXT, 8,
                     dice_chance(d, 30) ? dice_below(d, 2) : PLAIN_MAX_NUMBER + dice_below(d, 2));
        break;
    case 1:
        set_greatest(d, handle + NELQUBAT_HANDLE_LIVE, 8, PLAIN_MAX_NUMBER);
        break;
    case 2:
        set_greatest(d, handle + NELQUBAT_HANDLE_ROWS, 8, PLAIN_MAX_ROWS);
        break;
    case 3: /* the count held at what the packet's length allows, and over it */
        nelqubat_set(handle + NELQUBAT_HANDLE_HELD, 8, length + dice_below(d, 4));
        break;
    case 4:
        set_greatest(d, handle + NELQUBAT_HANDLE_PACKET, 2, dice_chance(d, 50) ? 0 : 256);
        set_greatest(d, handle + NELQUBAT_HANDLE_HELD, 8, 1);
        break;
    default:
        SET_EDGE(d, edges, handle);
        break;
    }
}

/* One of block 0's fields. */
static void edge_summary(struct dice *d, uint8_t *block)
{
    static const struct edge edges[] = {
        {24, 3, {0, 1, 2}}, {25, 4, {0, 'O', 'P', 'X'}}, {36, 1, {1}}, {14, 2, {' ', 'X'}},
    };
    if (dice_chance(d, 20))
        set_greatest(d, block + 28, 8, PLAIN_MAX_NUMBER);
    else if (dice_chance(d, 20))
        nelqubat_set(block + 26, 2, nelqubat_get(block + 26, 2) + dice_below(d, 9) - 4);
    else if (dice_chance(d, 10))
        block[509] = 1;
    else
        SET_EDGE(d, edges, block);
}

void edge_image(struct dice *d, struct bytes *image)
{
    size_t rows = (size_t)nelqubat_get(image->at + 26, 2), row;
    uint64_t next = dice_chance(d, 30) ? dice_below(d, 3) : PLAIN_MAX_NUMBER + dice_below(d, 2);
    if (rows > 0 && dice_chance(d, 50)) {
        row = dice_below(d, rows);
        edge_row(d, image->at + (1 + row / PLAIN_BLOCK_ROWS) * PLAIN_BLOCK_BYTES + 14 +
                        row % PLAIN_BLOCK_ROWS * PLAIN_ROW_BYTES);
    } else if (dice_chance(d, 20)) {
        for (size_t at = 0; at < image->n; at += PLAIN_BLOCK_BYTES)
            nelqubat_set(image->at + at + 6, 8, next);
    } else {
        edge_summary(d, image->at);
    }
    seal_image(image);
}
