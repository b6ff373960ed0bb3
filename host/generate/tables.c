#include "parts.h"

#include <string.h>

/* A side that was seen, now and then with no price. */
static void make_row_side(struct dice *d, uint8_t *side)
{
    for (size_t i = 0; i < 20; i += 4)
        set_number(side + i, 4, pick_number(d, i == 4 ? INT32_MAX : UINT32_MAX));
    if (dice_chance(d, 20))
        set_number(side + 4, 4, 0);
}

/* The places in a row of a side's numbers and its time, and the bit that says it was
 * seen. */
static const struct {
    size_t numbers, time;
    uint8_t bit;
} sides[] = {{ROW_BID, ROW_BID_TIME, 1}, {ROW_ASK, ROW_ASK_TIME, 2}};

enum { SIDES = sizeof sides / sizeof *sides };

/* A time that a seen side may have, often at an end of the range or unknown. */
static uint64_t pick_time(struct dice *d)
{
    static const uint64_t ends[] = {0, PLAIN_MAX_TIME, PLAIN_UNKNOWN_TIME};
    if (dice_chance(d, 40))
        return ends[dice_below(d, sizeof ends / sizeof *ends)];
    return pick_number(d, PLAIN_MAX_TIME);
}

void make_row(struct dice *d, uint32_t id, uint8_t *row)
{
    struct plain_message m;
    uint8_t bytes[PLAIN_MESSAGE_BYTES];
    size_t n;
    make_message(d, PLAIN_DIRECTORY, &m);
    m.id = id;
    m.directory.tradable = pick(d, "YYYN");
    plain_write(&m, bytes, sizeof bytes, &n);
    memset(row, 0, PLAIN_ROW_BYTES);
    memcpy(row, bytes + 11, ROW_STATE);
    memcpy(row + ROW_TRACKING, bytes + 1, 10);
    if (dice_chance(d, 60))
        row[ROW_STATE] = pick(d, quoting_states);
    else if (!dice_chance(d, 20))
        row[ROW_STATE] = pick(d, states);
    row[ROW_SIDES] = (uint8_t)dice_below(d, 4);
    row[ROW_CONDITION] = row[ROW_SIDES] ? pick(d, conditions) : ' ';
    for (size_t i = 0; i < SIDES; i++)
        if (row[ROW_SIDES] & sides[i].bit) {
            make_row_side(d, row + sides[i].numbers);
            set_number(row + sides[i].time, 8, pick_time(d));
        }
}

/* What restoring a row of an old image leaves. */
static void forget_times(uint8_t *row)
{
    for (size_t i = 0; i < SIDES; i++)
        if (row[ROW_SIDES] & sides[i].bit)
            set_number(row + sides[i].time, 8, PLAIN_UNKNOWN_TIME);
}

/* Breaks a rule of the directory's part of a row. */
static void break_row_directory(struct dice *d, uint8_t *row)
{
    uint8_t m[PLAIN_MESSAGE_BYTES];
    memset(m, 0, sizeof m);
    m[0] = 'm';
    memcpy(m + 11, row, ROW_STATE);
    switch (dice_below(d, 5)) {
    case 0:
        break_text(d, m + 15, 8);
        break;
    case 1:
        break_text(d, m + 31, 13);
        break;
    case 2:
        damage_date(d, m);
        break;
    case 3:
        damage_price(d, m);
        break;
    default:
        damage_code(d, m);
        break;
    }
    memcpy(row, m + 11, ROW_STATE);
}

/* Past the range, and not unknown: just past it, all bits but one, or any. */
static uint64_t pick_time_past(struct dice *d)
{
    uint64_t any = dice_between(d, PLAIN_MAX_TIME + 1, PLAIN_UNKNOWN_TIME - 1);
    switch (dice_below(d, 4)) {
    case 0:
        return PLAIN_MAX_TIME + 1;
    case 1:
        return PLAIN_UNKNOWN_TIME - 1;
    case 2:
        return PLAIN_UNKNOWN_TIME ^ UINT64_C(1) << dice_below(d, 64);
    default:
        return any;
    }
}

/* Not zero, and else in range or unknown, as that of a seen side may be. */
static uint64_t pick_time_set(struct dice *d)
{
    uint64_t time = pick_time(d);
    return time != 0 ? time : 1;
}

void break_times(struct dice *d, bool timed, uint8_t *row)
{
    size_t side = dice_below(d, SIDES);
    if (dice_chance(d, 30))
        set_between(d, &row[dice_between(d, ROW_TAIL, PLAIN_ROW_BYTES - 1)], 1, 255);
    else if (timed && (row[ROW_SIDES] & sides[side].bit))
        set_number(row + sides[side].time, 8, pick_time_past(d));
    else
        set_number(row + sides[side].time, 8, pick_time_set(d));
}

/* Breaks a rule of a row's quotes. */
static void break_row_quotes(struct dice *d, uint8_t *row)
{
    size_t side = dice_chance(d, 50) ? ROW_BID : ROW_ASK;
    switch (dice_below(d, 5)) {
    case 0:
        row[ROW_CONDITION] = pick_outside(d, conditions);
        break;
    case 1:
        row[ROW_SIDES] = (uint8_t)dice_between(d, 4, 255);
        break;
    case 2: /* an unseen side that is not all zero */
        row[ROW_SIDES] &= side == ROW_BID ? 2 : 1;
        set_between(d, &row[side + dice_below(d, 20)], 1, 127);
        break;
    case 3: /* a condition with nothing seen */
        row[ROW_SIDES] = 0;
        memset(row + ROW_BID, 0, 40);
        row[ROW_CONDITION] = pick(d, "XY");
        break;
    default:
        row[ROW_SIDES] |= side == ROW_BID ? 1 : 2;
        row[side + 4] |= 0x80;
        break;
    }
}

void break_row(struct dice *d, uint8_t *row)
{
    switch (dice_below(d, 7)) {
    case 0:
    case 1:
        break_row_directory(d, row);
        break;
    case 2:
    case 3:
        break_row_quotes(d, row);
        break;
    case 4:
        if (dice_chance(d, 50))
            row[ROW_STATE] = pick_outside(d, "BSHTIORX");
        if (row[ROW_STATE] == 0 || memchr(states, row[ROW_STATE], 8) != NULL)
            set_number(row + ROW_TIME, 8, PLAIN_MAX_TIME + 1 + dice_below(d, 1000));
        break;
    case 5:
        break_times(d, true, row);
        break;
    default:
        set_between(d, &row[dice_chance(d, 50) ? ROW_GAP : dice_between(d, ROW_TAIL, PLAIN_ROW_BYTES - 1)], 1, 255);
        break;
    }
}

/* Mostly few rows; else about a place where an image gets one more block or another
 * version, about the most there may be, or any count. */
static uint32_t pick_row_count(struct dice *d)
{
    enum { MOST = PLAIN_MAX_ROWS, LAST_OF_1 = PLAIN_ROWS_OF_VERSION_1 };
    static const uint16_t few[] = {0, 1, 3, 4, 5, 8, 9};
    static const uint16_t many[] = {LAST_OF_1 - 1, LAST_OF_1, LAST_OF_1 + 1, MOST - 4, MOST - 3, MOST - 1, MOST};
    if (dice_chance(d, 15))
        return few[dice_below(d, sizeof few / sizeof *few)];
    if (dice_chance(d, 30))
        return many[dice_below(d, sizeof many / sizeof *many)];
    return (uint32_t)dice_below(d, dice_chance(d, 15) ? MOST + 1 : 20);
}

/* Rows with ids that differ, now and then with no time that is known; then zeros, or
 * other bytes, past them. */
static void make_rows(struct dice *d, uint32_t rows, uint8_t *table)
{
    uint32_t first = (uint32_t)dice_next(d), step = (uint32_t)dice_next(d) | 1;
    bool forgets = dice_chance(d, 15);
    for (uint32_t k = 0; k < rows; k++) {
        make_row(d, first + k * step, table + k * (size_t)PLAIN_ROW_BYTES);
        if (forgets)
            forget_times(table + k * (size_t)PLAIN_ROW_BYTES);
    }
    memset(table + rows * (size_t)PLAIN_ROW_BYTES, 0,
           (PLAIN_MAX_ROWS - rows) * (size_t)PLAIN_ROW_BYTES);
    if (dice_chance(d, 20))
        dice_fill(d, table + rows * (size_t)PLAIN_ROW_BYTES,
                  (PLAIN_MAX_ROWS - rows) * (size_t)PLAIN_ROW_BYTES);
}

/* Held bytes of an unfinished packet, mostly the start of a true one. */
static void make_held(struct dice *d, struct plain_reader *r)
{
    struct bytes s = {r->held, 0, sizeof r->held};
    struct plain_message m;
    if (dice_chance(d, 20)) {
        dice_fill(d, r->held, sizeof r->held);
        set_number(r->held, 2, dice_between(d, 1, 256));
    } else if (!r->logged_in) {
        put_login(&s, r->session, r->next);
    } else {
        make_any_message(d, &m);
        put_message(&s, &m);
    }
    r->used = (uint32_t)dice_below(d, get_number(r->held, 2) + 2);
    if (r->used == 1 && dice_chance(d, 50))
        r->held[0] = dice_byte(d);
}

static void make_condition(struct dice *d, struct plain_reader *r)
{
    static const uint8_t refusals[] = {1, 2, 3, 4, 5, 6, 10, 11, 12, 13, 14, 15, 16};
    if (dice_chance(d, 10))
        r->ended = true;
    if (dice_chance(d, 10))
        r->refusal = refusals[dice_below(d, sizeof refusals)];
}

void make_reader(struct dice *d, bool waiting, struct plain_reader *r,
                 uint8_t *table)
{
    memset(r, 0, sizeof *r);
    memset(r->session, ' ', sizeof r->session);
    r->next = 1;
    r->known = !dice_chance(d, 10);
    if (r->known) {
        r->logged_in = dice_chance(d, 80);
        r->rows = pick_row_count(d);
        r->event = dice_chance(d, 20) ? 0 : pick(d, event_codes);
        r->live = dice_chance(d, 50) ? 0 : pick_number(d, PLAIN_MAX_NUMBER);
        r->next = 1 + pick_number(d, PLAIN_MAX_NUMBER - 1);
        dice_fill(d, r->session, sizeof r->session);
    }
    make_rows(d, r->rows, table);
    if (dice_chance(d, 40))
        make_held(d, r);
    if (!waiting)
        make_condition(d, r);
}

void break_reader(struct dice *d, struct plain_reader *r)
{
    switch (dice_below(d, 6)) {
    case 0:
        r->rows = PLAIN_MAX_ROWS + 1 + (uint32_t)pick_number(d, UINT32_MAX - PLAIN_MAX_ROWS - 1);
        break;
    case 1:
        r->next = 0;
        break;
    case 2:
        r->next = PLAIN_MAX_NUMBER + 1 + pick_number(d, UINT64_MAX - PLAIN_MAX_NUMBER - 1);
        break;
    case 3: /* a length that is not allowed */
        set_number(r->held, 2, dice_chance(d, 50) ? 0 : 257 + pick_number(d, UINT16_MAX - 257));
        r->used = (uint32_t)dice_between(d, 2, 258);
        break;
    case 4: /* a whole packet, or more than one */
        set_number(r->held, 2, dice_between(d, 1, 256));
        r->used = (uint32_t)(get_number(r->held, 2) + 2 + pick_number(d, UINT32_MAX - 300));
        break;
    default:
        r->refusal = (uint32_t)(dice_chance(d, 50) ? dice_between(d, 7, 9)
                                                   : 17 + pick_number(d, UINT32_MAX - 17));
        break;
    }
}

/* A handle within its limits that cannot be saved. */
void spoil_reader(struct dice *d, struct plain_reader *r)
{
    switch (dice_below(d, 4)) {
    case 0:
        r->known = true;
        r->event = (uint8_t)dice_between(d, 'a', 255);
        break;
    case 1:
        r->known = true;
        r->live = PLAIN_MAX_NUMBER + 1 + pick_number(d, UINT64_MAX - PLAIN_MAX_NUMBER - 1);
        break;
    case 2:
        r->known = false;
        r->next = 2 + dice_below(d, 1000);
        break;
    default:
        r->known = false;
        r->session[dice_below(d, 10)] = 'X';
        break;
    }
}

void blur_table(struct dice *d, const struct plain_reader *r, uint8_t *table)
{
    size_t rows = r->rows <= PLAIN_MAX_ROWS ? r->rows : PLAIN_MAX_ROWS;
    uint8_t *row;
    if (rows == 0)
        return;
    switch (dice_below(d, 4)) {
    case 0:
        break_row(d, table + dice_below(d, rows) * PLAIN_ROW_BYTES);
        break;
    case 1: /* the same id twice */
        row = table + dice_below(d, rows) * PLAIN_ROW_BYTES;
        memmove(row, table + dice_below(d, rows) * PLAIN_ROW_BYTES, 4);
        break;
    case 2:
        for (size_t i = dice_between(d, 1, 200); i > 0; i--)
            set_any(d, &table[dice_below(d, rows * PLAIN_ROW_BYTES)]);
        break;
    default:
        row = table + dice_below(d, rows) * PLAIN_ROW_BYTES;
        set_any(d, &row[dice_between(d, ROW_STATE, ROW_GAP)]);
        break;
    }
}

size_t make_length(struct dice *d, size_t exact)
{
    switch (dice_below(d, 10)) {
    case 0:
        return exact + dice_between(d, 1, 200);
    case 1:
        return exact == 0 ? 0 : exact - 1;
    case 2:
        return dice_below(d, exact + 1);
    case 3:
        return 0;
    default:
        return exact;
    }
}

/* A directory's message for a row that is there, with other free fields. */
static void lay_row_directory(struct dice *d, const uint8_t *row, uint8_t *m)
{
    m[0] = 'm';
    dice_fill(d, m + 1, 2);
    set_number(m + 3, 8, pick_number(d, PLAIN_MAX_TIME));
    memcpy(m + 11, row, ROW_STATE);
    m[44] = pick(d, closings);
    m[45] = pick(d, tradables);
    m[46] = pick(d, variations);
    dice_fill(d, m + 47, 16);
}

/* One that the row takes, or one with any byte changed. */
static void put_row_directory(struct dice *d, const uint8_t *row,
                              struct bytes *s)
{
    uint8_t m[PLAIN_MESSAGE_BYTES];
    lay_row_directory(d, row, m);
    if (dice_chance(d, 50))
        flip_bit(d, &m[dice_between(d, 15, 46)]);
    put_packet(s, 'S', m, sizeof m);
}

static void put_purge(struct dice *d, const uint8_t *row, struct bytes *s)
{
    uint8_t m[PLAIN_MESSAGE_BYTES];
    lay_row_directory(d, row, m);
    m[45] = 'N';
    put_packet(s, 'S', m, sizeof m);
}

void put_packet_for(struct dice *d, const struct plain_reader *r,
                    const uint8_t *table, struct bytes *s)
{
    const uint8_t *row = NULL;
    struct plain_message m;
    if (r->rows > 0 && r->rows <= PLAIN_MAX_ROWS)
        row = table + dice_below(d, r->rows) * PLAIN_ROW_BYTES;
    if (!r->logged_in && dice_chance(d, 80)) {
        put_login(s, r->session, dice_chance(d, 80) ? r->next : dice_below(d, 9));
    } else if (row && dice_chance(d, 20)) {
        put_row_directory(d, row, s);
    } else if (dice_chance(d, 10)) {
        uint8_t body[255];
        size_t n = dice_chance(d, 50) ? 0 : dice_below(d, 256);
        dice_fill(d, body, n);
        put_packet(s, dice_chance(d, 80) ? pick(d, "AJSHZ+U") : dice_byte(d), body, n);
    } else {
        make_any_message(d, &m);
        if (row && dice_chance(d, 85))
            m.id = (uint32_t)get_number(row, 4);
        put_message(s, &m);
    }
}

/* Each state as often as the others, and none yet; where blurred, the state or
 * the tradable is a byte outside its list. */
static void set_trading(struct dice *d, bool blurred, uint8_t *row)
{
    row[ROW_STATE] = dice_chance(d, 10) ? 0 : pick(d, states);
    row[ROW_TRADABLE] = pick(d, tradables);
    if (blurred && dice_chance(d, 70))
        set_outside(d, &row[ROW_STATE], states);
    else if (blurred)
        set_outside(d, &row[ROW_TRADABLE], tradables);
}

/* A handle that reads messages on, and one of its rows. */
static uint8_t *make_reading(struct dice *d, struct plain_reader *r, uint8_t *table)
{
    do
        make_reader(d, true, r, table);
    while (r->rows == 0);
    r->logged_in = true;
    r->used = 0;
    r->next = 1 + pick_number(d, PLAIN_MAX_NUMBER - 10);
    return table + dice_below(d, r->rows) * PLAIN_ROW_BYTES;
}

/* Any quote to a row. */
static void make_quote_for(struct dice *d, const uint8_t *row, struct plain_message *m)
{
    make_message(d, (enum plain_kind)dice_between(d, PLAIN_BOTH_SHORT, PLAIN_ONE_LONG), m);
    m->id = (uint32_t)get_number(row, 4);
}

void make_quoted(struct dice *d, bool blurred, struct plain_reader *r,
                 uint8_t *table, struct bytes *s)
{
    struct plain_message m;
    uint8_t *row = make_reading(d, r, table);
    set_trading(d, blurred, row);
    make_quote_for(d, row, &m);
    if (dice_chance(d, 30))
        vary_prices(d, &m);
    put_message(s, &m);
}

void make_timed(struct dice *d, bool broken, struct plain_reader *r,
                uint8_t *table, struct bytes *s)
{
    struct plain_message m;
    uint8_t *row = make_reading(d, r, table);
    row[ROW_STATE] = pick(d, quoting_states);
    row[ROW_TRADABLE] = 'Y';
    for (size_t i = dice_below(d, 4); i > 0; i--) {
        make_quote_for(d, row, &m);
        if (dice_chance(d, 60))
            m.time = dice_chance(d, 50) ? 0 : PLAIN_MAX_TIME;
        put_message(s, &m);
    }
    if (dice_chance(d, 50))
        put_purge(d, row, s);
    if (broken)
        break_times(d, true, row);
}
