#include "damage.h"

#include <string.h>

static void damage_shape(struct dice *d, enum session_damage kind,
                         struct bytes *s)
{
    size_t at;
    if (!pick_packet(d, s, "S", NULL, &at))
        return;
    if (kind == DAMAGE_EMPTY_MESSAGE)
        change_length(d, s, at, 1);
    else if (kind == DAMAGE_MESSAGE_LENGTH)
        change_length(d, s, at, dice_between(d, 2, 256));
    else if (packet_bytes(s, at) > 3)
        s->at[at + 3] = dice_chance(d, 50) ? pick_outside(d, "SmHqQbaBAM")
                                           : pick(d, "SmHqQbaBAM");
}

/* An end of replay whose number breaks the rules. */
static void bad_replay_number(struct dice *d, uint8_t *text)
{
    size_t n = dice_between(d, 14, 20);
    switch (dice_below(d, 5)) {
    case 0:
        memset(text, ' ', 20);
        break;
    case 1:
        text[0] = '0';
        break;
    case 2:
        memset(text, ' ', 20);
        text[19] = '7';
        break;
    case 3:
        memset(text, '9', n);
        break;
    default:
        set_outside(d, &text[dice_below(d, 20)], " 0123456789");
        break;
    }
}

/* A letter outside its list, in whichever message is found. */
void damage_code(struct dice *d, uint8_t *m)
{
    switch (m[0]) {
    case 'S':
        m[11] = pick_outside(d, event_codes);
        break;
    case 'H':
        m[15] = pick_outside(d, states);
        break;
    case 'm':
        switch (dice_below(d, 4)) {
        case 0:
            m[30] = pick_outside(d, types);
            break;
        case 1:
            m[44] = pick_outside(d, closings);
            break;
        case 2:
            m[45] = pick_outside(d, tradables);
            break;
        default:
            m[46] = pick_outside(d, variations);
            break;
        }
        break;
    default:
        m[15] = pick_outside(d, conditions);
        break;
    }
}

void damage_date(struct dice *d, uint8_t *m)
{
    switch (dice_below(d, 3)) {
    case 0:
        m[23] = (uint8_t)dice_between(d, 100, 255);
        break;
    case 1:
        m[24] = (uint8_t)(dice_chance(d, 50) ? 0 : dice_between(d, 13, 255));
        break;
    default:
        m[25] = (uint8_t)(dice_chance(d, 50) ? 0 : dice_between(d, 32, 255));
        break;
    }
}

/* One bit of a price's top byte, at every place a price may lie. */
void damage_price(struct dice *d, uint8_t *m)
{
    if (m[0] == 'm')
        m[26] |= 0x80;
    else if (m[0] == 'Q' && dice_chance(d, 50))
        m[40] |= 0x80;
    else
        m[20] |= 0x80;
}

static void damage_field(struct dice *d, enum session_damage kind,
                         struct bytes *s)
{
    static const struct {
        enum session_damage kind;
        const char *letters;
    } wanted[] = {{DAMAGE_TIME, "SmHqQbaBA"}, {DAMAGE_TEXT, "m"},
                  {DAMAGE_PRICE, "mQBA"},     {DAMAGE_CODE, "SmHqQbaBA"},
                  {DAMAGE_DATE, "m"},         {DAMAGE_REPLAY_NUMBER, "M"}};
    size_t at, k = 0;
    uint8_t *m;
    while (wanted[k].kind != kind)
        k++;
    if (!pick_packet(d, s, "S", wanted[k].letters, &at))
        return;
    m = s->at + at + 3;
    if (kind == DAMAGE_TIME)
        set_number(m + 3, 8, PLAIN_MAX_TIME + 1 + pick_number(d, UINT64_MAX - PLAIN_MAX_TIME - 1));
    else if (kind == DAMAGE_TEXT && dice_chance(d, 50))
        break_text(d, m + 15, 8);
    else if (kind == DAMAGE_TEXT)
        break_text(d, m + 31, 13);
    else if (kind == DAMAGE_PRICE)
        damage_price(d, m);
    else if (kind == DAMAGE_CODE)
        damage_code(d, m);
    else if (kind == DAMAGE_DATE)
        damage_date(d, m);
    else
        bad_replay_number(d, m + 1);
}

/* Reads a message of the session and lays it out again with another id or
 * number. */
static void damage_record(struct dice *d, struct bytes *s)
{
    struct plain_message m;
    uint8_t *bytes;
    size_t at, n, written;
    if (!pick_packet(d, s, "S", NULL, &at))
        return;
    bytes = s->at + at + 3;
    n = packet_bytes(s, at) - 3;
    if (plain_read(bytes, n, &m) != 0)
        return;
    if (m.kind == PLAIN_REPLAY_END)
        make_message(d, m.kind, &m);
    else
        m.id = dice_chance(d, 50) ? m.id : m.id + 1;
    plain_write(&m, bytes, n, &written);
}

/* Puts a message that spoils the next quote: a state that takes none, or a
 * directory with tradable N. */
static void damage_before_quote(struct dice *d, enum session_damage kind,
                                struct bytes *s)
{
    uint8_t body[PLAIN_MESSAGE_BYTES];
    size_t quote, at;
    if (!pick_packet(d, s, "S", "qQbaBA", &quote))
        return;
    if (kind == DAMAGE_NOT_TRADING) {
        memcpy(body, s->at + quote + 3, 15);
        body[0] = 'H';
        body[15] = pick(d, quiet_states);
        insert_packet(s, quote, 'S', body, 16);
        return;
    }
    for (at = 0; at < quote; at += packet_bytes(s, at))
        if (matches(s, at, "S", "m") && packet_bytes(s, at) == 66 &&
            memcmp(s->at + at + 14, s->at + quote + 14, 4) == 0)
            break;
    if (at >= quote)
        return;
    memcpy(body, s->at + at + 3, sizeof body);
    body[45] = 'N';
    insert_packet(s, quote, 'S', body, sizeof body);
}

/* A directory said again somewhere after it, with a fixed field changed or
 * only with other reserved bytes. */
static void damage_directory(struct dice *d, enum session_damage kind,
                             struct bytes *s)
{
    uint8_t body[PLAIN_MESSAGE_BYTES];
    size_t at, place;
    if (!pick_packet(d, s, "S", "m", &at) || packet_bytes(s, at) != 66)
        return;
    memcpy(body, s->at + at + 3, sizeof body);
    for (place = at + 66; place < s->n && !dice_chance(d, 5);)
        place += packet_bytes(s, place);
    if (place > s->n)
        return;
    dice_fill(d, body + 47, 16);
    if (kind == DAMAGE_FIXED_FIELD) {
        switch (dice_below(d, 5)) {
        case 0:
            body[15] = body[15] == 'Z' ? 'A' : 'Z';
            break;
        case 1:
            body[23] = (uint8_t)((body[23] + 1) % 100);
            break;
        case 2:
            body[24] = (uint8_t)(body[24] % 12 + 1);
            break;
        case 3:
            set_other(d, &body[dice_between(d, 27, 29)]);
            break;
        default:
            body[30] = body[30] == 'C' ? 'P' : 'C';
            break;
        }
    }
    insert_packet(s, place, 'S', body, sizeof body);
}

static void damage_id(struct dice *d, struct bytes *s)
{
    size_t at;
    if (pick_packet(d, s, "S", "HqQbaBA", &at))
        set_number(s->at + at + 14, 4, dice_chance(d, 50) ? dice_next(d) : 900001);
}

/* New instruments after the login until the table runs over. */
static void fill_table(struct dice *d, struct bytes *s)
{
    struct plain_message m;
    uint8_t body[PLAIN_MESSAGE_BYTES];
    size_t written, at;
    uint32_t id = UINT32_C(0x80000000) | (uint32_t)dice_next(d);
    if (!pick_packet(d, s, "A", NULL, &at))
        return;
    at += packet_bytes(s, at);
    make_message(d, PLAIN_DIRECTORY, &m);
    for (unsigned i = 0; i < PLAIN_MAX_ROWS + 1; i++) {
        m.id = id ^ (i + 1);
        plain_write(&m, body, sizeof body, &written);
        insert_packet(s, at, 'S', body, written);
    }
}

void damage_messages(struct dice *d, enum session_damage kind, struct bytes *s)
{
    if (kind <= DAMAGE_MESSAGE_LENGTH)
        damage_shape(d, kind, s);
    else if (kind <= DAMAGE_REPLAY_NUMBER)
        damage_field(d, kind, s);
    else if (kind == DAMAGE_UNKNOWN_ID)
        damage_id(d, s);
    else if (kind <= DAMAGE_UNTRADABLE)
        damage_before_quote(d, kind, s);
    else if (kind <= DAMAGE_REPEATED_DIRECTORY)
        damage_directory(d, kind, s);
    else if (kind == DAMAGE_FULL_TABLE)
        fill_table(d, s);
    else
        damage_record(d, s);
}
