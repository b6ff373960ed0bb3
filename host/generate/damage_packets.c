#include "damage.h"

#include <string.h>

/* Damage to sessions. */

size_t packet_bytes(const struct bytes *s, size_t at)
{
    return s->n - at < 2 ? s->n - at : 2 + (size_t)get_number(s->at + at, 2);
}

static bool in_list(const char *list, uint8_t b)
{
    return memchr(list, b, strlen(list)) != NULL;
}

/* A message's true length by its letter, 0 for a letter that has none. */
static size_t true_length(uint8_t letter)
{
    static const char letters[] = "SmHqQbaBAM";
    static const uint8_t lengths[] = {12, 63, 16, 36, 56, 26, 26, 36, 36, 21};
    const char *place = memchr(letters, letter, sizeof lengths);
    return place ? lengths[place - letters] : 0;
}

/* Whether the packet at a place has one of the letters, and if message letters
 * are asked for, holds one of those at its true length. */
bool matches(const struct bytes *s, size_t at, const char *letters,
                    const char *inner)
{
    size_t n = packet_bytes(s, at);
    if (n < 3 || n > s->n - at || (letters && !in_list(letters, s->at[at + 2])))
        return false;
    return !inner || (n > 3 && in_list(inner, s->at[at + 3]) &&
                      n - 3 == true_length(s->at[at + 3]));
}

static size_t count_packets(const struct bytes *s, const char *letters,
                            const char *inner)
{
    size_t count = 0;
    for (size_t at = 0; at < s->n; at += packet_bytes(s, at))
        count += matches(s, at, letters, inner);
    return count;
}

/* A random packet of that sort; false if there is none. */
bool pick_packet(struct dice *d, const struct bytes *s,
                        const char *letters, const char *inner, size_t *found)
{
    size_t count = count_packets(s, letters, inner), left;
    if (count == 0)
        return false;
    left = dice_below(d, count);
    for (size_t at = 0; at < s->n; at += packet_bytes(s, at)) {
        if (!matches(s, at, letters, inner))
            continue;
        if (left-- == 0) {
            *found = at;
            return true;
        }
    }
    return false;
}

/* Replaces bytes in the middle, if there is room. */
static void splice(struct bytes *s, size_t at, size_t gone, const uint8_t *with,
                   size_t n)
{
    if (s->n - gone + n > s->room)
        return;
    memmove(s->at + at + n, s->at + at + gone, s->n - at - gone);
    if (n != 0)
        memcpy(s->at + at, with, n);
    s->n = s->n - gone + n;
}

/* Puts a packet into the middle. */
void insert_packet(struct bytes *s, size_t at, uint8_t letter,
                          const uint8_t *body, size_t n)
{
    uint8_t space[PLAIN_PACKET_BYTES];
    struct bytes one = {space, 0, sizeof space};
    put_packet(&one, letter, body, n);
    splice(s, at, 0, one.at, one.n);
}

/* Gives a packet another body of any length. */
void change_length(struct dice *d, struct bytes *s, size_t at,
                          size_t length)
{
    size_t old = (size_t)get_number(s->at + at, 2);
    uint8_t extra[256];
    dice_fill(d, extra, sizeof extra);
    if (length > old)
        splice(s, at + 2 + old, 0, extra, length - old);
    else
        splice(s, at + 2 + length, old - length, NULL, 0);
    set_number(s->at + at, 2, length);
}

static void damage_bytes(struct dice *d, enum session_damage kind,
                         struct bytes *s)
{
    size_t at = dice_below(d, s->n);
    uint8_t b = dice_byte(d);
    if (kind == DAMAGE_FLIP)
        s->at[at] ^= (uint8_t)dice_between(d, 1, 255);
    else if (kind == DAMAGE_CUT)
        s->n = at;
    else if (kind == DAMAGE_DROP_BYTE)
        splice(s, at, 1, NULL, 0);
    else
        splice(s, at, 0, &b, 1);
}

static void damage_length(struct dice *d, enum session_damage kind,
                          struct bytes *s)
{
    size_t at;
    uint64_t length;
    if (!pick_packet(d, s, NULL, NULL, &at))
        return;
    length = get_number(s->at + at, 2);
    if (kind == DAMAGE_LENGTH_ZERO)
        length = 0;
    else if (kind == DAMAGE_LENGTH_OVER)
        length = 257 + pick_number(d, UINT16_MAX - 257);
    else
        length = dice_chance(d, 50) ? length + 1 : length - 1;
    set_number(s->at + at, 2, length);
}

static void swap_packets(struct dice *d, struct bytes *s)
{
    uint8_t copy[2 * PLAIN_PACKET_BYTES];
    size_t at, first, second;
    if (!pick_packet(d, s, NULL, NULL, &at))
        return;
    first = packet_bytes(s, at);
    if (at + first >= s->n)
        return;
    second = packet_bytes(s, at + first);
    if (at + first + second > s->n || first + second > sizeof copy)
        return;
    memcpy(copy, s->at + at + first, second);
    memcpy(copy + second, s->at + at, first);
    memcpy(s->at + at, copy, first + second);
}

static void damage_order(struct dice *d, enum session_damage kind,
                         struct bytes *s)
{
    uint8_t copy[PLAIN_PACKET_BYTES];
    size_t at, n;
    if (kind == DAMAGE_SWAP_PACKETS) {
        swap_packets(d, s);
        return;
    }
    if (!pick_packet(d, s, NULL, NULL, &at))
        return;
    n = packet_bytes(s, at);
    if (n > sizeof copy)
        return;
    memcpy(copy, s->at + at, n);
    if (kind == DAMAGE_DROP_PACKET)
        splice(s, at, n, NULL, 0);
    else if (kind == DAMAGE_REPEAT_PACKET)
        splice(s, at, 0, copy, n);
    else
        s->at[at + 2] = pick_outside(d, "AJSHZ+U");
}

/* Packets in the wrong place, or of a wrong fixed length. */
static void damage_place(struct dice *d, enum session_damage kind,
                         struct bytes *s)
{
    uint8_t body[30];
    size_t at;
    if (kind == DAMAGE_FIXED_LENGTH) {
        if (!pick_packet(d, s, "AJHZ", NULL, &at))
            return;
        change_length(d, s, at, dice_between(d, 1, 40));
        return;
    }
    if (kind == DAMAGE_LATE_REJECTION || kind == DAMAGE_EARLY_END) {
        if (!pick_packet(d, s, NULL, NULL, &at))
            return;
        body[0] = pick(d, "AS");
        insert_packet(s, kind == DAMAGE_EARLY_END ? 0 : at + packet_bytes(s, at),
                      kind == DAMAGE_EARLY_END ? 'Z' : 'J', body,
                      kind == DAMAGE_EARLY_END ? 0 : 1);
        return;
    }
    if (!pick_packet(d, s, "A", NULL, &at) || packet_bytes(s, at) != 33)
        return;
    memcpy(body, s->at + at + 3, sizeof body);
    if (kind == DAMAGE_NO_LOGIN || kind == DAMAGE_REJECTION)
        splice(s, at, packet_bytes(s, at), NULL, 0);
    if (kind == DAMAGE_REJECTION)
        insert_packet(s, at, 'J', dice_chance(d, 50) ? body : (const uint8_t *)"A", 1);
    if (kind == DAMAGE_SECOND_LOGIN && pick_packet(d, s, NULL, NULL, &at))
        insert_packet(s, at + packet_bytes(s, at), 'A', body, sizeof body);
}

/* A number of twenty characters that breaks the rules of a login's. */
static void bad_login_number(struct dice *d, uint8_t *text)
{
    size_t n;
    memset(text, ' ', 20);
    switch (dice_below(d, 6)) {
    case 0: /* no digits */
        break;
    case 1:
        memcpy(text + 18, "01", 2);
        break;
    case 2:
        text[19] = '0';
        break;
    case 3: /* just over the limit, or many digits */
        n = dice_between(d, 13, 20);
        memset(text + 20 - n, '0', n);
        text[20 - n] = '1';
        text[19] = '1';
        break;
    case 4: /* digits first */
        text[0] = '1';
        break;
    default:
        text[19] = '1';
        set_outside(d, &text[dice_between(d, 15, 19)], " 0123456789");
        break;
    }
}

static void damage_login(struct dice *d, enum session_damage kind,
                         struct bytes *s)
{
    uint8_t *text;
    uint64_t number = 0;
    size_t at;
    if (!pick_packet(d, s, "A", NULL, &at) || packet_bytes(s, at) != 33)
        return;
    text = s->at + at + 13;
    if (kind == DAMAGE_LOGIN_TEXT) {
        bad_login_number(d, text);
    } else if (kind == DAMAGE_LOGIN_SESSION) {
        set_other(d, &s->at[at + 3 + dice_below(d, 10)]);
    } else {
        struct bytes other = {s->at + at, 0, 33};
        uint8_t session[PLAIN_SESSION_BYTES];
        memcpy(session, s->at + at + 3, sizeof session);
        for (size_t i = 0; i < 20; i++)
            if (text[i] != ' ')
                number = 10 * number + (uint64_t)(text[i] - '0');
        number = dice_chance(d, 50) ? number % PLAIN_MAX_NUMBER + 1
                                    : 1 + pick_number(d, PLAIN_MAX_NUMBER - 1);
        put_login(&other, session, number);
    }
}

void damage_session(struct dice *d, enum session_damage kind, struct bytes *s)
{
    if (s->n == 0)
        return;
    if (kind <= DAMAGE_ADD_BYTE)
        damage_bytes(d, kind, s);
    else if (kind <= DAMAGE_LENGTH_OFF)
        damage_length(d, kind, s);
    else if (kind == DAMAGE_LETTER)
        damage_order(d, kind, s);
    else if (kind <= DAMAGE_FIXED_LENGTH)
        damage_place(d, kind, s);
    else if (kind <= DAMAGE_LOGIN_SESSION)
        damage_login(d, kind, s);
    else if (kind >= DAMAGE_DROP_PACKET && kind <= DAMAGE_SWAP_PACKETS)
        damage_order(d, kind, s);
    else
        damage_messages(d, kind, s);
}
