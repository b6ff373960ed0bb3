#include "parts.h"

#include <string.h>

/* Big-endian numbers, any width. */

uint64_t get_number(const uint8_t *p, size_t width)
{
    uint64_t v = 0;
    for (size_t i = 0; i < width; i++)
        v = v << 8 | p[i];
    return v;
}

void set_number(uint8_t *p, size_t width, uint64_t v)
{
    for (size_t i = width; i-- > 0; v >>= 8)
        p[i] = (uint8_t)v;
}

/* Packets. */

void put_bytes(struct bytes *s, const uint8_t *from, size_t n)
{
    if (s->room - s->n < n)
        return;
    memcpy(s->at + s->n, from, n);
    s->n += n;
}

void put_packet(struct bytes *s, uint8_t letter, const uint8_t *body, size_t n)
{
    uint8_t head[3];
    if (s->room - s->n < n + sizeof head)
        return;
    set_number(head, 2, n + 1);
    head[2] = letter;
    put_bytes(s, head, sizeof head);
    if (n != 0)
        put_bytes(s, body, n);
}

/* Writes a number's digits and gives their count. */
static size_t digits(uint8_t *out, uint64_t v)
{
    uint64_t unit = 1;
    size_t n = 0;
    while (v / unit >= 10)
        unit *= 10;
    for (; unit != 0; unit /= 10)
        out[n++] = (uint8_t)('0' + v / unit % 10);
    return n;
}

void put_login(struct bytes *s, const uint8_t *session, uint64_t number)
{
    uint8_t body[30], text[20];
    size_t n = digits(text, number);
    memcpy(body, session, PLAIN_SESSION_BYTES);
    memset(body + 10, ' ', 20);
    memcpy(body + 30 - n, text, n);
    put_packet(s, 'A', body, sizeof body);
}

void put_message(struct bytes *s, const struct plain_message *m)
{
    uint8_t out[PLAIN_MESSAGE_BYTES];
    size_t n;
    if (plain_write(m, out, sizeof out, &n) == 0)
        put_packet(s, 'S', out, n);
}
