#include "dice.h"

#include <string.h>

struct dice dice_seeded(uint64_t seed)
{
    return (struct dice){seed};
}

uint64_t dice_next(struct dice *d)
{
    uint64_t z = d->state += UINT64_C(0x9E3779B97F4A7C15);
    z = (z ^ z >> 30) * UINT64_C(0xBF58476D1CE4E5B9);
    z = (z ^ z >> 27) * UINT64_C(0x94D049BB133111EB);
    return z ^ z >> 31;
}

uint64_t dice_below(struct dice *d, uint64_t bound)
{
    return dice_next(d) % bound;
}

uint64_t dice_between(struct dice *d, uint64_t low, uint64_t high)
{
    return low + dice_below(d, high - low + 1);
}

bool dice_chance(struct dice *d, unsigned percent)
{
    return dice_below(d, 100) < percent;
}

void dice_fill(struct dice *d, uint8_t *out, size_t n)
{
    for (size_t i = 0; i < n; i++)
        out[i] = (uint8_t)dice_next(d);
}

uint8_t dice_byte(struct dice *d)
{
    return (uint8_t)dice_next(d);
}

uint8_t pick(struct dice *d, const char *list)
{
    return (uint8_t)list[dice_below(d, strlen(list))];
}

uint8_t pick_outside(struct dice *d, const char *list)
{
    for (;;) {
        uint8_t b = dice_byte(d);
        if (memchr(list, b, strlen(list)) == NULL)
            return b;
    }
}

uint64_t pick_number(struct dice *d, uint64_t most)
{
    switch (dice_below(d, 6)) {
    case 0:
        return most - dice_below(d, most < 3 ? most + 1 : 3);
    case 1:
        return dice_below(d, most < 3 ? most + 1 : 3);
    case 2:
        return dice_below(d, most < 1000 ? most + 1 : 1000);
    default:
        return most == UINT64_MAX ? dice_next(d) : dice_below(d, most + 1);
    }
}

void set_any(struct dice *d, uint8_t *p)
{
    *p = dice_byte(d);
}

void set_other(struct dice *d, uint8_t *p)
{
    *p ^= (uint8_t)dice_between(d, 1, 255);
}

void set_between(struct dice *d, uint8_t *p, uint64_t low, uint64_t high)
{
    *p = (uint8_t)dice_between(d, low, high);
}

void set_outside(struct dice *d, uint8_t *p, const char *list)
{
    *p = pick_outside(d, list);
}

void flip_bit(struct dice *d, uint8_t *p)
{
    *p ^= (uint8_t)(1 << dice_below(d, 8));
}
