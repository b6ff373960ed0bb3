/* A small fixed generator of random numbers (splitmix64), and what is drawn
 * with it. The same seed always gives the same numbers. */
#ifndef DICE_H
#define DICE_H

#include <stdbool.h>
#include <stddef.h>
#include <stdint.h>

struct dice {
    uint64_t state;
};

struct dice dice_seeded(uint64_t seed);
uint64_t dice_next(struct dice *d);
uint64_t dice_below(struct dice *d, uint64_t bound);                 /* 0 to bound - 1 */
uint64_t dice_between(struct dice *d, uint64_t low, uint64_t high);  /* both ends included */
bool dice_chance(struct dice *d, unsigned percent);
void dice_fill(struct dice *d, uint8_t *out, size_t n);
uint8_t dice_byte(struct dice *d);

uint8_t pick(struct dice *d, const char *list);           /* a byte from a list of letters */
uint8_t pick_outside(struct dice *d, const char *list);   /* one that is not in it, zero included */
uint64_t pick_number(struct dice *d, uint64_t most);      /* 0 to most, often at an end or small */

/* Changes to one byte. They draw after the place has been drawn, so that the
 * order of drawing is the same under every compiler. */
void set_any(struct dice *d, uint8_t *p);
void set_other(struct dice *d, uint8_t *p); /* any value but the one that is there */
void set_between(struct dice *d, uint8_t *p, uint64_t low, uint64_t high);
void set_outside(struct dice *d, uint8_t *p, const char *list);
void flip_bit(struct dice *d, uint8_t *p);

#endif
