/* What the generators share among themselves. */
#ifndef PARTS_H
#define PARTS_H

#include "generate.h"

/* The lists of document 01. By document 02 a quote is taken in three of the states
 * and in none of the others. */
static const char event_codes[] = "OSQNLECW";
static const char states[] = "BSHTIORX";
static const char quoting_states[] = "BST";
static const char quiet_states[] = "HIORX";
static const char conditions[] = " XY";
static const char types[] = "CPN";
static const char closings[] = "NLW";
static const char tradables[] = "YN";
static const char variations[] = "ESP";

/* Big-endian numbers of any width, apart from those of the header, so that the
 * plain reader is tested without it. */
uint64_t get_number(const uint8_t *p, size_t width);
void set_number(uint8_t *p, size_t width, uint64_t v);

/* Bytes at the end, if there is room. */
void put_bytes(struct bytes *s, const uint8_t *from, size_t n);

/* Texts: a ticker, one padded with spaces, and one that breaks its rules. */
const char *pick_root(struct dice *d);
void set_text(uint8_t *out, size_t n, const char *text);
void break_text(struct dice *d, uint8_t *text, size_t n);

/* A field of a message's bytes that breaks its rule: a letter outside its
 * list, a directory's date, a price's top bit. */
void damage_code(struct dice *d, uint8_t *m);
void damage_date(struct dice *d, uint8_t *m);
void damage_price(struct dice *d, uint8_t *m);

#endif
