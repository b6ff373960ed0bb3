/* What the damages to a session's packets and to its messages share. */
#ifndef DAMAGE_H
#define DAMAGE_H

#include "parts.h"

/* How many bytes the packet at a place has by its length. */
size_t packet_bytes(const struct bytes *s, size_t at);

/* Whether the packet at a place has one of the letters, and if message letters
 * are asked for, holds one of those at its true length. */
bool matches(const struct bytes *s, size_t at, const char *letters,
             const char *inner);

/* A random packet of that sort; false if there is none. */
bool pick_packet(struct dice *d, const struct bytes *s, const char *letters,
                 const char *inner, size_t *found);

/* Puts a packet into the middle. */
void insert_packet(struct bytes *s, size_t at, uint8_t letter,
                   const uint8_t *body, size_t n);

/* Gives a packet another body of any length. */
void change_length(struct dice *d, struct bytes *s, size_t at, size_t length);

/* Damages a message of the session, from DAMAGE_EMPTY_MESSAGE on. */
void damage_messages(struct dice *d, enum session_damage kind, struct bytes *s);

#endif
