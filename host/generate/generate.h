/* Seeded generators of sessions, handles, tables, images and message records,
 * true ones and damaged ones. The same seed always gives the same bytes.
 */
#ifndef GENERATE_H
#define GENERATE_H

#include "dice.h"
#include "plain.h"

/* Bytes in lent memory. */
struct bytes {
    uint8_t *at;
    size_t n, room;
};

/* Puts packets at the end. What does not fit is left out. */
void put_packet(struct bytes *s, uint8_t letter, const uint8_t *body, size_t n);
void put_login(struct bytes *s, const uint8_t *session, uint64_t number);
void put_message(struct bytes *s, const struct plain_message *m);

/* Message records: any kind, keeping every rule, extremes included; then one
 * rule broken. A broken record is refused with 26, and so are its bytes with
 * 12 where they can be laid out. */
void make_message(struct dice *d, enum plain_kind kind, struct plain_message *m);
void make_any_message(struct dice *d, struct plain_message *m);
void break_message(struct dice *d, struct plain_message *m);

/* Each price of a quote: none, 1, the highest of its form, or left. */
void vary_prices(struct dice *d, struct plain_message *m);

/* Message bytes of any letter, true or with bytes and length spoiled. */
size_t make_message_bytes(struct dice *d, uint8_t *out, size_t room);

/* A session as the exchange sends it. After the opening come `packets`
 * packets, drawn by the seven weights, of which one at least is not 0. */
struct session_plan {
    unsigned instruments; /* 1 to PLAIN_MAX_ROWS */
    unsigned packets;
    unsigned quotes, states, directories, newcomers, events, heartbeats, skipped;
    unsigned varied; /* percent of the quotes whose prices are varied */
    bool replay_end; /* close with the end of replay */
    bool end;        /* close with Z */
    uint64_t first;  /* the login's number */
    uint8_t session[PLAIN_SESSION_BYTES];
};

struct session_plan usual_plan(void);
struct session_plan random_plan(struct dice *d);
size_t session_room(const struct session_plan *plan); /* enough for any */
void make_session(struct dice *d, const struct session_plan *plan,
                  struct bytes *s);

/* A handle that waits for the plan's login: fresh when the first number is 1,
 * else with the session known. The table is not touched. */
struct plain_reader reader_for_plan(const struct session_plan *plan);

enum session_damage {
    DAMAGE_FLIP, DAMAGE_CUT, DAMAGE_DROP_BYTE, DAMAGE_ADD_BYTE,
    DAMAGE_LENGTH_ZERO, DAMAGE_LENGTH_OVER, DAMAGE_LENGTH_OFF, DAMAGE_LETTER,
    DAMAGE_NO_LOGIN, DAMAGE_SECOND_LOGIN, DAMAGE_REJECTION,
    DAMAGE_LATE_REJECTION, DAMAGE_EARLY_END, DAMAGE_FIXED_LENGTH,
    DAMAGE_LOGIN_TEXT, DAMAGE_LOGIN_NUMBER, DAMAGE_LOGIN_SESSION,
    DAMAGE_EMPTY_MESSAGE, DAMAGE_MESSAGE_LETTER, DAMAGE_MESSAGE_LENGTH,
    DAMAGE_TIME, DAMAGE_TEXT, DAMAGE_PRICE, DAMAGE_CODE, DAMAGE_DATE,
    DAMAGE_REPLAY_NUMBER, DAMAGE_UNKNOWN_ID, DAMAGE_NOT_TRADING,
    DAMAGE_UNTRADABLE, DAMAGE_FIXED_FIELD, DAMAGE_REPEATED_DIRECTORY,
    DAMAGE_FULL_TABLE, DAMAGE_DROP_PACKET, DAMAGE_REPEAT_PACKET,
    DAMAGE_SWAP_PACKETS, DAMAGE_RECORD,
    SESSION_DAMAGES
};

/* Extra room that a damage may need: a directory for each row of a table and one more. */
enum { DAMAGE_ROOM = (PLAIN_MAX_ROWS + 1) * (3 + PLAIN_MESSAGE_BYTES) + 512 };

/* Damages a session; it stays as it is where the damage finds no place. */
void damage_session(struct dice *d, enum session_damage kind, struct bytes *s);

/* The size of the next piece to hand to a reader: whole, small or single. */
size_t make_piece_size(struct dice *d, size_t left);

/* Handles and tables. A made handle keeps every limit, its rows every rule;
 * `waiting` asks for one that has neither ended nor refused. */
void make_row(struct dice *d, uint32_t id, uint8_t *row);
void break_row(struct dice *d, uint8_t *row);

/* Breaks a rule of bytes 106-123: where rows have the times of their sides, that of a
 * seen side is then out of range or that of an unseen one is set, and where they have
 * none, one is set; or one of the last two bytes is. */
void break_times(struct dice *d, bool timed, uint8_t *row);

void make_reader(struct dice *d, bool waiting, struct plain_reader *r,
                 uint8_t *table);
void break_reader(struct dice *d, struct plain_reader *r); /* leads to 20 */
void spoil_reader(struct dice *d, struct plain_reader *r); /* leads to 24 on saving */
void blur_table(struct dice *d, const struct plain_reader *r, uint8_t *table);

/* The true index of a table: the numbers of its rows in use, rising by id, and
 * then zeros. Where rows share an id, the lower number comes first. */
void make_index(const uint8_t *table, uint32_t rows, uint8_t *index);

/* A place that names no row in use, ids out of order, a row named twice, zeros
 * alone, places out of use that are not zero, and any places. */
enum index_damage {
    INDEX_PAST, INDEX_ORDER, INDEX_TWICE, INDEX_ZEROS, INDEX_UNUSED, INDEX_ANY,
    INDEX_DAMAGES
};

/* Damages an index with so many rows in use; it stays where there are none. */
void damage_index(struct dice *d, enum index_damage kind, uint32_t rows, uint8_t *index);

/* A length: mostly the exact one, else near it, zero, or far. */
size_t make_length(struct dice *d, size_t exact);

/* A message packet that speaks to the rows of a table in lent memory: known
 * and unknown ids, changed and unchanged directories. */
void put_packet_for(struct dice *d, const struct plain_reader *r,
                    const uint8_t *table, struct bytes *s);

/* A handle that is logged in and holds nothing, a row of its table with any
 * state and tradable, and the packet of a quote to that row. Where blurred, one
 * of the two is a byte outside its list. */
void make_quoted(struct dice *d, bool blurred, struct plain_reader *r,
                 uint8_t *table, struct bytes *s);

/* The same sort of handle, a row of its table that takes quotes, and packets of quotes to
 * it, many at an end of the range of times, often with a purge behind them. Where broken,
 * one of the row's times breaks its rule. */
void make_timed(struct dice *d, bool broken, struct plain_reader *r,
                uint8_t *table, struct bytes *s);

/* IMAGE_RESIZED gives an image one of the counts of blocks about which versions and
 * lengths change, IMAGE_NAMED names other rows, both often with the version that is
 * then right. IMAGE_RELABELLED gives an image with the times of sides the version of one
 * without them, or the other way round, and leaves the times; IMAGE_TIME breaks one. */
enum image_damage {
    IMAGE_EMPTY, IMAGE_PART, IMAGE_LONG, IMAGE_CHECK, IMAGE_NUMBER, IMAGE_COUNT,
    IMAGE_NEXT_RANGE, IMAGE_NEXT_DIFFERS, IMAGE_BLOCK_DROPPED, IMAGE_BLOCK_ADDED,
    IMAGE_BLOCKS_SWAPPED, IMAGE_VERSION, IMAGE_RELABELLED, IMAGE_RESIZED, IMAGE_NAMED,
    IMAGE_KNOWN, IMAGE_EVENT, IMAGE_ROWS, IMAGE_LIVE, IMAGE_PADDING,
    IMAGE_UNKNOWN_SESSION, IMAGE_ROW, IMAGE_TIME, IMAGE_ID_TWICE, IMAGE_SLOT,
    IMAGE_ANY_BYTE, IMAGE_SEVERAL,
    IMAGE_DAMAGES
};

/* Makes a true image, of version 3 or, about as often, of the one of 1 and 2 that its
 * rows ask for; the room is at least PLAIN_IMAGE_BYTES. */
void make_image(struct dice *d, struct bytes *image);

/* Makes an image of version 3 one of version 1 or 2. */
void age_image(struct bytes *image);

/* Damages an image and makes its checks right again, save where the damage is
 * to a check. The room is one block more than PLAIN_IMAGE_BYTES. */
void damage_image(struct dice *d, enum image_damage kind, struct bytes *image);

/* Makes every block's check right. */
void seal_image(struct bytes *image);

#endif
