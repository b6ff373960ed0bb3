/* A reader of one Top of Market session, in plain C11.
 *
 * It reads the server's SoupBinTCP byte stream piece by piece, keeps a table
 * of at most PLAIN_MAX_ROWS instruments, saves and restores that table, moves saved
 * tables between versions, and reads and writes single messages. The caller lends all
 * memory; there is no other state.
 * Refusals are the numbers of document 01; 0 means done.
 */
#ifndef PLAIN_H
#define PLAIN_H

#include <stdbool.h>
#include <stddef.h>
#include <stdint.h>

/* The most rows of a table, from which the sizes below follow, and the newest version
 * of an image. Built with version 2 it is the reader from before document 02 gave each
 * side a time; with 256 rows and version 1, the one from before it raised the rows. */
#ifndef PLAIN_MAX_ROWS
#define PLAIN_MAX_ROWS 500
#endif
#ifndef PLAIN_NEWEST_VERSION
#define PLAIN_NEWEST_VERSION 3
#endif

enum {
    PLAIN_ROW_BYTES = 124,
    PLAIN_TABLE_BYTES = PLAIN_MAX_ROWS * PLAIN_ROW_BYTES,
    PLAIN_INDEX_BYTES = PLAIN_MAX_ROWS * 2, /* a row's number in each place */
    PLAIN_BLOCK_BYTES = 512,
    PLAIN_BLOCK_ROWS = 4,
    PLAIN_MAX_BLOCKS = 1 + (PLAIN_MAX_ROWS + PLAIN_BLOCK_ROWS - 1) / PLAIN_BLOCK_ROWS,
    PLAIN_IMAGE_BYTES = PLAIN_MAX_BLOCKS * PLAIN_BLOCK_BYTES,
    PLAIN_ROWS_OF_VERSION_1 = 256, /* an image without times that has more is of version 2 */
    PLAIN_PACKET_BYTES = 258,      /* the longest packet, its length included */
    PLAIN_MESSAGE_BYTES = 63,      /* the longest message, a directory */
    PLAIN_SESSION_BYTES = 10,
    PLAIN_MAX_PACKETS = 1000,      /* the highest ceiling of a run */
    PLAIN_LISTING_BYTES = 19 + PLAIN_MAX_ROWS * 37 + 11 /* first line, rows and last line at their longest */
};

/* The versions of an image: few rows or many, both without the times of sides, and
 * any rows with them. */
enum { PLAIN_VERSION_FEW = 1, PLAIN_VERSION_MANY = 2, PLAIN_VERSION_TIMED = 3 };

#define PLAIN_MAX_NUMBER UINT64_C(1000000000000)
#define PLAIN_MAX_TIME UINT64_C(86399999999999)
#define PLAIN_UNKNOWN_TIME UINT64_MAX /* of a side that was set before its time was kept */

/* Where each field of a row begins. */
enum {
    ROW_ID = 0, ROW_SYMBOL = 4, ROW_YEAR = 12, ROW_MONTH = 13, ROW_DAY = 14,
    ROW_STRIKE = 15, ROW_TYPE = 19, ROW_UNDERLYING = 20, ROW_CLOSING = 33,
    ROW_TRADABLE = 34, ROW_VARIATION = 35, ROW_RESERVED = 36, ROW_STATE = 52,
    ROW_CONDITION = 53, ROW_SIDES = 54, ROW_GAP = 55, ROW_BID = 56,
    ROW_ASK = 76, ROW_TRACKING = 96, ROW_TIME = 98, ROW_BID_TIME = 106,
    ROW_ASK_TIME = 114, ROW_TAIL = 122
};

/* The eight kinds of message record. */
enum plain_kind {
    PLAIN_SYSTEM_EVENT, /* S */
    PLAIN_DIRECTORY,    /* m */
    PLAIN_STATE,        /* H */
    PLAIN_BOTH_SHORT,   /* q */
    PLAIN_BOTH_LONG,    /* Q */
    PLAIN_ONE_SHORT,    /* b, a */
    PLAIN_ONE_LONG,     /* B, A */
    PLAIN_REPLAY_END    /* M */
};

enum plain_which { PLAIN_BID, PLAIN_ASK };

/* A side's price is 0 exactly where it has none: nobody bids, or nobody offers.
 * So no record can hold zero as a price above zero. A strike of 0 is a number. */

struct plain_short_side {
    uint16_t market, price, size, customer, professional; /* price in pennies */
};

struct plain_long_side {
    uint32_t market, price, size, customer, professional; /* price in 1/10000 */
};

struct plain_directory {
    uint32_t strike;
    uint8_t year, month, day, type, closing, tradable, variation;
};

struct plain_both_short {
    uint8_t condition;
    struct plain_short_side bid, ask;
};

struct plain_both_long {
    uint8_t condition;
    struct plain_long_side bid, ask;
};

struct plain_one_short {
    uint8_t condition;
    enum plain_which which;
    struct plain_short_side side;
};

struct plain_one_long {
    uint8_t condition;
    enum plain_which which;
    struct plain_long_side side;
};

/* One message. A system event has no id, the end of replay only its number;
 * what a kind lacks is 0 when reading and is not looked at when writing.
 * The texts are those of a directory. */
struct plain_message {
    enum plain_kind kind;
    uint16_t tracking;
    uint32_t id;
    uint64_t time;
    union {
        uint8_t code;  /* system event */
        uint8_t state; /* state */
        struct plain_directory directory;
        struct plain_both_short both_short;
        struct plain_both_long both_long;
        struct plain_one_short one_short;
        struct plain_one_long one_long;
        uint64_t number; /* end of replay */
    };
    uint8_t symbol[8], underlying[13], reserved[16];
};

/* The reader's handle. Places of `held` past `used` mean nothing. */
struct plain_reader {
    uint64_t next, live;
    uint32_t rows, used, refusal; /* refusal 0: none stands */
    uint8_t event;                /* 0 before any */
    bool known, logged_in, ended;
    uint8_t session[PLAIN_SESSION_BYTES];
    uint8_t held[PLAIN_PACKET_BYTES];
};

enum plain_answer_kind { PLAIN_EVENT, PLAIN_MORE, PLAIN_ENDED, PLAIN_REFUSED };

enum plain_event_kind {
    PLAIN_MESSAGE,
    PLAIN_ACCEPTED, /* login accepted */
    PLAIN_REJECTED, /* login rejected */
    PLAIN_HEARTBEAT,
    PLAIN_SESSION_END,
    PLAIN_SKIPPED
};

/* One step's answer. Only the fields that its kind names are set. */
struct plain_answer {
    enum plain_answer_kind kind;
    enum plain_event_kind event;          /* event */
    size_t taken;                         /* always */
    uint32_t refusal;                     /* always; 0 unless refused */
    uint8_t reason;                       /* login rejected */
    uint8_t session[PLAIN_SESSION_BYTES]; /* login accepted */
    struct plain_message message;         /* message */
};

/* Why a run stopped. */
enum plain_why { PLAIN_RAN_OUT, PLAIN_RAN_ENDED, PLAIN_RAN_REFUSED, PLAIN_RAN_CEILING };

/* A run's answer. */
struct plain_ran {
    enum plain_why why;
    uint32_t refusal;  /* 0 unless refused */
    uint32_t finished; /* packets accepted */
    size_t taken;
};

/* The index memory has the numbers of the rows in use, rising by the id of the
 * row, and then zeros. A search that meets a number of no row in use is refused
 * with 20, which changes nothing and takes no byte of the packet it is for. */

/* Makes the handle fresh and fills table and index with zeros: 0 or 20. */
int plain_start(struct plain_reader *r, uint8_t *table, size_t table_len,
                uint8_t *index, size_t index_len);

/* Takes bytes from the piece up to the end of one packet. */
void plain_step(struct plain_reader *r, uint8_t *table, size_t table_len,
                uint8_t *index, size_t index_len,
                const uint8_t *piece, size_t n, struct plain_answer *out);

/* Steps until `ceiling` packets are finished, and tells no events. It stops
 * earlier where the reader has ended or refused, or wants more, and where a
 * search meets no row; the packets before that one stay. */
struct plain_ran plain_run(struct plain_reader *r, uint8_t *table, size_t table_len,
                           uint8_t *index, size_t index_len,
                           const uint8_t *piece, size_t n, uint32_t ceiling);

/* Writes the saved table: 0, 20, 24 or 25. `written` is 0 on a refusal. */
int plain_save(const struct plain_reader *r, const uint8_t *table,
               size_t table_len, uint8_t *out, size_t out_len, size_t *written);

/* Makes handle, table and index from an image of any version: 0, or 20 to 24 and a
 * fresh handle, with table and index left. The times of sides that an image without
 * them has seen are unknown. */
int plain_restore(struct plain_reader *r, uint8_t *table, size_t table_len,
                  uint8_t *index, size_t index_len, const uint8_t *image, size_t n);

#if PLAIN_NEWEST_VERSION >= 3
/* Writes an image without the times of sides as one with them, all unknown, or one
 * with them as one without: 0, 21 to 24 as on restoring, with 23 for a version that the
 * move does not start from, or 25. `written` is 0 on a refusal, and else the image's
 * length. */
int plain_forward(const uint8_t *image, size_t n, uint8_t *out, size_t out_len,
                  size_t *written);
int plain_back(const uint8_t *image, size_t n, uint8_t *out, size_t out_len,
               size_t *written);
#endif

/* Reads one message: 0, 10, 11 or 12. A refusal leaves the record alone. */
int plain_read(const uint8_t *bytes, size_t n, struct plain_message *m);

/* Writes one message: 0, 26 or 25. `written` is 0 on a refusal. */
int plain_write(const struct plain_message *m, uint8_t *out, size_t out_len,
                size_t *written);

/* Writes the listing's text, with no closing zero: 0, 20 or 25. */
int plain_listing(const struct plain_reader *r, const uint8_t *table,
                  size_t table_len, char *out, size_t out_len, size_t *written);

/* Looks for the row of an id: 0 or 20. `row` is null where none is found. */
int plain_find(const struct plain_reader *r, const uint8_t *table,
               size_t table_len, const uint8_t *index, size_t index_len,
               uint32_t id, const uint8_t **row);

/* Whether two records say the same, field by field of their kind. */
bool plain_same_message(const struct plain_message *a,
                        const struct plain_message *b);

/* Whether two answers say the same, looking only at the fields that are set. */
bool plain_same_answer(const struct plain_answer *a,
                       const struct plain_answer *b);

/* Whether two handles are the same, places past the held bytes left aside. */
bool plain_same_reader(const struct plain_reader *a,
                       const struct plain_reader *b);

#endif
