/* Two worlds of lent memory, one for the library and one for the plain
 * reader, and calls that are made on both and compared.
 */
#ifndef PAIR_H
#define PAIR_H

#include "nelqubat.h"
#include "plain.h"

/* Bytes around each lent memory, and the most that is lent of each. Lengths
 * are wrong on purpose now and then, so there is room for longer ones. */
enum {
    GUARD_BYTES = 64,
    SPARE_BYTES = 200,
    HANDLE_ROOM = NELQUBAT_HANDLE_BYTES + SPARE_BYTES,
    TABLE_ROOM = NELQUBAT_TABLE_BYTES + SPARE_BYTES,
    INDEX_ROOM = NELQUBAT_INDEX_BYTES + SPARE_BYTES,
    SMALL_ROOM = NELQUBAT_RECORD_BYTES + SPARE_BYTES, /* event, record, line, message */
    IMAGE_ROOM = NELQUBAT_IMAGE_BYTES + SPARE_BYTES,  /* where a table is saved or an image moved */
    INPUT_ROOM = 1 << 18                              /* the longest input */
};

/* The calls. `feed` steps through its input until the reader wants more, has
 * ended or refuses; `turns` does so by a run and a step in turn; where an index
 * leads astray, both mend it and go on. `resume` saves, restores what was saved and
 * logs in again. `round` moves an image, moves it the other way again, and restores it
 * from both versions. `spoil` makes both indexes false, in the same way. */
enum operation {
    CALL_START, CALL_STEP, CALL_FEED, CALL_RUN, CALL_TURNS, CALL_SAVE, CALL_RESTORE,
    CALL_RESUME, CALL_FORWARD, CALL_BACK, CALL_ROUND, CALL_READ, CALL_WRITE, CALL_LINE,
    CALL_FIND, CALL_SPOIL,
    OPERATIONS
};

const char *operation_name(enum operation op);

/* One call: the lengths that are lent, and how many bytes of input it has:
 * a piece, an image, a message's bytes or a record. */
struct call {
    enum operation op;
    uint32_t handle_n, table_n, index_n;
    uint32_t memory_n; /* event, record or out memory */
    uint32_t input_n;
    uint64_t k; /* the line or the id that is asked for, a run's ceiling, 1 for a round that
                   goes back first, or how to spoil */
};

/* A call that lends every memory with its right length, and much for output. */
struct call usual_call(enum operation op);

/* Whether a call writes to image memory. */
bool writes_image(enum operation op);

/* Whether a call's lengths fit the worlds' memory. */
bool call_fits(const struct call *c);

struct world {
    uint8_t handle[GUARD_BYTES + HANDLE_ROOM + GUARD_BYTES];
    uint8_t table[GUARD_BYTES + TABLE_ROOM + GUARD_BYTES];
    uint8_t index[GUARD_BYTES + INDEX_ROOM + GUARD_BYTES];
    uint8_t small[GUARD_BYTES + SMALL_ROOM + GUARD_BYTES];
    uint8_t image[GUARD_BYTES + IMAGE_ROOM + GUARD_BYTES];
};

/* What the calls met; met.h counts and prints it. */
enum met_row {
    MET_START, MET_STEP, MET_AGAIN, MET_RUN, MET_RUN_AGAIN, MET_SAVE, MET_RESTORE, MET_FORWARD,
    MET_BACK, MET_READ, MET_WRITE, MET_LINE, MET_FIND,
    MET_ROWS
};

enum {
    MET_REFUSALS = 28, MET_KINDS = 10, MET_LETTERS = 10, MET_LETTER_CALLS = 3, MET_LINES = 4, MET_FINDS = 4,
    MET_FINISHES = 6, MET_STARTS = 4, MET_CEILINGS = 6
};

/* What became of a quote to a row: taken, or refused with 14 although tradable
 * is Y, or with another tradable. */
enum met_quote { MET_TAKEN, MET_STATE_WRONG, MET_UNTRADABLE, MET_QUOTES };

/* The row's state: none yet, one of the eight, or a byte that is no state. */
enum { MET_STATES = 10 };

/* A quote's price: none, 1, the highest of its form, another; the sides that the
 * six letters set; and what a row's line says of a side: unseen, none, a price. */
enum { MET_PRICES = 4, MET_SIDES = 8, MET_WORDS = 3 };

/* An index: true, or false by its first fault: a place in use that names no row in
 * use, zeros alone for several rows, a row named twice, ids that fall, or places
 * out of use that are not zero. */
enum met_index { MET_TRUE, MET_PAST, MET_ZEROS, MET_TWICE, MET_ORDER, MET_UNUSED, MET_INDEXES };

/* What a search came to: a directory for a new id and for a known one, a state and
 * a quote that were taken, refusals 13 to 16, and what a find found. */
enum met_search {
    MET_NEW, MET_KNOWN, MET_ACTION, MET_QUOTE, MET_NO_ROW, MET_NOT_TRADING, MET_FIXED_FIELD, MET_FULL,
    MET_FOUND, MET_NOT_FOUND,
    MET_SEARCHES
};

/* Where a search went astray: for a packet that lay whole, one that was cut, the
 * first packet of a run or a later one, and in a find. */
enum met_astray {
    MET_ASTRAY_M, MET_ASTRAY_H, MET_ASTRAY_QUOTE, MET_ASTRAY_HELD, MET_ASTRAY_RUN, MET_ASTRAY_RUN_HELD,
    MET_ASTRAY_LATER, MET_ASTRAY_FIND,
    MET_ASTRAYS
};

/* Where a new id was entered, the calls that are lent an index, and wrong lengths. */
enum { MET_ENTRIES = 6, MET_LENT = 5, MET_LENGTHS = 3, MET_BUILT = 2 };

/* The calls that have an image, and what is counted of one that they took: its version
 * (of what comes out of a move back), and whether it has the most rows of version 1, the
 * least of version 2, or the most of all. */
enum met_call { MET_SAVED, MET_RESTORED, MET_FORWARDED, MET_BACKED, MET_IMAGE_CALLS };

enum met_image {
    MET_VERSION_1, MET_VERSION_2, MET_VERSION_3, MET_LAST_OF_1, MET_FIRST_OF_2, MET_MOST_ROWS, MET_IMAGES
};

/* 23 for the version alone, on restoring: 0 to 3 or another, for too few or too many rows;
 * in all blocks or in some; and how the rows that are named differ from those that the
 * blocks have room for. */
enum { MET_VERSIONS = 5, MET_VERSIONS_IN = 2, MET_NAMED = 4 };

/* 23 for the version alone, on moving: none or one that is not known, one that is right
 * but not moved from, 1 or 2 that does not fit the rows, several; and what restoring
 * answers to such an image. */
enum met_wrong {
    MET_WRONG_0, MET_WRONG_1, MET_WRONG_2, MET_WRONG_3, MET_WRONG_OTHER, MET_MISFIT_1, MET_MISFIT_2,
    MET_MIXED, MET_ELSE_DONE, MET_ELSE_24,
    MET_WRONGS
};

/* Output of a move: none, one byte short, shorter; exact, longer. And the rounds that
 * came back to the same bytes, from each version, or did not. */
enum { MET_MOVES = 2, MET_OUTPUTS = 5, MET_ROUNDS = 4 };

/* When a side was set: not yet, at 0, in between, at the latest time, or unknown. */
enum met_time {
    MET_UNSEEN, MET_AT_ZERO, MET_AT_KNOWN, MET_AT_LATEST, MET_AT_UNKNOWN, MET_TIMES
};

/* 24 for bytes 106-123 alone: in version 3 the time of a seen side past the range or
 * nearly unknown, that of an unseen side set, and the bytes behind; and in an old version
 * any of them set. */
enum met_untimely {
    MET_TIME_PAST, MET_TIME_NEARLY, MET_TIME_UNSEEN, MET_TAIL_122, MET_TAIL_123, MET_OLD_SEEN,
    MET_OLD_UNSEEN, MET_OLD_122, MET_OLD_123,
    MET_UNTIMELY
};

/* Counts of blocks: the last of version 1, the first of version 2, the most, and one
 * more; and 16 by a step and by a run, with the most rows in use. */
enum { MET_BLOCKS = 4, MET_FULLS = 2 };

/* What a call found: bytes held, rows in use, the index, and whether it was zeros; and
 * where a step was to purge a row, when its two sides were set. */
struct met_before {
    size_t held, rows;
    enum met_index index;
    bool is_zero, purges;
    enum met_time bid, ask;
};

struct met {
    unsigned long refusals[MET_ROWS][MET_REFUSALS];
    unsigned long kinds[MET_KINDS];                      /* of a step's answer */
    unsigned long whys[MET_KINDS];                       /* why a run stopped */
    unsigned long finishes[MET_FINISHES];                /* packets a run finished, beside its ceiling */
    unsigned long starts[MET_STARTS];                    /* what the handle of a run had before it */
    unsigned long ceilings[MET_CEILINGS];
    unsigned long letters[MET_LETTER_CALLS][MET_LETTERS]; /* told by a step, read, written */
    unsigned long lines[MET_LINES];                      /* the first, a row's, the last, past it */
    unsigned long finds[MET_FINDS];                      /* a row alone, of several, none, one out of use */
    unsigned long quotes[MET_QUOTES][MET_STATES];        /* by the state of the row they speak to */
    unsigned long prices[MET_LETTER_CALLS][MET_PRICES][MET_SIDES]; /* of quotes told by a step, read, written */
    unsigned long over[MET_SIDES];                       /* records with 26 for a price above the highest alone */
    unsigned long words[MET_WORDS][MET_WORDS];           /* of a row's line, for bid and ask */
    unsigned long searches[MET_SEARCHES][MET_INDEXES];
    unsigned long astray[MET_ASTRAYS];
    unsigned long entered[MET_ENTRIES];                  /* alone, first, between, last; the first of version 2, the last of all */
    unsigned long lengths[MET_LENT][MET_LENGTHS];        /* of an index that is wrong, all else right */
    unsigned long built[MET_BUILT];                      /* by a restore, over zeros and over others */
    unsigned long images[MET_IMAGE_CALLS][MET_IMAGES];
    unsigned long versions[MET_VERSIONS];                /* that alone were refused with 23 */
    unsigned long versions_in[MET_VERSIONS_IN];          /* all blocks, some */
    unsigned long named[MET_NAMED];                      /* 23, 24, 24 for more than any table has, 24 in version 3 */
    unsigned long blocks[MET_BLOCKS];                    /* restored, or one too many */
    unsigned long full[MET_FULLS];
    unsigned long wrong[MET_MOVES][MET_WRONGS];          /* versions, forward and back */
    unsigned long outputs[MET_MOVES][MET_OUTPUTS];
    unsigned long rounds[MET_ROUNDS];                    /* from versions 1, 2 and 3; not the same from 3 */
    unsigned long bids[MET_IMAGE_CALLS][MET_TIMES], asks[MET_IMAGE_CALLS][MET_TIMES];
    unsigned long untimely[MET_IMAGE_CALLS][MET_UNTIMELY];
    unsigned long set[MET_SIDES][MET_TIMES];             /* by quotes that a step told */
    unsigned long kept[2][MET_TIMES];                    /* bid and ask, by a quote of the other side */
    unsigned long purged[2][MET_TIMES];                  /* bid and ask, before a purge */
};

struct pair {
    struct world library, plain;
    struct world stepped;       /* the library's memory after a run made of its steps, or
                                   after another restore */
    struct met met;
    uint8_t input[INPUT_ROOM];  /* the library's copy of a call's input */
    bool thorough;              /* compare the whole table after every call */
    unsigned since;             /* steps since the whole table was compared */
    unsigned idle;              /* feeds and turns since the reader takes no more */
    bool image_used;            /* image memory was written to since it was filled */
    bool index_ours;            /* the index is one that our own calls made */
    size_t saved;               /* bytes that the latest save wrote */
    uint64_t answer;            /* what the plain reader answered last */
    enum operation doing;       /* the call under way */
    unsigned long packets, calls;
    char difference[200];       /* the first difference, in words */
};

/* Gives both worlds the same memory: handle, table and index as they are given
 * (with HANDLE_ROOM, TABLE_ROOM and INDEX_ROOM bytes), all else filled with fixed
 * bytes. */
void pair_fill(struct pair *p, const uint8_t *handle, const uint8_t *table,
               const uint8_t *index, bool saves);

/* Makes one call on both and compares: false on a difference. */
bool pair_call(struct pair *p, const struct call *c, const uint8_t *input);

/* Compares all memory. */
bool pair_same(struct pair *p);

/* Compares the sizes that the library states with those of the header. */
bool pair_sizes(struct pair *p);

#endif
