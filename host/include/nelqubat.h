/* nelqubat: a reader of one Top of Market session, for C.
 *
 * The library reads the server's SoupBinTCP bytes piece by piece, keeps a
 * table of at most 500 instruments, saves and restores that table, and reads
 * and writes single messages. It is built for x86-64. `host/run install PREFIX`
 * installs it, and `pkg-config --cflags --libs nelqubat` then says how to link.
 *
 *   uint8_t handle[NELQUBAT_HANDLE_BYTES], table[NELQUBAT_TABLE_BYTES];
 *   uint8_t id_index[NELQUBAT_INDEX_BYTES], event[NELQUBAT_RECORD_BYTES];
 *   nelqubat_start(handle, sizeof handle, table, sizeof table,
 *                  id_index, sizeof id_index);
 *   for (;;) {
 *       uint32_t a = nelqubat_step(handle, sizeof handle, table, sizeof table,
 *                                  id_index, sizeof id_index,
 *                                  piece, n, event, sizeof event);
 *       piece += nelqubat_taken(a);
 *       n -= nelqubat_taken(a);
 *       ... until nelqubat_is_event(a) is 0: more bytes wanted, ended or refused
 *   }
 *
 * A host that wants no events, only the table, reads by runs: a call for as many
 * packets as it lets pass before it looks at the rows, 1,000 at most.
 *
 *   uint64_t a;
 *   do {
 *       a = nelqubat_run(handle, sizeof handle, table, sizeof table,
 *                        id_index, sizeof id_index, piece, n, 200);
 *       piece += nelqubat_run_taken(a);
 *       n -= nelqubat_run_taken(a);
 *       ... show the rows
 *   } while (nelqubat_run_why(a) == NELQUBAT_CEILING);
 *
 * The host lends all memory, each as a pointer and a count of bytes, and the
 * library keeps nothing between calls. A pointer must not be null, even where
 * the count is 0. Memories that are lent to one call must not overlap, except
 * that memory which is only read may be the same. Nothing is allocated and
 * nothing is printed.
 *
 * Index memory: the library finds a row by it. It has two bytes for each row that a
 * table may have: the numbers of the rows in use, counted from 0, rising by the id
 * of the row, and then zeros. A start and a restore make it, and every step and run
 * keeps it; a host lends it with its table and does not write to it. It is not
 * saved: a restore builds it anew. A search halves its span until one place is left,
 * and a place that it visits has to name a row in use. Where one does not, since a
 * host wrote there or lent another reader's index, the call is refused with 20 and
 * its packet is left.
 *
 * Saved tables: an image has version 3, whatever its rows, and keeps the time of each
 * side. Older libraries wrote version 1 with up to 256 rows and version 2 with more,
 * which have no such times. A restore takes all three, 1 and 2 each with its own rows
 * only; from those two the time of each side that was seen is unknown. A library of
 * version 5 or less answers 23 to version 3, and one of version 4 or less 21 to any
 * image with more than 256 rows. nelqubat_forward makes version 3 of an old image;
 * nelqubat_back makes the old version of an image, for such a library, and its times
 * are lost: forward then back gives the same bytes, and back then forward does exactly
 * where the time of every seen side was unknown.
 *
 * Stack: measured by `host/run stack`, a step and a run take up to 1,500 bytes,
 * saving, restoring and moving up to 2,600 and every other call up to 400;
 * NELQUBAT_STACK_BYTES is more than any was seen to take.
 *
 * Threads: calls that share no memory may run at the same time. While a step, a
 * run, a start or a restore is under way, no other thread may read or write the
 * memory that it was lent: a row changes byte by byte, and one that is read
 * meanwhile may be blended. A screen gets a copy, made by the reading thread
 * between two calls; a run's ceiling says how many packets it waits for at most:
 *
 *   a = nelqubat_step(...);
 *   if (the row at k is on the screen) {
 *       lock the screen's copy;
 *       memcpy(copy, nelqubat_row(table, k), NELQUBAT_ROW_BYTES);
 *       unlock it;
 *   }
 *
 * Numbers in lent memory are unsigned and big-endian, as on the wire.
 */
#ifndef NELQUBAT_H
#define NELQUBAT_H

#include <stddef.h>
#include <stdint.h>

#ifdef __cplusplus
extern "C" {
#endif

/* Raised with every new call and every change of a call, of what the parts of an
 * answer mean or of a layout, and not where a rule of the feed lets other
 * messages in; nelqubat_is_version() asks the library for its own. 2 is 1 with
 * nelqubat_run, which brought NELQUBAT_CEILING and refusal 27: a program for 1
 * needs no change, only to be built anew. 3 is 2 with `none` in the lines, and
 * with helpers for prices; sizes, layouts, calls and refusals are as in 2. A
 * program that asked nelqubat_row_has_bid whether a side was seen now asks
 * nelqubat_row_seen_bid. 4 is 3 with index memory, which start, step, run, restore
 * and find are lent behind the table; a program for 3 does not build with it. 5 is
 * 4 with 500 instruments where 4 had 256: table, index and the longest image are
 * larger, and an image with more than 256 rows has version 2. A program for 4 that
 * takes its sizes from here needs no change, only to be built anew. 6 is 5 with the
 * time of each side in a row, where 5 had zeros, with images of version 3, and with
 * nelqubat_forward and nelqubat_back. Sizes, the other calls and all else of a row are
 * as in 5, and images that 5 saved are restored; a program for 5 needs no change, only
 * to be built anew, and then saves images that 5 does not read. */
#define NELQUBAT_VERSION 6

/* Sizes, in bytes. By the most rows, 500, a table has 62,000, an index 1,000 and the
 * longest image 64,512, which is 126 blocks. */
enum {
    NELQUBAT_HANDLE_BYTES = 305,
    NELQUBAT_ROW_BYTES = 124,
    NELQUBAT_MAX_ROWS = 500,
    NELQUBAT_TABLE_BYTES = NELQUBAT_MAX_ROWS * NELQUBAT_ROW_BYTES,
    NELQUBAT_INDEX_BYTES = NELQUBAT_MAX_ROWS * 2, /* a row number for each */
    NELQUBAT_RECORD_BYTES = 112,   /* a record; also the event memory */
    NELQUBAT_BLOCK_BYTES = 512,
    NELQUBAT_BLOCK_ROWS = 4,       /* rows in each block behind the first */
    NELQUBAT_MAX_BLOCKS = 1 + (NELQUBAT_MAX_ROWS + NELQUBAT_BLOCK_ROWS - 1) / NELQUBAT_BLOCK_ROWS,
    NELQUBAT_IMAGE_BYTES = NELQUBAT_MAX_BLOCKS * NELQUBAT_BLOCK_BYTES, /* the longest image */
    NELQUBAT_MESSAGE_BYTES = 63,   /* the longest message, a directory */
    NELQUBAT_PACKET_BYTES = 258,   /* the longest packet, its length included */
    NELQUBAT_LINE_BYTES = 80,      /* more than any line of the listing */
    NELQUBAT_SESSION_BYTES = 10,
    NELQUBAT_STACK_BYTES = 4096,   /* more stack than a call was seen to take */
    NELQUBAT_MAX_PACKETS = 1000    /* the highest ceiling of a run, in packets */
};

/* Why a call is refused. 1 to 6 and 10 to 16 come from a packet and stand in
 * the handle from then on; 20 to 27 are about the call itself. */
enum {
    NELQUBAT_DONE = 0,
    NELQUBAT_REFUSED_LENGTH = 1,          /* a packet's length is 0 or over 256 */
    NELQUBAT_REFUSED_LETTER = 2,          /* a packet letter that is not known */
    NELQUBAT_REFUSED_PLACE = 3,           /* a packet in the wrong place */
    NELQUBAT_REFUSED_FORM = 4,            /* wrong length for A J H Z, or a bad login number */
    NELQUBAT_REFUSED_LOGIN = 5,           /* another session, or a number that is not next */
    NELQUBAT_REFUSED_NUMBERS = 6,         /* no message number is left */
    NELQUBAT_REFUSED_MESSAGE = 10,        /* an empty message or an unknown letter */
    NELQUBAT_REFUSED_MESSAGE_LENGTH = 11, /* wrong length for its letter */
    NELQUBAT_REFUSED_FIELD = 12,          /* a field outside its list or range */
    NELQUBAT_REFUSED_NO_ROW = 13,         /* state or quote for an id with no row */
    NELQUBAT_REFUSED_NOT_TRADING = 14,    /* a quote, state not T, B or S, or tradable not Y */
    NELQUBAT_REFUSED_FIXED_FIELD = 15,    /* a directory changes a fixed field */
    NELQUBAT_REFUSED_FULL = 16,           /* a new id, 500 rows in use */
    NELQUBAT_REFUSED_MEMORY = 20,         /* wrong length, no handle, a limit broken, a false index */
    NELQUBAT_REFUSED_IMAGE_LENGTH = 21,   /* 0, not whole blocks, or over 126 blocks */
    NELQUBAT_REFUSED_CHECK = 22,          /* a block's check is wrong */
    NELQUBAT_REFUSED_HEAD = 23,           /* a block's number, count or next number, or a version
                                             that is not known, does not fit the rows, or is not
                                             one that the move starts from */
    NELQUBAT_REFUSED_CONTENTS = 24,       /* contents break the row or block rules of the version */
    NELQUBAT_REFUSED_SHORT = 25,          /* output memory too short */
    NELQUBAT_REFUSED_RECORD = 26,         /* no record, or it breaks its field rules */
    NELQUBAT_REFUSED_CEILING = 27         /* a run's ceiling is over 1,000 packets */
};

/* One plain phrase for each number of refusal. */
static inline const char *nelqubat_refusal_name(unsigned refusal)
{
    static const char *const names[28] = {
        "done", "packet length is 0 or over 256", "packet letter is not known",
        "packet in the wrong place", "packet has the wrong form",
        "login for another session or number", "no message number is left", 0, 0, 0,
        "message letter is not known", "message has the wrong length",
        "message field outside its list or range", "no row has this id",
        "instrument does not trade", "directory changes a fixed field",
        "table is full", 0, 0, 0, "memory has the wrong length, is no handle or has a false index",
        "image length is wrong", "block check is wrong", "block head or version is wrong",
        "contents break the row or block rules of the version", "output memory is too short",
        "record breaks its field rules", "ceiling is over 1,000 packets"};
    const char *name = refusal < 28 ? names[refusal] : 0;
    return name ? name : "no refusal has this number";
}

/* What a step answers. A run stops with NELQUBAT_MORE, NELQUBAT_ENDED,
 * NELQUBAT_REFUSED or NELQUBAT_CEILING. */
enum {
    NELQUBAT_MORE = 0,      /* more bytes are wanted; the piece is used up */
    NELQUBAT_LOGIN = 1,     /* login accepted: event memory has number and session */
    NELQUBAT_REJECTED = 2,  /* login rejected: event memory has the reason */
    NELQUBAT_MESSAGE = 3,   /* a message: event memory has its record */
    NELQUBAT_HEARTBEAT = 4,
    NELQUBAT_END = 5,       /* end of session */
    NELQUBAT_SKIPPED = 6,   /* a packet that carries nothing for the reader */
    NELQUBAT_ENDED = 7,     /* ended before this call, or within this run */
    NELQUBAT_REFUSED = 8,
    NELQUBAT_CEILING = 9    /* of a run alone: as many packets as it may finish */
};

/* The parts of an answer. `kind` and `taken` are those of a step, `written` is
 * that of save, forward, back, write and line, `found` and `found_at` are those of
 * find. */

static inline unsigned nelqubat_refusal(uint32_t answer)
{
    return answer & 0xFF;
}

static inline unsigned nelqubat_kind(uint32_t answer)
{
    return answer >> 8 & 0xFF;
}

/* Whether a step told an event, so that the rest of the piece may tell more. */
static inline int nelqubat_is_event(uint32_t answer)
{
    unsigned kind = nelqubat_kind(answer);
    return kind >= NELQUBAT_LOGIN && kind <= NELQUBAT_SKIPPED;
}

static inline size_t nelqubat_taken(uint32_t answer)
{
    return answer >> 16;
}

static inline size_t nelqubat_written(uint32_t answer)
{
    return answer >> 8;
}

/* Whether a row was found. */
static inline int nelqubat_found(uint32_t answer)
{
    return nelqubat_refusal(answer) == NELQUBAT_DONE && answer != 0;
}

/* The row that was found is nelqubat_row(table, k) for this k. */
static inline size_t nelqubat_found_at(uint32_t answer)
{
    return (size_t)(answer >> 8) - 1;
}

/* The parts of a run's answer, which has 64 bits: the refusal, why the run
 * stopped, how many packets it finished, and how many bytes it took. */

static inline unsigned nelqubat_run_refusal(uint64_t answer)
{
    return (unsigned)(answer & 0xFF);
}

static inline unsigned nelqubat_run_why(uint64_t answer)
{
    return (unsigned)(answer >> 8 & 0xFF);
}

static inline unsigned nelqubat_run_finished(uint64_t answer)
{
    return (unsigned)(answer >> 16 & 0xFFFF);
}

static inline size_t nelqubat_run_taken(uint64_t answer)
{
    return (size_t)(answer >> 32);
}

/* The version of the library that is linked. */
uint32_t nelqubat_version(void);

/* Whether this header is of the same version: a program asks once, at its start. */
static inline int nelqubat_is_version(void)
{
    return nelqubat_version() == NELQUBAT_VERSION;
}

/* The sizes above, as the library knows them. */
size_t nelqubat_handle_size(void);
size_t nelqubat_table_size(void);
size_t nelqubat_index_size(void);
size_t nelqubat_record_size(void);

/* Makes a fresh handle and fills table and index with zeros.
 * Answer: 0 or 20. Handle memory that is not 305 bytes: 20, and nothing
 * changes. Table or index memory of the wrong length: 20, both are left, and the
 * handle is fresh. */
uint32_t nelqubat_start(uint8_t *handle, size_t handle_n,
                        uint8_t *table, size_t table_n,
                        uint8_t *index, size_t index_n);

/* Takes bytes from the piece, up to the end of one packet.
 * Answer: refusal, kind and the count of bytes taken, 258 at most. `more`
 * takes the whole piece and holds it in the handle. An accepted packet is
 * answered in the call that brings its last byte and changes table, index and
 * handle all at once. A packet that is refused with 1 to 16 changes no row and no
 * place of the index; the refusal then stands, and the same answer comes again
 * with 0 bytes taken.
 * 20, for any of the four memories or a handle that breaks a limit, comes
 * before all else: nothing changes and 0 bytes are taken. So it is where the
 * index leads to no row in use; that 20 comes just before 13, when a directory,
 * state or quote has passed all before it. Nothing stands, and what was held stays
 * held, so that the packet can be read once the index is true.
 * The event memory has NELQUBAT_RECORD_BYTES. A login fills its first 18
 * bytes, a rejected login its first, a message all of it; everything else of
 * it stays as it was. */
uint32_t nelqubat_step(uint8_t *handle, size_t handle_n,
                       uint8_t *table, size_t table_n,
                       uint8_t *index, size_t index_n,
                       const uint8_t *piece, size_t piece_n,
                       uint8_t *event, size_t event_n);

/* Takes bytes from the piece by steps, until as many packets are finished as the
 * ceiling says, 0 to NELQUBAT_MAX_PACKETS, and tells no events.
 * Before each step it stops if the reader has ended or refused, else at the
 * ceiling; a step that wants more stops it too. So a login that is rejected and
 * an end of session are finished packets, and the run then stopped because it
 * ended, at its ceiling too; ceiling 0 takes nothing.
 * Answer: refusal, why it stopped, the count of packets finished, which are the
 * accepted ones, and the count of bytes taken. Table, index and handle are as its
 * steps leave them. `more` takes the whole piece. A packet refused with 1 to 16
 * changes no row; its bytes are taken, it is not finished, those before it stay,
 * and the refusal stands. A reader that has refused or ended answers so again,
 * at ceiling 0 too, with nothing taken and nothing finished.
 * 20, for any of the three memories or a handle that breaks a limit, comes before
 * all else, and then 27, for a ceiling over 1,000: nothing changes, nothing is
 * taken or finished. 20 for an index that leads to no row in use comes in its
 * step: the packets before it are finished, their bytes are taken, and nothing of
 * its own packet is.
 * Where more is wanted, the held bytes stand at the front of their places in the
 * handle, and the rest of the places stay as they were; any other answer leaves
 * all the places. */
uint64_t nelqubat_run(uint8_t *handle, size_t handle_n,
                      uint8_t *table, size_t table_n,
                      uint8_t *index, size_t index_n,
                      const uint8_t *piece, size_t piece_n, uint32_t ceiling);

/* Writes the saved table, 512 bytes for each block, to the front of `out`, always
 * version 3.
 * Answer: the count written, or 20 (handle, table, limits), 24 (the rows or
 * the handle cannot be saved), 25 (out too short), and then `out` is as it
 * was. Bytes of `out` after the count are as they were. Held bytes and a
 * standing refusal are not saved. */
uint32_t nelqubat_save(const uint8_t *handle, size_t handle_n,
                       const uint8_t *table, size_t table_n,
                       uint8_t *out, size_t out_n);

/* Makes handle, table and index from an image of version 1, 2 or 3; the handle waits
 * for a login with the saved session and next number. What was in the three before
 * does not matter. From version 1 or 2, each side that was seen gets the time
 * NELQUBAT_TIME_UNKNOWN.
 * Answer: 0, or 20 to 24. Handle memory that is not 305 bytes: 20, and
 * nothing changes. Any other refusal leaves table and index and makes the handle
 * fresh. */
uint32_t nelqubat_restore(uint8_t *handle, size_t handle_n,
                          uint8_t *table, size_t table_n,
                          uint8_t *index, size_t index_n,
                          const uint8_t *image, size_t image_n);

/* Moves an image forward: from version 1 or 2 to version 3, where the time of each
 * side that was seen is NELQUBAT_TIME_UNKNOWN. Versions and checks of the blocks are
 * new, all else is the same, and so is the length. Restoring the old image and
 * restoring the moved one leave the same.
 * Answer: the count written to the front of `out`, which is image_n; or 21, 22, 23
 * (an image of version 3 too), 24 (by the rules of the image's own version), 25 (out
 * shorter than the image), and then `out` is as it was. Bytes of `out` after the
 * count are as they were. */
uint32_t nelqubat_forward(const uint8_t *image, size_t image_n,
                          uint8_t *out, size_t out_n);

/* Moves an image back: from version 3 to version 1 with up to 256 rows, to version 2
 * with more, for a library of version 5 or less. The times of both sides become zero,
 * so that each one that was known is lost. All else as with nelqubat_forward, but that
 * an image of version 1 or 2 is refused with 23. */
uint32_t nelqubat_back(const uint8_t *image, size_t image_n,
                       uint8_t *out, size_t out_n);

/* Reads one message (no packet around it) into a record of 112 bytes. A side's
 * price of 0 is read as none, which the record holds as 0; a strike of 0 is a
 * number.
 * Answer: 0, or 20 (record memory), 10, 11, 12, and then the record memory is
 * as it was. */
uint32_t nelqubat_read(const uint8_t *bytes, size_t bytes_n,
                       uint8_t *record, size_t record_n);

/* Writes the message of a record to the front of `out`; reading it again
 * gives the same record. A side with no price is written with price 0. A price
 * above zero that holds zero would break its rule, but cannot be said in a record,
 * since 0 is none.
 * Answer: the count written, or 20 (record memory), 26 (no record, or field
 * rules broken), 25 (out too short), and then `out` is as it was. Bytes of
 * `out` after the count are as they were. */
uint32_t nelqubat_write(const uint8_t *record, size_t record_n,
                        uint8_t *out, size_t out_n);

/* Writes line k of the listing with its line feed, and no closing zero:
 * `next N` for 0, then a line for each row, then `ok`, `end` or `refused N`.
 * A row's line has its id, its state, bid and ask: dollars with four decimals,
 * `none` for a side that was quoted with price 0, `-` for one never quoted.
 * Answer: the count written, 0 for a k past the last line; or 20 (handle,
 * table, limits), 25 (out too short), and then `out` is as it was. */
uint32_t nelqubat_line(const uint8_t *handle, size_t handle_n,
                       const uint8_t *table, size_t table_n,
                       size_t k, uint8_t *out, size_t out_n);

/* Looks for the row of an id by the index, as a step does:
 *
 *   a = nelqubat_find(handle, sizeof handle, table, sizeof table,
 *                     id_index, sizeof id_index, id);
 *   row = nelqubat_found_row(table, a);     NULL for none
 *
 * Answer: 256 times the row's place in the table counted from 1, 0 where no row is
 * found; or 20 (handle, table, index, limits, an index that leads to no row in use). */
uint32_t nelqubat_find(const uint8_t *handle, size_t handle_n,
                       const uint8_t *table, size_t table_n,
                       const uint8_t *index, size_t index_n, uint32_t id);

/* Big-endian numbers of 1 to 8 bytes. */

static inline uint64_t nelqubat_get(const uint8_t *at, size_t width)
{
    uint64_t v = 0;
    for (size_t i = 0; i < width; i++)
        v = v << 8 | at[i];
    return v;
}

static inline void nelqubat_set(uint8_t *at, size_t width, uint64_t v)
{
    for (size_t i = width; i-- > 0; v >>= 8)
        at[i] = (uint8_t)v;
}

/* Where each field of a handle begins. */
enum {
    NELQUBAT_HANDLE_NEXT = 0,       /* 8: number of the next message */
    NELQUBAT_HANDLE_LIVE = 8,       /* 8: live number, 0 for none */
    NELQUBAT_HANDLE_ROWS = 16,      /* 8: rows in use */
    NELQUBAT_HANDLE_HELD = 24,      /* 8: how many bytes are held */
    NELQUBAT_HANDLE_SESSION = 32,   /* 10 */
    NELQUBAT_HANDLE_KNOWN = 42,     /* 1: session known, 0 or 1 */
    NELQUBAT_HANDLE_LOGGED_IN = 43, /* 1: 0 or 1 */
    NELQUBAT_HANDLE_ENDED = 44,     /* 1: 0 or 1 */
    NELQUBAT_HANDLE_REFUSAL = 45,   /* 1: standing refusal, 0 for none */
    NELQUBAT_HANDLE_EVENT = 46,     /* 1: latest event code, 0 before any */
    NELQUBAT_HANDLE_PACKET = 47     /* 258: held bytes of an unfinished packet */
};

static inline uint64_t nelqubat_handle_next(const uint8_t *handle)
{
    return nelqubat_get(handle + NELQUBAT_HANDLE_NEXT, 8);
}

static inline uint64_t nelqubat_handle_live(const uint8_t *handle)
{
    return nelqubat_get(handle + NELQUBAT_HANDLE_LIVE, 8);
}

static inline size_t nelqubat_handle_rows(const uint8_t *handle)
{
    return (size_t)nelqubat_get(handle + NELQUBAT_HANDLE_ROWS, 8);
}

static inline size_t nelqubat_handle_held(const uint8_t *handle)
{
    return (size_t)nelqubat_get(handle + NELQUBAT_HANDLE_HELD, 8);
}

static inline const uint8_t *nelqubat_handle_session(const uint8_t *handle)
{
    return handle + NELQUBAT_HANDLE_SESSION;
}

static inline int nelqubat_handle_known(const uint8_t *handle)
{
    return handle[NELQUBAT_HANDLE_KNOWN] != 0;
}

static inline int nelqubat_handle_logged_in(const uint8_t *handle)
{
    return handle[NELQUBAT_HANDLE_LOGGED_IN] != 0;
}

static inline int nelqubat_handle_ended(const uint8_t *handle)
{
    return handle[NELQUBAT_HANDLE_ENDED] != 0;
}

static inline unsigned nelqubat_handle_refusal(const uint8_t *handle)
{
    return handle[NELQUBAT_HANDLE_REFUSAL];
}

static inline uint8_t nelqubat_handle_event(const uint8_t *handle)
{
    return handle[NELQUBAT_HANDLE_EVENT];
}

/* The held bytes of an unfinished packet, as many as are held. */
static inline const uint8_t *nelqubat_handle_packet(const uint8_t *handle)
{
    return handle + NELQUBAT_HANDLE_PACKET;
}

/* The event memory after a login, and after a rejected login. */

static inline uint64_t nelqubat_login_number(const uint8_t *event)
{
    return nelqubat_get(event, 8);
}

static inline const uint8_t *nelqubat_login_session(const uint8_t *event)
{
    return event + 8;
}

static inline uint8_t nelqubat_rejected_reason(const uint8_t *event)
{
    return event[0];
}

/* One side of a quote. Its price is in ten-thousandths of a dollar whatever
 * the message was; `price_on_wire` is the number that the message had, which is
 * in pennies for q, b and a. A row keeps ten-thousandths, so there both are the
 * same. A price of 0 is none and never a number: nobody bids, or nobody offers.
 * nelqubat_record_has_bid, nelqubat_row_has_bid and their like ask for it. */
struct nelqubat_side {
    uint32_t market, price, size, customer, professional, price_on_wire;
};

/* How many ten-thousandths of a dollar a message's letter counts prices in. */
static inline uint32_t nelqubat_price_unit(uint8_t letter)
{
    return letter == 'q' || letter == 'b' || letter == 'a' ? 100 : 1;
}

/* The price of a side at its 20 bytes, counted in that unit, in ten-thousandths of
 * a dollar; 0 for none. */
static inline uint32_t nelqubat_price_at(const uint8_t *at, uint32_t unit)
{
    return (uint32_t)nelqubat_get(at + 4, 4) * unit;
}

/* A side from its 20 bytes, with prices counted in that unit. */
static inline struct nelqubat_side nelqubat_side_at(const uint8_t *at, uint32_t unit)
{
    struct nelqubat_side side;
    side.market = (uint32_t)nelqubat_get(at, 4);
    side.price_on_wire = (uint32_t)nelqubat_get(at + 4, 4);
    side.price = nelqubat_price_at(at, unit);
    side.size = (uint32_t)nelqubat_get(at + 8, 4);
    side.customer = (uint32_t)nelqubat_get(at + 12, 4);
    side.professional = (uint32_t)nelqubat_get(at + 16, 4);
    return side;
}

/* Where each field of a message's record begins. The places are the same for
 * all letters; what a letter lacks is 0. A side's price stays a number in its
 * place, where 0 is none and never a number; a strike of 0 is a number. */
enum {
    NELQUBAT_RECORD_LETTER = 0,      /* 1: S m H q Q b a B A M */
    NELQUBAT_RECORD_CODE = 1,        /* 1: event code (S), state (H), condition (quotes) */
    NELQUBAT_RECORD_TRACKING = 2,    /* 2: all but M */
    NELQUBAT_RECORD_ID = 4,          /* 4: all but S and M */
    NELQUBAT_RECORD_TIME = 8,        /* 8: nanoseconds of the day, all but M */
    NELQUBAT_RECORD_NUMBER = 16,     /* 8: M */
    NELQUBAT_RECORD_BID = 24,        /* 20: q b Q B, the price as on the wire, 0 for none */
    NELQUBAT_RECORD_ASK = 44,        /* 20: q a Q A, likewise */
    NELQUBAT_RECORD_STRIKE = 64,     /* 4: 0 is a number; from here on m only */
    NELQUBAT_RECORD_YEAR = 68,       /* 1 */
    NELQUBAT_RECORD_MONTH = 69,      /* 1 */
    NELQUBAT_RECORD_DAY = 70,        /* 1 */
    NELQUBAT_RECORD_TYPE = 71,       /* 1: C P N */
    NELQUBAT_RECORD_CLOSING = 72,    /* 1: N L W */
    NELQUBAT_RECORD_TRADABLE = 73,   /* 1: Y N */
    NELQUBAT_RECORD_VARIATION = 74,  /* 1: E S P */
    NELQUBAT_RECORD_SYMBOL = 75,     /* 8: padded with spaces */
    NELQUBAT_RECORD_UNDERLYING = 83, /* 13: padded with spaces */
    NELQUBAT_RECORD_RESERVED = 96    /* 16: any bytes */
};

static inline uint8_t nelqubat_record_letter(const uint8_t *record)
{
    return record[NELQUBAT_RECORD_LETTER];
}

static inline uint8_t nelqubat_record_code(const uint8_t *record)
{
    return record[NELQUBAT_RECORD_CODE];
}

static inline uint16_t nelqubat_record_tracking(const uint8_t *record)
{
    return (uint16_t)nelqubat_get(record + NELQUBAT_RECORD_TRACKING, 2);
}

static inline uint32_t nelqubat_record_id(const uint8_t *record)
{
    return (uint32_t)nelqubat_get(record + NELQUBAT_RECORD_ID, 4);
}

static inline uint64_t nelqubat_record_time(const uint8_t *record)
{
    return nelqubat_get(record + NELQUBAT_RECORD_TIME, 8);
}

static inline uint64_t nelqubat_record_number(const uint8_t *record)
{
    return nelqubat_get(record + NELQUBAT_RECORD_NUMBER, 8);
}

/* Whether the record's letter sets the bid, and whether it sets the ask. */

static inline int nelqubat_record_quotes_bid(const uint8_t *record)
{
    uint8_t letter = nelqubat_record_letter(record);
    return letter == 'q' || letter == 'Q' || letter == 'b' || letter == 'B';
}

static inline int nelqubat_record_quotes_ask(const uint8_t *record)
{
    uint8_t letter = nelqubat_record_letter(record);
    return letter == 'q' || letter == 'Q' || letter == 'a' || letter == 'A';
}

/* A record's prices in ten-thousandths of a dollar, short and long alike; 0 where
 * its letter does not set the side, or sets it with no price. */

static inline uint32_t nelqubat_record_bid_price(const uint8_t *record)
{
    uint32_t unit = nelqubat_price_unit(nelqubat_record_letter(record));
    const uint8_t *bid = record + NELQUBAT_RECORD_BID;
    return nelqubat_record_quotes_bid(record) ? nelqubat_price_at(bid, unit) : 0;
}

static inline uint32_t nelqubat_record_ask_price(const uint8_t *record)
{
    uint32_t unit = nelqubat_price_unit(nelqubat_record_letter(record));
    const uint8_t *ask = record + NELQUBAT_RECORD_ASK;
    return nelqubat_record_quotes_ask(record) ? nelqubat_price_at(ask, unit) : 0;
}

/* Whether the record sets the side, and with a price above zero. */

static inline int nelqubat_record_has_bid(const uint8_t *record)
{
    return nelqubat_record_bid_price(record) != 0;
}

static inline int nelqubat_record_has_ask(const uint8_t *record)
{
    return nelqubat_record_ask_price(record) != 0;
}

static inline struct nelqubat_side nelqubat_record_bid(const uint8_t *record)
{
    return nelqubat_side_at(record + NELQUBAT_RECORD_BID,
                            nelqubat_price_unit(nelqubat_record_letter(record)));
}

static inline struct nelqubat_side nelqubat_record_ask(const uint8_t *record)
{
    return nelqubat_side_at(record + NELQUBAT_RECORD_ASK,
                            nelqubat_price_unit(nelqubat_record_letter(record)));
}

static inline uint32_t nelqubat_record_strike(const uint8_t *record)
{
    return (uint32_t)nelqubat_get(record + NELQUBAT_RECORD_STRIKE, 4);
}

static inline uint8_t nelqubat_record_year(const uint8_t *record)
{
    return record[NELQUBAT_RECORD_YEAR];
}

static inline uint8_t nelqubat_record_month(const uint8_t *record)
{
    return record[NELQUBAT_RECORD_MONTH];
}

static inline uint8_t nelqubat_record_day(const uint8_t *record)
{
    return record[NELQUBAT_RECORD_DAY];
}

static inline uint8_t nelqubat_record_type(const uint8_t *record)
{
    return record[NELQUBAT_RECORD_TYPE];
}

static inline uint8_t nelqubat_record_closing(const uint8_t *record)
{
    return record[NELQUBAT_RECORD_CLOSING];
}

static inline uint8_t nelqubat_record_tradable(const uint8_t *record)
{
    return record[NELQUBAT_RECORD_TRADABLE];
}

static inline uint8_t nelqubat_record_variation(const uint8_t *record)
{
    return record[NELQUBAT_RECORD_VARIATION];
}

/* The three texts have no closing zero: 8, 13 and 16 bytes. */

static inline const uint8_t *nelqubat_record_symbol(const uint8_t *record)
{
    return record + NELQUBAT_RECORD_SYMBOL;
}

static inline const uint8_t *nelqubat_record_underlying(const uint8_t *record)
{
    return record + NELQUBAT_RECORD_UNDERLYING;
}

static inline const uint8_t *nelqubat_record_reserved(const uint8_t *record)
{
    return record + NELQUBAT_RECORD_RESERVED;
}

/* Where each field of a table's row begins. */
enum {
    NELQUBAT_ROW_ID = 0,          /* 4 */
    NELQUBAT_ROW_SYMBOL = 4,      /* 8 */
    NELQUBAT_ROW_YEAR = 12,       /* 1 */
    NELQUBAT_ROW_MONTH = 13,      /* 1 */
    NELQUBAT_ROW_DAY = 14,        /* 1 */
    NELQUBAT_ROW_STRIKE = 15,     /* 4: 0 is a number */
    NELQUBAT_ROW_TYPE = 19,       /* 1 */
    NELQUBAT_ROW_UNDERLYING = 20, /* 13 */
    NELQUBAT_ROW_CLOSING = 33,    /* 1 */
    NELQUBAT_ROW_TRADABLE = 34,   /* 1 */
    NELQUBAT_ROW_VARIATION = 35,  /* 1 */
    NELQUBAT_ROW_RESERVED = 36,   /* 16 */
    NELQUBAT_ROW_STATE = 52,      /* 1: trading state, 0 before any */
    NELQUBAT_ROW_CONDITION = 53,  /* 1 */
    NELQUBAT_ROW_SIDES = 54,      /* 1: sides seen, 1 bid and 2 ask, summed */
    NELQUBAT_ROW_BID = 56,        /* 20: where it was seen, price 0 is none, never a number */
    NELQUBAT_ROW_ASK = 76,        /* 20: likewise */
    NELQUBAT_ROW_TRACKING = 96,   /* 2: of the row's latest message */
    NELQUBAT_ROW_TIME = 98,       /* 8: of the row's latest message */
    NELQUBAT_ROW_BID_TIME = 106,  /* 8: of the latest message that set the bid; 0 where unseen */
    NELQUBAT_ROW_ASK_TIME = 114   /* 8: likewise of the ask; bytes 55, 122 and 123 are zero */
};

/* The time of a side that was seen before its table was saved by a library that kept
 * no such times. */
#define NELQUBAT_TIME_UNKNOWN UINT64_MAX

/* Row k of a table, k below the handle's rows in use. */
static inline const uint8_t *nelqubat_row(const uint8_t *table, size_t k)
{
    return table + k * NELQUBAT_ROW_BYTES;
}

/* The row that a find found, or NULL where it found none or was refused. */
static inline const uint8_t *nelqubat_found_row(const uint8_t *table, uint32_t answer)
{
    return nelqubat_found(answer) ? nelqubat_row(table, nelqubat_found_at(answer)) : NULL;
}

static inline uint32_t nelqubat_row_id(const uint8_t *row)
{
    return (uint32_t)nelqubat_get(row + NELQUBAT_ROW_ID, 4);
}

static inline const uint8_t *nelqubat_row_symbol(const uint8_t *row)
{
    return row + NELQUBAT_ROW_SYMBOL;
}

static inline uint8_t nelqubat_row_year(const uint8_t *row)
{
    return row[NELQUBAT_ROW_YEAR];
}

static inline uint8_t nelqubat_row_month(const uint8_t *row)
{
    return row[NELQUBAT_ROW_MONTH];
}

static inline uint8_t nelqubat_row_day(const uint8_t *row)
{
    return row[NELQUBAT_ROW_DAY];
}

static inline uint32_t nelqubat_row_strike(const uint8_t *row)
{
    return (uint32_t)nelqubat_get(row + NELQUBAT_ROW_STRIKE, 4);
}

static inline uint8_t nelqubat_row_type(const uint8_t *row)
{
    return row[NELQUBAT_ROW_TYPE];
}

static inline const uint8_t *nelqubat_row_underlying(const uint8_t *row)
{
    return row + NELQUBAT_ROW_UNDERLYING;
}

static inline uint8_t nelqubat_row_closing(const uint8_t *row)
{
    return row[NELQUBAT_ROW_CLOSING];
}

static inline uint8_t nelqubat_row_tradable(const uint8_t *row)
{
    return row[NELQUBAT_ROW_TRADABLE];
}

static inline uint8_t nelqubat_row_variation(const uint8_t *row)
{
    return row[NELQUBAT_ROW_VARIATION];
}

static inline const uint8_t *nelqubat_row_reserved(const uint8_t *row)
{
    return row + NELQUBAT_ROW_RESERVED;
}

static inline uint8_t nelqubat_row_state(const uint8_t *row)
{
    return row[NELQUBAT_ROW_STATE];
}

static inline uint8_t nelqubat_row_condition(const uint8_t *row)
{
    return row[NELQUBAT_ROW_CONDITION];
}

/* Whether a side was seen, that is quoted, with a price or with none. */

static inline int nelqubat_row_seen_bid(const uint8_t *row)
{
    return (row[NELQUBAT_ROW_SIDES] & 1) != 0;
}

static inline int nelqubat_row_seen_ask(const uint8_t *row)
{
    return (row[NELQUBAT_ROW_SIDES] & 2) != 0;
}

/* A row's prices in ten-thousandths of a dollar; 0 where the side was never seen,
 * or has no price. */

static inline uint32_t nelqubat_row_bid_price(const uint8_t *row)
{
    return nelqubat_row_seen_bid(row) ? nelqubat_price_at(row + NELQUBAT_ROW_BID, 1) : 0;
}

static inline uint32_t nelqubat_row_ask_price(const uint8_t *row)
{
    return nelqubat_row_seen_ask(row) ? nelqubat_price_at(row + NELQUBAT_ROW_ASK, 1) : 0;
}

/* Whether a side was seen, and has a price above zero. */

static inline int nelqubat_row_has_bid(const uint8_t *row)
{
    return nelqubat_row_bid_price(row) != 0;
}

static inline int nelqubat_row_has_ask(const uint8_t *row)
{
    return nelqubat_row_ask_price(row) != 0;
}

static inline struct nelqubat_side nelqubat_row_bid(const uint8_t *row)
{
    return nelqubat_side_at(row + NELQUBAT_ROW_BID, 1);
}

static inline struct nelqubat_side nelqubat_row_ask(const uint8_t *row)
{
    return nelqubat_side_at(row + NELQUBAT_ROW_ASK, 1);
}

static inline uint16_t nelqubat_row_tracking(const uint8_t *row)
{
    return (uint16_t)nelqubat_get(row + NELQUBAT_ROW_TRACKING, 2);
}

static inline uint64_t nelqubat_row_time(const uint8_t *row)
{
    return nelqubat_get(row + NELQUBAT_ROW_TIME, 8);
}

/* The number that stands for the time of the latest message that set the side. A side
 * is one of three, told apart by nelqubat_row_seen_bid and nelqubat_row_knows_bid_time:
 * never quoted, and the number is 0; quoted at an unknown time, and the number is
 * NELQUBAT_TIME_UNKNOWN; quoted at a known time, which is the number, and may be 0. */

static inline uint64_t nelqubat_row_bid_time(const uint8_t *row)
{
    return nelqubat_get(row + NELQUBAT_ROW_BID_TIME, 8);
}

static inline uint64_t nelqubat_row_ask_time(const uint8_t *row)
{
    return nelqubat_get(row + NELQUBAT_ROW_ASK_TIME, 8);
}

/* Whether the side was seen, and the time of its latest message is known. */

static inline int nelqubat_row_knows_bid_time(const uint8_t *row)
{
    return nelqubat_row_seen_bid(row) && nelqubat_row_bid_time(row) != NELQUBAT_TIME_UNKNOWN;
}

static inline int nelqubat_row_knows_ask_time(const uint8_t *row)
{
    return nelqubat_row_seen_ask(row) && nelqubat_row_ask_time(row) != NELQUBAT_TIME_UNKNOWN;
}

#ifdef __cplusplus
}
#endif

#endif
