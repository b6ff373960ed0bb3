/* What the tests of the plain reader share: how something is expected, a reader
 * with its table, and packets written out by hand. */
#ifndef PLAINTEST_H
#define PLAINTEST_H

#include "generate.h"
#include "plain.h"

#include <stdio.h>
#include <string.h>

/* An expectation that fails is named by its file and line, and ends the
 * program. A function that is called with many cases gets the line of its call. */
void expect_in(const char *file, int line, bool good, const char *what);
void equal_in(const char *file, int line, uint64_t got, uint64_t wanted, const char *what);

#define expect_at(line, good, what) expect_in(__FILE__, (line), (good), (what))
#define equal_at(line, got, wanted, what) equal_in(__FILE__, (line), (got), (wanted), (what))
#define EXPECT(good, what) expect_at(__LINE__, (good), (what))
#define EQUAL(got, wanted, what) \
    equal_at(__LINE__, (uint64_t)(got), (uint64_t)(wanted), (what))

/* Bytes of a literal, and their count. */
#define LITERAL(text) (const uint8_t *)(text), sizeof(text) - 1

/* A reader with its table and index. */
struct bench {
    struct plain_reader r;
    uint8_t table[PLAIN_TABLE_BYTES];
    uint8_t index[PLAIN_INDEX_BYTES];
};

/* A fresh reader over a table and an index that are not zero. */
void start(struct bench *b);

struct plain_answer step(struct bench *b, const uint8_t *piece, size_t n);

struct plain_ran run_to(struct bench *b, const uint8_t *piece, size_t n, uint32_t ceiling);

/* Steps through accepted packets that fill the piece exactly. */
void feed(struct bench *b, const uint8_t *piece, size_t n);

void expect_row(const struct bench *b, size_t k, const uint8_t *row, size_t n);

/* Every place of the index: these row numbers, and then zeros. */
void index_in(const char *file, int line, const struct bench *b, const uint16_t *rows, size_t n);

#define expect_index(line, b, rows, n) index_in(__FILE__, (line), (b), (rows), (n))

/* The places that a table which no session left behind asks for. */
void sort_index(struct bench *b);

/* Whether two readers have the same handle, table and index. */
bool same_bench(const struct bench *a, const struct bench *b);

/* The listing's text, with room for it and a byte short. */
void expect_listing(const struct bench *b, const char *wanted);

/* Lists so many instruments by hand-made directories, with ids FIRST_ID on, behind
 * the rows that are there; or as many as fill the table. */
enum { FIRST_ID = 1000 };

void list_rows(struct bench *b, uint32_t count);
void fill_up(struct bench *b);

/* Makes every block's check right. */
void seal(uint8_t *image, size_t n);

/* The version without the times of sides that so many rows have, and their blocks. */
uint32_t old_version(uint32_t rows);
size_t blocks_of(uint32_t rows);

/* The reader's image by the words of the documents, with any count of blocks, of rows
 * that are named and any version; blocks past the rows are empty, and only version 3 has
 * the times of sides. Its length. */
size_t lay_image(const struct bench *b, size_t blocks, uint32_t named, uint32_t version, uint8_t *image);

/* Sets both times of a row in the table where their sides were seen. */
void set_times(struct bench *b, size_t row, uint64_t bid, uint64_t ask);

/* The same reader, but for the times of all its seen sides, which are unknown. */
struct bench with_unknown(const struct bench *b);

/* Restoring is refused with this number: a fresh handle, table and index untouched.
 * With a table or an index of another length it is refused with 20. */
void refused_in(const char *file, int line, const uint8_t *image, size_t n, int number);

#define restore_refused(line, image, n, number) refused_in(__FILE__, (line), (image), (n), (number))

/* The packets of the tests. The time is that of C8. */
#define SESSION "ISE0000001"
#define NINETEEN_SPACES "                   "
#define LOGIN "\x00\x1F" "A" SESSION NINETEEN_SPACES "1"
#define HEARTBEAT "\x00\x01" "H"
#define END "\x00\x01" "Z"
#define TIME "\x00\x00\x1F\x1A\xD6\x35\xBD\x15"
#define ID7 "\x00\x00\x00\x07"
#define ID_MAX "\xFF\xFF\xFF\xFF"
#define SPACES16 "                "
#define EVENT(code) "\x00\x0D" "SS" "\x00\x09" TIME code
/* symbol, date 2025-06-20, strike 175.0000, type; the fixed part */
#define FIXED "AAPL    " "\x19\x06\x14" "\x00\x1A\xB3\xF0" "C"
#define UNDERLYING "AAPL         "
#define DIRECTORY(id, tradable) \
    "\x00\x40" "Sm" "\x00\x01" TIME id FIXED UNDERLYING "N" tradable "P" SPACES16
#define STATE(id, state) "\x00\x11" "SH" "\x00\x02" TIME id state
#define SHORT_BID "\x00\x00" "\x00\x7D" "\x00\x0A" "\x00\x04" "\x00\x01"
#define SHORT_ASK "\x00\x03" "\xFF\xFF" "\xFF\xFE" "\x01\x00" "\x00\x02"
#define LONG_BID \
    "\x00\x00\x00\x05" "\x7F\xFF\xFF\xFF" "\xFF\xFF\xFF\xFF" "\x00\x01\x00\x00" "\x80\x00\x00\x00"
#define LONG_ASK \
    "\x00\x00\x00\x06" "\x00\x00\x30\xD5" "\x00\x00\x00\x0B" "\x00\x00\x00\x0C" "\x00\x00\x00\x0D"
#define BOTH_SHORT(id) "\x00\x25" "Sq" "\x00\x03" TIME id " " SHORT_BID SHORT_ASK
#define BOTH_LONG(id) "\x00\x39" "SQ" "\x00\x04" TIME id "X" LONG_BID LONG_ASK
#define BID_SHORT(id) "\x00\x1B" "Sb" "\x00\x05" TIME id " " SHORT_BID
#define ASK_SHORT(id) "\x00\x1B" "Sa" "\x00\x06" TIME id "Y" SHORT_ASK
#define BID_LONG(id) "\x00\x25" "SB" "\x00\x07" TIME id "X" LONG_BID
#define ASK_LONG(id) "\x00\x25" "SA" "\x00\x08" TIME id " " LONG_ASK
#define REPLAY_END "\x00\x16" "SM" "123456" "              "

/* Sides with no price, their other numbers not zero; a row keeps both as the long one. */
#define SHORT_NONE "\x00\x09" "\x00\x00" "\x00\x0A" "\x00\x04" "\x00\x01"
#define LONG_NONE \
    "\x00\x00\x00\x09" "\x00\x00\x00\x00" "\x00\x00\x00\x0A" "\x00\x00\x00\x04" "\x00\x00\x00\x01"

/* The first two short sides as a row keeps them. */
#define ROW_SHORT_BID \
    "\x00\x00\x00\x00" "\x00\x00\x30\xD4" "\x00\x00\x00\x0A" "\x00\x00\x00\x04" "\x00\x00\x00\x01"
#define ROW_SHORT_ASK \
    "\x00\x00\x00\x03" "\x00\x63\xFF\x9C" "\x00\x00\xFF\xFE" "\x00\x00\x01\x00" "\x00\x00\x00\x02"
#define NO_SIDE "\0\0\0\0\0\0\0\0\0\0\0\0\0\0\0\0\0\0\0\0"
#define NO_TIME "\0\0\0\0\0\0\0\0"

/* The sides seen, 0 to 3, as a row keeps them, and when they were set. */
#define SIDES_0 "\0"
#define SIDES_1 "\1"
#define SIDES_2 "\2"
#define SIDES_3 "\3"
#define TIMES_0 NO_TIME NO_TIME
#define TIMES_1 TIME NO_TIME
#define TIMES_2 NO_TIME TIME
#define TIMES_3 TIME TIME
#define ROW(id, tradable, state, condition, sides, bid, ask, tracking) \
    id FIXED UNDERLYING "N" tradable "P" SPACES16 state condition SIDES_##sides "\0" \
    bid ask "\x00" tracking TIME TIMES_##sides "\0\0"

/* One session with every sort of packet, and its packets' places. */
static const uint8_t day[] = HEARTBEAT LOGIN EVENT("O") DIRECTORY(ID7, "Y")
    "\x00\x06" "+hello" DIRECTORY(ID_MAX, "Y") DIRECTORY("\0\0\0\x08", "Y")
    EVENT("S") STATE(ID7, "T") STATE(ID_MAX, "T") STATE("\0\0\0\x08", "T")
    BOTH_SHORT(ID7) DIRECTORY("\0\0\0\x09", "N") DIRECTORY("\0\0\0\x0A", "Y")
    BOTH_LONG(ID_MAX) EVENT("Q") HEARTBEAT BID_SHORT("\0\0\0\x08")
    ASK_SHORT(ID7) BID_LONG(ID7) ASK_LONG("\0\0\0\x08") "\x00\x01" "U"
    DIRECTORY(ID_MAX, "N") STATE(ID7, "H") REPLAY_END HEARTBEAT END;

enum { DAY_BYTES = sizeof day - 1, DAY_PACKETS = 27 };

void test_reading(void);
void test_index(void);
void test_runs(void);
void test_messages(void);
void test_images(void);
void test_versions(void);
void test_times(void);
void test_moves(void);
void test_samples(size_t n, char *const *paths); /* images in files */
void test_generators(void);

#endif
