/* Readers from before document 02 raised the most rows, or gave each side a time, over
 * images of today: the plain reader, built with the sizes and versions of that time.
 *
 *   oldtest [NEW OLD SESSION]...    an image of version 3, what it is moved back, and
 *                                   the session that it was saved from, or - for none */
#include "file.h"
#include "plain.h"

#include <stdio.h>
#include <stdlib.h>
#include <string.h>

_Static_assert(PLAIN_NEWEST_VERSION == 2
                   ? PLAIN_MAX_ROWS == 500 && PLAIN_MAX_BLOCKS == 126
                   : PLAIN_NEWEST_VERSION == 1 && PLAIN_MAX_ROWS == 256 && PLAIN_TABLE_BYTES == 31744 &&
                         PLAIN_INDEX_BYTES == 512 && PLAIN_MAX_BLOCKS == 65,
               "the sizes and versions from before");

enum { AT_VERSION = 4, AT_ROWS = 26, AT_CHECK = 510 };

/* Longer than any image that this reader may take. */
static uint8_t image[4 * PLAIN_IMAGE_BYTES], again[PLAIN_IMAGE_BYTES], session[1 << 20];
static struct plain_reader reader;
static uint8_t table[PLAIN_TABLE_BYTES], places[PLAIN_INDEX_BYTES];

/* How many images were refused, by number, and restored, and sessions read. */
static unsigned long too_long, unknown, restored, sessions;

static void expect(bool good, const char *path, const char *what)
{
    if (good)
        return;
    printf("oldtest: FAILED: %s: %s\n", path, what);
    exit(1);
}

static unsigned number_at(const uint8_t *p)
{
    return p[0] * 256u + p[1];
}

static bool is_filled(const uint8_t *bytes, size_t n, uint8_t value)
{
    for (size_t i = 0; i < n; i++)
        if (bytes[i] != value)
            return false;
    return true;
}

static size_t load(const char *path, uint8_t *bytes, size_t room)
{
    long n = read_file("oldtest", path, bytes, room);
    if (n < 0)
        exit(2);
    return (size_t)n;
}

/* Restores over memory that is full of one byte; a refusal leaves it so, and the
 * handle is a fresh one. */
static int restore(const char *path, size_t n)
{
    struct plain_reader fresh;
    int refusal;
    plain_start(&fresh, table, sizeof table, places, sizeof places);
    memset(&reader, 0x66, sizeof reader);
    memset(table, 0x66, sizeof table);
    memset(places, 0x66, sizeof places);
    refusal = plain_restore(&reader, table, sizeof table, places, sizeof places, image, n);
    expect(refusal == 0 || (is_filled(table, sizeof table, 0x66) && is_filled(places, sizeof places, 0x66)), path,
           "table and index are left");
    expect(refusal == 0 || plain_same_reader(&reader, &fresh), path, "the handle is fresh");
    return refusal;
}

static void seal(uint8_t *block)
{
    unsigned long sum = 0;
    for (unsigned long i = 0; i < AT_CHECK; i++)
        sum += (i + 1) * block[i];
    block[AT_CHECK] = (uint8_t)(sum % 65521 / 256);
    block[AT_CHECK + 1] = (uint8_t)(sum % 65521 % 256);
}

/* A version above the newest says nothing to this reader, however few rows are named. */
static void next_version(const char *path, size_t n)
{
    for (size_t at = 0; at < n; at += PLAIN_BLOCK_BYTES) {
        image[at + AT_VERSION + 1] = PLAIN_NEWEST_VERSION + 1;
        seal(image + at);
    }
    expect(restore(path, n) == 23, path, "23 for the next version");
    image[AT_ROWS]++;
    seal(image);
    expect(restore(path, n) == 23, path, "23 for the next version, with 256 rows more named");
}

/* An image of version 3: 23, or with more rows than the reader has room for 21, and
 * then 23 for as many of its blocks as may be. */
static void refused(const char *path)
{
    size_t n = load(path, image, sizeof image);
    unsigned rows = number_at(image + AT_ROWS);
    expect(number_at(image + AT_VERSION) == 3, path, "version 3");
    if (rows <= PLAIN_MAX_ROWS) {
        expect(restore(path, n) == 23, path, "23 for version 3");
        unknown++;
        return;
    }
    expect(restore(path, n) == 21, path, "21 for more blocks than there may be");
    expect(restore(path, PLAIN_IMAGE_BYTES) == 23, path, "23 for its first blocks");
    too_long++;
}

static void expect_saved(const char *path, const uint8_t *wanted, size_t wanted_n)
{
    size_t n;
    expect(plain_save(&reader, table, sizeof table, again, sizeof again, &n) == 0, path, "saved");
    expect(n == wanted_n && memcmp(again, wanted, n) == 0, path, "to the same bytes");
}

/* An image that was moved back: taken, with no times, and saved to the same bytes;
 * where it has too many rows, refused as before. */
static bool taken(const char *path, size_t n)
{
    unsigned rows = number_at(image + AT_ROWS);
    expect(number_at(image + AT_VERSION) == (rows <= PLAIN_ROWS_OF_VERSION_1 ? 1 : 2), path, "version 1 or 2");
    if (rows > PLAIN_MAX_ROWS) {
        expect(restore(path, n) == 21, path, "21 for more blocks than there may be");
        expect(restore(path, PLAIN_IMAGE_BYTES) == 23, path, "23 for its first blocks");
        too_long++;
        return false;
    }
    expect(restore(path, n) == 0 && reader.rows == rows, path, "its rows are restored");
    for (unsigned k = 0; k < rows; k++)
        expect(is_filled(table + k * PLAIN_ROW_BYTES + ROW_BID_TIME, PLAIN_ROW_BYTES - ROW_BID_TIME, 0), path,
               "no times");
    expect_saved(path, image, n);
    restored++;
    return true;
}

/* Reads the session by itself, and saves the same image. */
static void read_session(const char *path, const uint8_t *wanted, size_t wanted_n)
{
    size_t n = load(path, session, sizeof session), at = 0;
    struct plain_answer answer;
    plain_start(&reader, table, sizeof table, places, sizeof places);
    do {
        plain_step(&reader, table, sizeof table, places, sizeof places, session + at, n - at, &answer);
        at += answer.taken;
    } while (answer.kind == PLAIN_EVENT);
    expect_saved(path, wanted, wanted_n);
    sessions++;
}

int main(int argc, char **argv)
{
    if (argc < 4 || argc % 3 != 1) {
        fprintf(stderr, "usage: oldtest [NEW OLD SESSION]...\n");
        return 2;
    }
    for (int i = 1; i < argc; i += 3) {
        size_t n;
        refused(argv[i]);
        n = load(argv[i + 1], image, sizeof image);
        if (!taken(argv[i + 1], n))
            continue;
        if (strcmp(argv[i + 2], "-") != 0)
            read_session(argv[i + 2], image, n);
        next_version(argv[i + 1], n);
    }
    printf("oldtest: a reader of up to version %d: images refused with 21: %lu, with 23: %lu; moved back and restored: "
           "%lu; saved by itself to the same bytes: %lu\n",
           PLAIN_NEWEST_VERSION, too_long, unknown, restored, sessions);
    return 0;
}
