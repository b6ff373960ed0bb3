/* Tests of the most rows that a table has, and of the version of an image: 3, or by its
 * rows one of 1 and 2. */
#include "file.h"
#include "parts.h"
#include "plaintest.h"

enum { LAST_OF_1 = PLAIN_ROWS_OF_VERSION_1, BLOCK = PLAIN_BLOCK_BYTES };

/* Counts of rows about each place where an image changes. */
static const uint32_t counts[] = {
    0, 1, 4, 5, LAST_OF_1 - 1, LAST_OF_1, LAST_OF_1 + 1, 300, PLAIN_MAX_ROWS - 1, PLAIN_MAX_ROWS};

enum { COUNTS = sizeof counts / sizeof *counts };

/* The numbers of document 02. */
static void sizes(void)
{
    EQUAL(PLAIN_MAX_ROWS, 500, "instruments");
    EQUAL(PLAIN_TABLE_BYTES, 62000, "table memory");
    EQUAL(PLAIN_INDEX_BYTES, 1000, "index memory");
    EQUAL(PLAIN_MAX_BLOCKS, 126, "blocks of an image");
    EQUAL(PLAIN_IMAGE_BYTES, 64512, "the longest image");
    EQUAL(PLAIN_ROWS_OF_VERSION_1, 256, "rows of version 1");
}

/* A reader with so many rows; the first and the last have a state and quotes, whose
 * times are known. */
static void begin_rows(struct bench *b, uint32_t rows)
{
    start(b);
    feed(b, LITERAL(LOGIN EVENT("O") REPLAY_END));
    list_rows(b, rows);
    for (uint32_t k = 0; k < rows; k += rows > 1 ? rows - 1 : 1) {
        uint8_t state[] = STATE("\0\0\0\0", "T"), bid[] = BID_SHORT("\0\0\0\0"), ask[] = ASK_LONG("\0\0\0\0");
        set_number(state + 14, 4, FIRST_ID + k);
        set_number(bid + 14, 4, FIRST_ID + k);
        set_number(ask + 14, 4, FIRST_ID + k);
        feed(b, state, sizeof state - 1);
        feed(b, bid, sizeof bid - 1);
        if (k != 0)
            feed(b, ask, sizeof ask - 1);
    }
}

/* The image of a reader, whole. */
static size_t lay_whole(const struct bench *b, uint32_t version, uint8_t *image)
{
    return lay_image(b, blocks_of(b->r.rows), b->r.rows, version, image);
}

/* Restored from its image in a version: only version 3 says when sides were set. */
static void expect_restored(int line, const struct bench *from, uint32_t version, const uint8_t *image, size_t n)
{
    struct bench b, wanted = version == 3 ? *from : with_unknown(from);
    memset(&b, 0xDD, sizeof b);
    equal_at(line, (uint64_t)plain_restore(&b.r, b.table, sizeof b.table, b.index, sizeof b.index, image, n), 0,
             "restore");
    wanted.r.logged_in = false;
    expect_at(line, same_bench(&b, &wanted), "the reader restored");
}

/* Saved in version 3, whatever the rows, and restored; one byte short, nothing is
 * written. */
static void saved_with_times(uint32_t rows)
{
    static uint8_t image[PLAIN_IMAGE_BYTES + BLOCK], wanted[PLAIN_IMAGE_BYTES];
    struct bench b;
    size_t n, length;
    begin_rows(&b, rows);
    length = lay_whole(&b, 3, wanted);
    memset(image, 0x5A, sizeof image);
    EQUAL(plain_save(&b.r, b.table, sizeof b.table, image, length - 1, &n), 25, "one byte short");
    EQUAL(image[0], 0x5A, "nothing written");
    EQUAL(plain_save(&b.r, b.table, sizeof b.table, image, length, &n), 0, "save");
    EQUAL(n, length, "the image's length");
    for (size_t at = 0; at < n; at += BLOCK)
        EQUAL(get_number(image + at + 4, 2), 3, "a block's version");
    EXPECT(memcmp(image, wanted, n) == 0, "the image's bytes");
    for (size_t at = n; at < sizeof image; at++)
        EQUAL(image[at], 0x5A, "nothing past the image");
    expect_restored(__LINE__, &b, 3, image, n);
}

/* An image that is right but for the version of some one block. */
static void one_version_wrong(const struct bench *b, uint32_t right, uint32_t wrong)
{
    static uint8_t image[PLAIN_IMAGE_BYTES];
    for (size_t k = 0; k < blocks_of(b->r.rows); k = 2 * k + 1) {
        size_t n = lay_whole(b, right, image);
        set_number(image + k * BLOCK + 4, 2, wrong);
        seal(image, n);
        if (n > BLOCK)
            restore_refused(__LINE__, image, n, 23);
    }
}

/* Each version in all blocks, and in one block alone: 3 is right for any rows, and
 * one of 1 and 2. */
static void versions_by_rows(uint32_t rows)
{
    static const uint16_t versions[] = {0, 1, 2, 3, 4, 0x0100, 0x0101, 0x0200, 0x0201, 0x0300, 0x0301, 0x0103, 0xFFFF};
    static uint8_t image[PLAIN_IMAGE_BYTES];
    struct bench b;
    begin_rows(&b, rows);
    for (size_t i = 0; i < sizeof versions / sizeof *versions; i++) {
        size_t n = lay_whole(&b, versions[i], image);
        if (versions[i] == 3 || versions[i] == old_version(rows))
            expect_restored(__LINE__, &b, versions[i], image, n);
        else
            restore_refused(__LINE__, image, n, 23);
        if (versions[i] != 3)
            one_version_wrong(&b, 3, versions[i]);
        if (versions[i] != old_version(rows))
            one_version_wrong(&b, old_version(rows), versions[i]);
    }
}

/* What an image is refused with that has this version, and room for so many rows, but
 * names others. */
static int refusal_of_named(uint32_t version, uint32_t named, uint32_t rows)
{
    if (version != 3 && version != old_version(named))
        return 23;
    return named != rows ? 24 : 0;
}

/* Versions 1 and 2 go by the rows that block 0 names, and not by the blocks there are;
 * a count that those rows don't fit comes after it. */
static void named_rows(uint32_t rows)
{
    static const uint32_t others[] = {PLAIN_MAX_ROWS + 1, PLAIN_MAX_ROWS + 4, 0x7FFF, 0x8000, 0xFFFF};
    static uint8_t image[PLAIN_IMAGE_BYTES];
    struct bench b;
    begin_rows(&b, rows);
    for (size_t i = 0; i < COUNTS + sizeof others / sizeof *others; i++) {
        uint32_t named = i < COUNTS ? counts[i] : others[i - COUNTS];
        for (uint32_t version = 0; version <= 4; version++) {
            size_t n = lay_image(&b, blocks_of(rows), named, version, image);
            int refusal = refusal_of_named(version, named, rows);
            if (refusal != 0)
                restore_refused(__LINE__, image, n, refusal);
        }
    }
}

/* As many blocks as there may be, and more, with heads that are right. */
static void counts_of_blocks(uint32_t version)
{
    static const size_t over[] = {PLAIN_MAX_BLOCKS + 1, PLAIN_MAX_BLOCKS + 2, 2 * PLAIN_MAX_BLOCKS};
    static uint8_t image[2 * PLAIN_IMAGE_BYTES];
    struct bench b;
    begin_rows(&b, PLAIN_MAX_ROWS);
    for (size_t i = 0; i < sizeof over / sizeof *over; i++) {
        size_t n = lay_image(&b, over[i], (uint32_t)(over[i] - 1) * 4, version, image);
        restore_refused(__LINE__, image, n, 21);
        restore_refused(__LINE__, image, n - 1, 21);
        lay_image(&b, over[i], PLAIN_MAX_ROWS, version, image);
        restore_refused(__LINE__, image, n, 21);
    }
    lay_whole(&b, version, image);
    restore_refused(__LINE__, image, PLAIN_IMAGE_BYTES - 1, 21);
    restore_refused(__LINE__, image, PLAIN_IMAGE_BYTES + 1, 21);
    restore_refused(__LINE__, image, PLAIN_IMAGE_BYTES + BLOCK, 21);
    restore_refused(__LINE__, image, PLAIN_IMAGE_BYTES - BLOCK, 23); /* the count says one more */
}

/* Every count of blocks that there may be, in both versions that it has. */
static void each_count_of_blocks(void)
{
    static uint8_t image[PLAIN_IMAGE_BYTES];
    for (size_t blocks = 2; blocks <= PLAIN_MAX_BLOCKS; blocks++) {
        struct bench b;
        begin_rows(&b, (uint32_t)(blocks - 1) * 4);
        lay_whole(&b, 3, image);
        expect_restored(__LINE__, &b, 3, image, blocks * BLOCK);
        lay_whole(&b, old_version(b.r.rows), image);
        expect_restored(__LINE__, &b, old_version(b.r.rows), image, blocks * BLOCK);
    }
}

/* The lowest number wins in images of versions 2 and 3 too. */
static void order_of_refusals(uint32_t version)
{
    static uint8_t image[PLAIN_IMAGE_BYTES + BLOCK];
    struct bench b;
    size_t n;
    begin_rows(&b, LAST_OF_1 + 1);
    b.table[52] = '?';
    n = lay_whole(&b, version, image);
    restore_refused(__LINE__, image, n, 24);
    n = lay_whole(&b, 1, image);
    restore_refused(__LINE__, image, n, 23);
    image[n - 1] ^= 1;
    restore_refused(__LINE__, image, n, 22);
    restore_refused(__LINE__, image, n - 1, 21);
}

/* Every two rows of a full table are told apart. */
static void ids_of_a_full_table(void)
{
    static const uint32_t rows[] = {0, 1, LAST_OF_1 - 1, LAST_OF_1, PLAIN_MAX_ROWS - 2, PLAIN_MAX_ROWS - 1};
    static uint8_t image[PLAIN_IMAGE_BYTES];
    struct bench b;
    size_t n;
    begin_rows(&b, PLAIN_MAX_ROWS);
    for (size_t i = 0; i < sizeof rows / sizeof *rows; i++)
        for (size_t k = 0; k < i; k++) {
            struct bench c = b;
            memcpy(c.table + rows[i] * PLAIN_ROW_BYTES, b.table + rows[k] * PLAIN_ROW_BYTES, 4);
            EQUAL(plain_save(&c.r, c.table, sizeof c.table, image, sizeof image, &n), 24, "an id twice");
            n = lay_whole(&c, 2, image);
            restore_refused(__LINE__, image, n, 24);
            n = lay_whole(&c, 3, image);
            restore_refused(__LINE__, image, n, 24);
        }
}

/* Directories up to the last that finds room, by steps, by a run, and once the full
 * table was saved and restored. */
static void rows_up_to_the_last(void)
{
    static const uint8_t three[] = DIRECTORY("\0\0\0\1", "Y") DIRECTORY("\0\0\0\2", "Y") DIRECTORY("\0\0\0\3", "Y");
    static uint8_t image[PLAIN_IMAGE_BYTES];
    struct bench b, full;
    struct plain_ran ran;
    size_t n;
    start(&b);
    feed(&b, LITERAL(LOGIN));
    list_rows(&b, PLAIN_MAX_ROWS - 1);
    ran = run_to(&b, three, sizeof three - 1, 9);
    EXPECT(ran.why == PLAIN_RAN_REFUSED && ran.refusal == 16 && ran.finished == 1, "room for one more");
    EXPECT(b.r.rows == PLAIN_MAX_ROWS && b.r.next == PLAIN_MAX_ROWS + 1, "the last row");
    begin_rows(&b, PLAIN_MAX_ROWS);
    EQUAL(plain_save(&b.r, b.table, sizeof b.table, image, sizeof image, &n), 0, "save");
    EQUAL(plain_restore(&full.r, full.table, sizeof full.table, full.index, sizeof full.index, image, n), 0, "restore");
    full.r.logged_in = true;
    b = full;
    EQUAL(step(&b, three, sizeof three - 1).refusal, 16, "no room");
    full.r.refusal = 16;
    EXPECT(same_bench(&b, &full), "nothing else changes");
}

/* Memory of the sizes from before, and of other sizes, is refused. */
static void other_sizes(void)
{
    static const size_t rows[] = {0, 1, LAST_OF_1, PLAIN_MAX_ROWS - 1};
    struct bench b, before;
    struct plain_answer a;
    start(&b);
    before = b;
    for (size_t i = 0; i < sizeof rows / sizeof *rows; i++) {
        size_t table_len = rows[i] * PLAIN_ROW_BYTES, index_len = rows[i] * 2;
        plain_step(&b.r, b.table, table_len, b.index, sizeof b.index, LITERAL(LOGIN), &a);
        EXPECT(a.refusal == 20 && a.taken == 0 && same_bench(&b, &before), "another table length");
        plain_step(&b.r, b.table, sizeof b.table, b.index, index_len, LITERAL(LOGIN), &a);
        EXPECT(a.refusal == 20 && a.taken == 0 && same_bench(&b, &before), "another index length");
        EQUAL(plain_start(&b.r, b.table, table_len, b.index, index_len), 20, "start");
    }
}

void test_versions(void)
{
    sizes();
    for (size_t i = 0; i < COUNTS; i++) {
        saved_with_times(counts[i]);
        versions_by_rows(counts[i]);
        named_rows(counts[i]);
    }
    for (uint32_t version = 2; version <= 3; version++) {
        counts_of_blocks(version);
        order_of_refusals(version);
    }
    each_count_of_blocks();
    ids_of_a_full_table();
    rows_up_to_the_last();
    other_sizes();
}

/* A move gives these bytes. */
static void expect_moved(const char *path, int (*move)(const uint8_t *, size_t, uint8_t *, size_t, size_t *),
                         const uint8_t *image, size_t n, const uint8_t *wanted)
{
    static uint8_t moved[PLAIN_IMAGE_BYTES];
    size_t written;
    EQUAL(move(image, n, moved, sizeof moved, &written), 0, path);
    EXPECT(written == n && memcmp(moved, wanted, n) == 0, path);
}

/* An image in a file is restored, and saved to the same bytes, or where it is of version 1
 * or 2, to those of its move forward; moved back, those are the file's again. */
static void sample(const char *path)
{
    static uint8_t image[PLAIN_IMAGE_BYTES + 1], again[PLAIN_IMAGE_BYTES];
    long length = read_file("plaintest", path, image, sizeof image);
    bool timed = get_number(image + 4, 2) == 3;
    struct bench b;
    size_t n;
    EXPECT(length > 0, path);
    EQUAL(plain_restore(&b.r, b.table, sizeof b.table, b.index, sizeof b.index, image, (size_t)length), 0, path);
    EQUAL(plain_save(&b.r, b.table, sizeof b.table, again, sizeof again, &n), 0, path);
    EQUAL(n, (size_t)length, path);
    EXPECT((memcmp(again, image, n) == 0) == timed, path);
    if (timed)
        return;
    EQUAL(get_number(image + 4, 2), old_version(b.r.rows), path);
    expect_moved(path, plain_forward, image, n, again);
    expect_moved(path, plain_back, again, n, image);
}

void test_samples(size_t n, char *const *paths)
{
    for (size_t i = 0; i < n; i++)
        sample(paths[i]);
}
