/* Tests of moving images: from versions 1 and 2 to 3, and back. */
#include "parts.h"
#include "plaintest.h"

enum { BLOCK = PLAIN_BLOCK_BYTES, LAST_OF_1 = PLAIN_ROWS_OF_VERSION_1 };

static const uint64_t unknown = UINT64_MAX, latest = UINT64_C(86399999999999);

static const uint32_t counts[] = {
    0, 1, 2, 3, 4, 5, 8, LAST_OF_1 - 1, LAST_OF_1, LAST_OF_1 + 1, 300, PLAIN_MAX_ROWS - 1, PLAIN_MAX_ROWS};

enum { COUNTS = sizeof counts / sizeof *counts };

typedef int mover(const uint8_t *, size_t, uint8_t *, size_t, size_t *);

/* A reader with so many rows, whose sides are unseen, bid, ask and both in turn; then
 * the times of those that are seen are all the same, or known ones of every sort. */
static void begin_rows(struct bench *b, uint32_t rows)
{
    start(b);
    feed(b, LITERAL(LOGIN EVENT("O") REPLAY_END));
    list_rows(b, rows);
    for (uint32_t k = 0; k < rows; k++) {
        uint8_t state[] = STATE("\0\0\0\0", "T"), bid[] = BID_LONG("\0\0\0\0"), ask[] = ASK_SHORT("\0\0\0\0");
        set_number(state + 14, 4, FIRST_ID + k);
        set_number(bid + 14, 4, FIRST_ID + k);
        set_number(ask + 14, 4, FIRST_ID + k);
        feed(b, state, sizeof state - 1);
        if ((k + 1) & 1)
            feed(b, bid, sizeof bid - 1);
        if ((k + 1) & 2)
            feed(b, ask, sizeof ask - 1);
    }
}

static void set_all_times(struct bench *b, uint64_t time)
{
    for (uint32_t k = 0; k < b->r.rows; k++)
        set_times(b, k, time, time);
}

static void set_mixed_times(struct bench *b)
{
    const uint64_t times[] = {0, 1, 34200123456789, latest, unknown};
    for (uint32_t k = 0; k < b->r.rows; k++)
        set_times(b, k, times[k % 5], times[(k / 5 + 2) % 5]);
}

static size_t lay(const struct bench *b, uint32_t version, uint8_t *image)
{
    return lay_image(b, blocks_of(b->r.rows), b->r.rows, version, image);
}

static uint8_t out[PLAIN_IMAGE_BYTES + BLOCK];

static void expect_left(int line, size_t from)
{
    size_t at = from;
    while (at < sizeof out && out[at] == 0x5A)
        at++;
    equal_at(line, at, sizeof out, "output that is left");
}

/* A move that is refused writes nothing, whatever is lent for it. */
static void move_refused(int line, mover *move, const uint8_t *image, size_t n, int number)
{
    const size_t lengths[] = {0, n == 0 ? 0 : n - 1, n, sizeof out};
    for (size_t i = 0; i < sizeof lengths / sizeof *lengths; i++) {
        size_t written = 9;
        memset(out, 0x5A, sizeof out);
        equal_at(line, (uint64_t)move(image, n, out, lengths[i] < sizeof out ? lengths[i] : sizeof out, &written),
                 (uint64_t)number, "a move that is refused");
        equal_at(line, written, 0, "nothing is written");
        expect_left(line, 0);
    }
}

/* A move into room that is too short, exact and longer; the image is left. */
static void move_to(int line, mover *move, const uint8_t *image, size_t n, const uint8_t *wanted)
{
    static uint8_t before[PLAIN_IMAGE_BYTES];
    const size_t lengths[] = {0, 1, n - BLOCK, n - 1, n, n + 1, sizeof out};
    memcpy(before, image, n);
    for (size_t i = 0; i < sizeof lengths / sizeof *lengths; i++) {
        size_t written = 9;
        int refusal;
        memset(out, 0x5A, sizeof out);
        refusal = move(image, n, out, lengths[i], &written);
        equal_at(line, (uint64_t)refusal, lengths[i] < n ? 25 : 0, "a move");
        equal_at(line, written, refusal == 0 ? n : 0, "bytes written");
        expect_at(line, refusal != 0 || memcmp(out, wanted, n) == 0, "what a move writes");
        expect_left(line, refusal == 0 ? n : 0);
        expect_at(line, memcmp(before, image, n) == 0, "the image is left");
    }
}

/* Forward: version 3, and unknown for each side that is seen. */
static void forward(uint32_t rows)
{
    static uint8_t image[PLAIN_IMAGE_BYTES], wanted[PLAIN_IMAGE_BYTES];
    struct bench b;
    size_t n;
    begin_rows(&b, rows);
    n = lay(&b, old_version(rows), image);
    set_all_times(&b, unknown);
    lay(&b, 3, wanted);
    move_to(__LINE__, plain_forward, image, n, wanted);
    move_refused(__LINE__, plain_back, image, n, 23);
    move_refused(__LINE__, plain_forward, wanted, n, 23);
    move_to(__LINE__, plain_back, wanted, n, image); /* forward then back: the same bytes */
}

static bool sees_a_side(const struct bench *b)
{
    for (size_t k = 0; k < b->r.rows; k++)
        if (b->table[k * PLAIN_ROW_BYTES + 54] != 0)
            return true;
    return false;
}

/* Back: version 1 or 2 by the rows, and no times; forward from there gives the same
 * bytes where all of them were unknown, and only there. */
static void back(const struct bench *b, bool is_known)
{
    static uint8_t image[PLAIN_IMAGE_BYTES], wanted[PLAIN_IMAGE_BYTES], again[PLAIN_IMAGE_BYTES];
    size_t n = lay(b, 3, image), written;
    lay(b, old_version(b->r.rows), wanted);
    move_to(__LINE__, plain_back, image, n, wanted);
    for (size_t at = 0; at < n; at += BLOCK)
        EQUAL(get_number(out + at + 4, 2), old_version(b->r.rows), "a block's version");
    move_refused(__LINE__, plain_forward, image, n, 23);
    EQUAL(plain_forward(wanted, n, again, sizeof again, &written), 0, "and forward");
    EXPECT(written == n && (memcmp(again, image, n) == 0) == !(is_known && sees_a_side(b)), "back then forward");
}

static void back_by_times(uint32_t rows)
{
    struct bench b;
    begin_rows(&b, rows);
    back(&b, true);
    set_mixed_times(&b);
    back(&b, true);
    set_all_times(&b, 0);
    back(&b, true);
    set_all_times(&b, latest);
    back(&b, true);
    set_all_times(&b, unknown);
    back(&b, false);
}

/* A single time that is known is lost: the bid's or the ask's, in any row. */
static void one_time_known(void)
{
    for (size_t k = 0; k < 5; k++)
        for (size_t at = 106; at <= 114; at += 8) {
            struct bench b;
            begin_rows(&b, 5);
            set_all_times(&b, unknown);
            if (get_number(b.table + k * 124 + at, 8) == 0)
                continue;
            set_number(b.table + k * 124 + at, 8, 5);
            back(&b, true);
            set_number(b.table + k * 124 + at, 8, 0);
            back(&b, true);
        }
}

/* Restoring an old image is restoring its move forward. */
static void restored_alike(uint32_t rows)
{
    static uint8_t image[PLAIN_IMAGE_BYTES], moved[PLAIN_IMAGE_BYTES], saved[PLAIN_IMAGE_BYTES];
    struct bench b, old, new;
    size_t n, written;
    begin_rows(&b, rows);
    n = lay(&b, old_version(rows), image);
    EQUAL(plain_forward(image, n, moved, sizeof moved, &written), 0, "forward");
    memset(&old, 0x11, sizeof old);
    memset(&new, 0x22, sizeof new);
    EQUAL(plain_restore(&old.r, old.table, sizeof old.table, old.index, sizeof old.index, image, n), 0, "restore");
    EQUAL(plain_restore(&new.r, new.table, sizeof new.table, new.index, sizeof new.index, moved, n), 0, "restore");
    EXPECT(same_bench(&old, &new), "restored alike");
    EQUAL(plain_save(&old.r, old.table, sizeof old.table, saved, sizeof saved, &written), 0, "save");
    EXPECT(written == n && memcmp(saved, moved, n) == 0, "saved as moved");
}

/* Versions that no move starts from: others than 1 to 3, and by the rows the wrong one
 * of 1 and 2; in all blocks, and in one. */
static void wrong_versions(uint32_t rows)
{
    static const uint16_t versions[] = {0, 1, 2, 3, 4, 0x0100, 0x0201, 0x0300, 0xFFFF};
    static uint8_t image[PLAIN_IMAGE_BYTES];
    struct bench b;
    begin_rows(&b, rows);
    for (size_t i = 0; i < sizeof versions / sizeof *versions; i++) {
        uint32_t version = versions[i], old = old_version(rows);
        size_t n = lay(&b, version, image);
        if (version != old)
            move_refused(__LINE__, plain_forward, image, n, 23);
        if (version != 3)
            move_refused(__LINE__, plain_back, image, n, 23);
        if (n == BLOCK)
            continue;
        set_number(image + 4, 2, version == old ? 3 : old);
        seal(image, n);
        move_refused(__LINE__, plain_forward, image, n, 23);
        move_refused(__LINE__, plain_back, image, n, 23);
        lay(&b, version, image);
        set_number(image + n - BLOCK + 4, 2, version == 3 ? old : 3);
        seal(image, n);
        move_refused(__LINE__, plain_forward, image, n, 23);
        move_refused(__LINE__, plain_back, image, n, 23);
    }
}

/* One image with ever lower faults, of which the lowest is named. */
static void order_of_refusals(mover *move, uint32_t right, uint32_t wrong)
{
    static uint8_t image[PLAIN_IMAGE_BYTES];
    struct bench b;
    size_t n;
    begin_rows(&b, 5);
    b.table[52] = '?';
    n = lay(&b, right, image);
    move_refused(__LINE__, move, image, n, 24);
    lay(&b, wrong, image);
    move_refused(__LINE__, move, image, n, 23);
    image[n - 1] ^= 1;
    move_refused(__LINE__, move, image, n, 22);
    move_refused(__LINE__, move, image, n - 1, 21);
    lay(&b, right, image);
    image[n - BLOCK + 3] ^= 1;
    seal(image, n);
    move_refused(__LINE__, move, image, n, 23);
    move_refused(__LINE__, move, image, 0, 21);
    move_refused(__LINE__, move, image, n + 1, 21);
}

/* Too long, with heads that are right. */
static void too_long(mover *move, uint32_t version)
{
    static uint8_t image[PLAIN_IMAGE_BYTES + BLOCK];
    struct bench b;
    begin_rows(&b, PLAIN_MAX_ROWS);
    lay_image(&b, PLAIN_MAX_BLOCKS + 1, PLAIN_MAX_ROWS, version, image);
    move_refused(__LINE__, move, image, sizeof image, 21);
}

/* Contents that break the rules of the image's own version. */
static void contents(mover *move, uint32_t version)
{
    static const struct {
        size_t at;
        uint8_t value;
    } faults[] = {
        {24, 2}, {25, 'T'}, {27, 4}, {27, 6}, {27, 9}, {28, 1}, {36, 1}, {509, 1},
        {512 + 14 + 4, ' '}, {512 + 14 + 54, 4}, {512 + 14 + 55, 1}, {512 + 14 + 98, 1},
        {512 + 14 + 114, 1}, {512 + 14 + 106, 1}, {512 + 14 + 122, 1}, {512 + 14 + 123, 1},
        {1024 + 14 + 122, 1}, {1024 + 14 + 124, 1}, {1024 + 14 + 124 + 106, 1}, {1024 + 509, 1},
    };
    static uint8_t image[PLAIN_IMAGE_BYTES];
    struct bench b;
    size_t n;
    begin_rows(&b, 5);
    for (size_t i = 0; i < sizeof faults / sizeof *faults; i++) {
        n = lay(&b, version, image);
        image[faults[i].at] = faults[i].value;
        seal(image, n);
        move_refused(__LINE__, move, image, n, 24);
    }
    n = lay(&b, version, image);
    memcpy(image + 1024 + 14, image + 512 + 14, 4); /* the id of the first row twice */
    seal(image, n);
    move_refused(__LINE__, move, image, n, 24);
}

/* The fresh image, by C12 and by what it was before. */
static void fresh(void)
{
    uint8_t old[BLOCK], new[BLOCK], saved[BLOCK];
    struct bench b;
    size_t n;
    start(&b);
    EQUAL(plain_save(&b.r, b.table, sizeof b.table, saved, sizeof saved, &n), 0, "save");
    lay(&b, 1, old);
    lay(&b, 3, new);
    EXPECT(memcmp(old + 510, "\x18\x78", 2) == 0 && memcmp(new + 510, "\x18\x84", 2) == 0, "C12's check");
    EXPECT(memcmp(new, saved, sizeof new) == 0, "C12");
    move_to(__LINE__, plain_forward, old, sizeof old, new);
    move_to(__LINE__, plain_back, new, sizeof new, old);
}

void test_moves(void)
{
    for (size_t i = 0; i < COUNTS; i++) {
        forward(counts[i]);
        back_by_times(counts[i]);
        restored_alike(counts[i]);
        wrong_versions(counts[i]);
    }
    one_time_known();
    order_of_refusals(plain_forward, 1, 3);
    order_of_refusals(plain_forward, 1, 2);
    order_of_refusals(plain_back, 3, 1);
    order_of_refusals(plain_back, 3, 2);
    too_long(plain_forward, 2);
    too_long(plain_back, 3);
    contents(plain_forward, 1);
    contents(plain_back, 3);
    fresh();
}
