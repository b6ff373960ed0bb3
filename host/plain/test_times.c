/* Tests of the times at which the sides of a row were set. */
#include "parts.h"
#include "plaintest.h"

enum { BID_AT = 106, ASK_AT = 114, AFTER = 122 };

static const uint64_t unknown = UINT64_MAX, latest = UINT64_C(86399999999999);

/* The forms of a quote: the packet, its length, and the sides that it sets. */
static const struct form {
    const char *packet;
    size_t n;
    unsigned sides;
} forms[] = {
    {BOTH_SHORT(ID7), 39, 3}, {BOTH_LONG(ID7), 59, 3}, {BID_SHORT(ID7), 29, 1},
    {BID_LONG(ID7), 39, 1},   {ASK_SHORT(ID7), 29, 2}, {ASK_LONG(ID7), 39, 2},
};

enum { FORMS = sizeof forms / sizeof *forms };

/* Feeds a packet with its message's time set. */
static void feed_at(struct bench *b, const char *packet, size_t n, uint64_t time)
{
    uint8_t bytes[80];
    memcpy(bytes, packet, n);
    set_number(bytes + 6, 8, time);
    feed(b, bytes, n);
}

#define FEED_AT(bench, packet, time) feed_at((bench), (packet), sizeof(packet) - 1, (time))

/* The bytes of a row that follow its latest message's. */
static void times_at(int line, const struct bench *b, size_t row, uint64_t bid, uint64_t ask)
{
    const uint8_t *at = b->table + row * PLAIN_ROW_BYTES;
    equal_at(line, get_number(at + BID_AT, 8), bid, "the bid's time");
    equal_at(line, get_number(at + ASK_AT, 8), ask, "the ask's time");
    equal_at(line, get_number(at + AFTER, 2), 0, "the bytes behind the times");
}

#define TIMES(bench, bid, ask) times_at(__LINE__, (bench), 0, (bid), (ask))

/* Two rows in state T. */
static void begin(struct bench *b)
{
    start(b);
    feed(b, LITERAL(LOGIN DIRECTORY(ID7, "Y") DIRECTORY(ID_MAX, "Y") STATE(ID7, "T") STATE(ID_MAX, "T")));
    TIMES(b, 0, 0);
}

/* Each form over unseen sides and over seen ones, with times at both ends: it sets those
 * of its own sides, and nothing else but what it always set. */
static void set_by_each_form(void)
{
    static const uint64_t times[] = {0, 1, UINT64_C(34200123456789), UINT64_C(86399999999999)};
    for (size_t k = 0; k < FORMS; k++)
        for (size_t i = 0; i < sizeof times / sizeof *times; i++) {
            bool bid = forms[k].sides & 1, ask = forms[k].sides & 2;
            struct bench b, other;
            begin(&b);
            feed_at(&b, forms[k].packet, forms[k].n, times[i]);
            TIMES(&b, bid ? times[i] : 0, ask ? times[i] : 0);
            times_at(__LINE__, &b, 1, 0, 0);
            EQUAL(b.table[54], forms[k].sides, "sides seen");
            begin(&b);
            FEED_AT(&b, BOTH_LONG(ID7), 77);
            other = b;
            feed_at(&b, forms[k].packet, forms[k].n, times[i]);
            TIMES(&b, bid ? times[i] : 77, ask ? times[i] : 77);
            EXPECT(bid || memcmp(b.table + 56, other.table + 56, 20) == 0, "the bid that is kept");
            EXPECT(ask || memcmp(b.table + 76, other.table + 76, 20) == 0, "the ask that is kept");
            EQUAL(get_number(b.table + 98, 8), times[i], "the row's time");
            EXPECT(memcmp(b.table + 124, other.table + 124, sizeof b.table - 124) == 0, "the other rows");
        }
}

/* After a run of asks the bid is as old as it was; and the other way round. */
static void ages_apart(void)
{
    struct bench b;
    begin(&b);
    FEED_AT(&b, BID_SHORT(ID7), 100);
    for (uint64_t time = 200; time < 230; time += 2) {
        FEED_AT(&b, ASK_SHORT(ID7), time);
        TIMES(&b, 100, time);
        FEED_AT(&b, ASK_LONG(ID7), time + 1);
        TIMES(&b, 100, time + 1);
    }
    FEED_AT(&b, BID_LONG(ID7), 50); /* times need not rise */
    TIMES(&b, 50, 229);
    FEED_AT(&b, BID_LONG(ID_MAX), 300);
    TIMES(&b, 50, 229);
    times_at(__LINE__, &b, 1, 300, 0);
}

/* States and directories leave both times, but a directory that makes the row
 * untradable clears them. */
static void purged(void)
{
    for (unsigned sides = 0; sides <= 3; sides++) {
        struct bench b;
        begin(&b);
        if (sides & 1)
            FEED_AT(&b, BID_SHORT(ID7), 100);
        if (sides & 2)
            FEED_AT(&b, ASK_LONG(ID7), 200);
        FEED_AT(&b, BOTH_SHORT(ID_MAX), 150);
        FEED_AT(&b, STATE(ID7, "H"), 300);
        FEED_AT(&b, DIRECTORY(ID7, "Y"), 400);
        FEED_AT(&b, STATE(ID7, "T"), 500);
        TIMES(&b, sides & 1 ? 100 : 0, sides & 2 ? 200 : 0);
        FEED_AT(&b, DIRECTORY(ID7, "N"), 600);
        TIMES(&b, 0, 0);
        EQUAL(get_number(b.table + 98, 8), 600, "the row's time");
        times_at(__LINE__, &b, 1, 150, 150);
        FEED_AT(&b, DIRECTORY(ID7, "Y"), 700);
        TIMES(&b, 0, 0);
        FEED_AT(&b, ASK_SHORT(ID7), 800);
        TIMES(&b, 0, 800);
    }
}

/* A purge zeroes exactly these bytes, whatever is there, and a quote writes its own
 * alone. */
static void strange_bytes(void)
{
    struct bench b;
    uint8_t row[PLAIN_ROW_BYTES];
    begin(&b);
    memset(b.table + BID_AT, 0xAB, 18);
    memcpy(row, b.table, sizeof row);
    FEED_AT(&b, BID_LONG(ID7), 9);
    EXPECT(get_number(b.table + BID_AT, 8) == 9 && memcmp(b.table + ASK_AT, row + ASK_AT, 10) == 0, "the bid's alone");
    memset(b.table + BID_AT, 0xAB, 18);
    FEED_AT(&b, ASK_SHORT(ID7), 8);
    EXPECT(get_number(b.table + ASK_AT, 8) == 8 && memcmp(b.table + BID_AT, row + BID_AT, 8) == 0 &&
               memcmp(b.table + AFTER, row + AFTER, 2) == 0,
           "the ask's alone");
    memset(b.table + BID_AT, 0xAB, 18);
    FEED_AT(&b, DIRECTORY(ID7, "N"), 7);
    EXPECT(get_number(b.table + BID_AT, 8) == 0 && get_number(b.table + ASK_AT, 8) == 0 &&
               memcmp(b.table + AFTER, row + AFTER, 2) == 0,
           "both times, and no byte behind them");
}

/* A quote that is refused leaves both times. */
static void refused_quotes(void)
{
    struct bench b;
    for (size_t k = 0; k < FORMS; k++)
        for (int refusal = 12; refusal <= 14; refusal++) {
            uint8_t packet[80];
            begin(&b);
            FEED_AT(&b, BOTH_SHORT(ID7), 100);
            memcpy(packet, forms[k].packet, forms[k].n);
            set_number(packet + 6, 8, refusal == 12 ? latest + 1 : 200);
            if (refusal == 13)
                packet[17] = 9;
            if (refusal == 14)
                feed(&b, LITERAL(STATE(ID7, "H")));
            EQUAL(step(&b, packet, forms[k].n).refusal, refusal, "refused");
            TIMES(&b, 100, 100);
        }
}

/* Whether a side's time may stand in version 3. */
static bool may_stand(bool seen, uint64_t time)
{
    return seen ? time <= latest || time == unknown : time == 0;
}

/* A row with these sides and times is refused by all calls alike, or saved, and its
 * image of version 3 restored to the same. */
static void judged(const struct bench *b, bool good)
{
    uint8_t image[1024], again[1024];
    struct bench restored;
    size_t n;
    EQUAL(plain_save(&b->r, b->table, sizeof b->table, image, sizeof image, &n), good ? 0 : 24, "save");
    lay_image(b, 2, 1, 3, again);
    if (!good) {
        restore_refused(__LINE__, again, sizeof again, 24);
        EQUAL(plain_back(again, sizeof again, image, 0, &n), 24, "back");
        return;
    }
    EXPECT(n == sizeof again && memcmp(image, again, n) == 0, "saved as it stands");
    EQUAL(plain_restore(&restored.r, restored.table, sizeof restored.table, restored.index, sizeof restored.index,
                        image, n), 0, "restore");
    EXPECT(memcmp(restored.table, b->table, sizeof b->table) == 0, "restored as it stands");
}

/* One row, in which these sides are seen. */
static void begin_one(struct bench *b, unsigned sides)
{
    start(b);
    feed(b, LITERAL(LOGIN DIRECTORY(ID7, "Y") STATE(ID7, "T")));
    if (sides & 1)
        feed(b, LITERAL(BID_SHORT(ID7)));
    if (sides & 2)
        feed(b, LITERAL(ASK_SHORT(ID7)));
}

/* Every two of these times, for every two sides. */
static void times_judged(void)
{
    static const uint64_t times[] = {0, 1, 99, UINT64_C(86399999999999), UINT64_C(86400000000000), UINT64_C(1) << 47,
                                     UINT64_C(1) << 63, UINT64_MAX >> 1, UINT64_MAX - 1, UINT64_MAX};
    enum { N = sizeof times / sizeof *times };
    for (unsigned sides = 0; sides <= 3; sides++)
        for (size_t i = 0; i < N * N; i++) {
            struct bench b;
            begin_one(&b, sides);
            set_number(b.table + BID_AT, 8, times[i / N]);
            set_number(b.table + ASK_AT, 8, times[i % N]);
            judged(&b, may_stand(sides & 1, times[i / N]) && may_stand(sides & 2, times[i % N]));
        }
}

/* All bits but one, for each bit. */
static void bits_lacking(void)
{
    for (size_t bit = 0; bit < 64; bit++)
        for (unsigned side = 1; side <= 2; side++) {
            struct bench b;
            begin_one(&b, 3);
            set_number(b.table + (side == 1 ? BID_AT : ASK_AT), 8, unknown ^ UINT64_C(1) << bit);
            judged(&b, false);
        }
}

/* Whether a byte of 106-123 may have a value, the other seventeen being zero: a seen
 * side's time is up to 00 00 4E 94 91 4E FF FF. */
static bool byte_may(unsigned sides, size_t at, unsigned value)
{
    size_t i = (at - BID_AT) % 8;
    if (value == 0)
        return true;
    if (at >= AFTER || !(sides & (at < ASK_AT ? 1 : 2)))
        return false;
    return i > 2 || (i == 2 && value <= 0x4E);
}

/* Every value of every byte of 106-123 in an image of versions 1 and 2, where each must
 * be zero. */
static void bytes_of_old_images(uint32_t version)
{
    static uint8_t image[PLAIN_IMAGE_BYTES];
    struct bench full, b;
    start(&full);
    feed(&full, LITERAL(LOGIN DIRECTORY(ID7, "Y") STATE(ID7, "T")));
    list_rows(&full, version == 1 ? 3 : PLAIN_ROWS_OF_VERSION_1);
    for (unsigned sides = 0; sides <= 3; sides++) {
        size_t n;
        b = full;
        if (sides & 1)
            feed(&b, LITERAL(BID_LONG(ID7)));
        if (sides & 2)
            feed(&b, LITERAL(ASK_LONG(ID7)));
        for (size_t at = BID_AT; at < PLAIN_ROW_BYTES; at++)
            for (unsigned value = 1; value < 256; value += version == 1 ? 1 : 127) {
                n = lay_image(&b, blocks_of(b.r.rows), b.r.rows, version, image);
                image[512 + 14 + at] = (uint8_t)value;
                seal(image, n);
                restore_refused(__LINE__, image, n, 24);
                EQUAL(plain_forward(image, n, image, 0, &n), 24, "forward");
            }
    }
}

/* And in version 3, beside zeros and beside an unknown time. */
static void bytes_of_version_3(void)
{
    for (unsigned sides = 0; sides <= 3; sides++)
        for (size_t at = BID_AT; at < PLAIN_ROW_BYTES; at++)
            for (unsigned value = 0; value < 256; value++) {
                struct bench b;
                begin_one(&b, sides);
                memset(b.table + BID_AT, 0, 18);
                b.table[at] = (uint8_t)value;
                judged(&b, byte_may(sides, at, value));
                if (at >= AFTER || !(sides & (at < ASK_AT ? 1 : 2)))
                    continue;
                set_times(&b, 0, unknown, unknown);
                b.table[at] = (uint8_t)value;
                judged(&b, value == 255);
            }
}

/* From an image of version 1: seen sides are unknown until a message sets them, the
 * other stays unknown, and a purge makes them unseen. */
static void unknown_until_set(void)
{
    uint8_t image[1024];
    struct bench b, old;
    size_t n;
    begin_one(&old, 3);
    lay_image(&old, 2, 1, 1, image);
    EQUAL(plain_restore(&b.r, b.table, sizeof b.table, b.index, sizeof b.index, image, sizeof image), 0, "restore");
    TIMES(&b, unknown, unknown);
    b.r.logged_in = true;
    feed(&b, LITERAL(STATE(ID7, "H") DIRECTORY(ID7, "Y") STATE(ID7, "S")));
    TIMES(&b, unknown, unknown);
    FEED_AT(&b, ASK_LONG(ID7), 100);
    TIMES(&b, unknown, 100);
    EQUAL(plain_save(&b.r, b.table, sizeof b.table, image, sizeof image, &n), 0, "save");
    EXPECT(n == 1024 && get_number(image + 512 + 14 + BID_AT, 8) == unknown, "unknown is saved");
    FEED_AT(&b, BID_SHORT(ID7), 0);
    TIMES(&b, 0, 100);
    EQUAL(plain_restore(&b.r, b.table, sizeof b.table, b.index, sizeof b.index, image, n), 0, "restore");
    TIMES(&b, unknown, 100);
    b.r.logged_in = true;
    FEED_AT(&b, DIRECTORY(ID7, "N"), 300);
    TIMES(&b, 0, 0);
    for (unsigned sides = 0; sides <= 3; sides++) {
        begin_one(&old, sides);
        lay_image(&old, 2, 1, 1, image);
        EQUAL(plain_restore(&b.r, b.table, sizeof b.table, b.index, sizeof b.index, image, sizeof image), 0, "restore");
        TIMES(&b, sides & 1 ? unknown : 0, sides & 2 ? unknown : 0);
    }
}

void test_times(void)
{
    set_by_each_form();
    ages_apart();
    purged();
    strange_bytes();
    refused_quotes();
    times_judged();
    bits_lacking();
    bytes_of_old_images(1);
    bytes_of_old_images(2);
    bytes_of_version_3();
    unknown_until_set();
}
