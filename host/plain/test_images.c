/* Tests of saving and restoring. */
#include "parts.h"
#include "plaintest.h"

/* Saves, restores into other memory and logs in again. */
static void reopen(const struct bench *from, struct bench *to)
{
    uint8_t image[PLAIN_IMAGE_BYTES];
    uint8_t login[34];
    size_t n;
    EQUAL(plain_save(&from->r, from->table, sizeof from->table, image, sizeof image, &n), 0, "save");
    EQUAL(n, 512 * (1 + (from->r.rows + 3) / 4), "image length");
    memset(to, 0xDD, sizeof *to);
    EQUAL(plain_restore(&to->r, to->table, sizeof to->table, to->index, sizeof to->index, image, n), 0, "restore");
    EXPECT(!to->r.logged_in && !to->r.ended && to->r.used == 0 && to->r.refusal == 0,
           "a restored handle waits");
    EXPECT(memcmp(from->table, to->table, sizeof to->table) == 0, "the table restored");
    EXPECT(memcmp(from->index, to->index, sizeof to->index) == 0, "the index built");
    snprintf((char *)login, sizeof login, "%c%c%c%.10s%20llu", 0, 31, 'A', SESSION,
             (unsigned long long)to->r.next);
    feed(to, login, 33);
}

/* The day with another time in each of its messages. */
static void set_clock(uint8_t *session)
{
    uint64_t time = 1;
    memcpy(session, day, DAY_BYTES);
    for (size_t at = 0; at < DAY_BYTES; at += 2u + session[at] * 256u + session[at + 1], time += 1000000007)
        if (session[at + 2] == 'S' && session[at + 3] != 'M')
            set_number(session + at + 6, 8, time);
}

/* From every place of the day: save there, resume, and end the same. */
static void resume_everywhere(void)
{
    uint8_t session[DAY_BYTES];
    struct bench whole, part, again;
    size_t login_end = 3 + 33;
    set_clock(session);
    start(&whole);
    feed(&whole, session, DAY_BYTES);
    EXPECT(memcmp(whole.table + 106, whole.table + 114, 8) != 0, "a side's own time");
    start(&part);
    for (size_t at = 0; at < DAY_BYTES;) {
        size_t n = 2u + session[at] * 256u + session[at + 1];
        feed(&part, session + at, n);
        at += n;
        reopen(&part, &again);
        if (at < login_end)
            feed(&again, session + login_end, DAY_BYTES - login_end);
        else if (at < DAY_BYTES)
            feed(&again, session + at, DAY_BYTES - at);
        else
            again.r.ended = true;
        EXPECT(same_bench(&whole, &again), "handle, table and index after resuming");
    }
}

/* Seen sides with no price are saved and restored as they are: none stays none,
 * and a quote then goes on from there. */
static void no_prices_restored(void)
{
    struct bench b, again;
    start(&b);
    feed(&b, LITERAL(LOGIN DIRECTORY(ID7, "Y") DIRECTORY(ID_MAX, "Y") STATE(ID7, "T") STATE(ID_MAX, "T")
                     "\x00\x39" "SQ" "\x00\x04" TIME ID7 " " LONG_NONE LONG_NONE
                     "\x00\x1B" "Sa" "\x00\x06" TIME ID_MAX " " SHORT_NONE));
    expect_listing(&b, "next 7\n7 T none none\n4294967295 T - none\nok\n");
    reopen(&b, &again);
    expect_row(&again, 0, LITERAL(ROW(ID7, "Y", "T", " ", 3, LONG_NONE, LONG_NONE, "\4")));
    expect_row(&again, 1, LITERAL(ROW(ID_MAX, "Y", "T", " ", 2, NO_SIDE, LONG_NONE, "\6")));
    expect_listing(&again, "next 7\n7 T none none\n4294967295 T - none\nok\n");
    feed(&again, LITERAL(BID_SHORT(ID7) ASK_LONG(ID_MAX)));
    expect_listing(&again, "next 9\n7 T 1.2500 none\n4294967295 T - 1.2501\nok\n");
}

/* Saving inside a packet and after a refusal: neither is saved. */
static void save_mid_packet(void)
{
    struct bench b, again;
    uint8_t image[2][PLAIN_BLOCK_BYTES * 2];
    size_t n;
    start(&b);
    feed(&b, LITERAL(LOGIN DIRECTORY(ID7, "Y")));
    EQUAL(plain_save(&b.r, b.table, sizeof b.table, image[0], sizeof image[0], &n), 0, "save");
    step(&b, LITERAL("\x00"));
    EQUAL(plain_save(&b.r, b.table, sizeof b.table, image[1], sizeof image[1], &n), 0, "save with held bytes");
    EXPECT(memcmp(image[0], image[1], n) == 0, "held bytes are not saved");
    step(&b, LITERAL("\x00"));
    EQUAL(b.r.refusal, 1, "refused");
    EQUAL(plain_save(&b.r, b.table, sizeof b.table, image[1], sizeof image[1], &n), 0, "save when refused");
    EXPECT(memcmp(image[0], image[1], n) == 0, "refusals are not saved");
    reopen(&b, &again);
    EQUAL(again.r.next, 2, "resumes where the refusal was");
}

/* C12 and an image of one row, byte by byte. */
static void images(void)
{
    struct bench b;
    uint8_t image[1025], wanted[1024];
    size_t n;
    start(&b);
    memset(image, 0x5A, sizeof image);
    EQUAL(plain_save(&b.r, b.table, sizeof b.table, image, 512, &n), 0, "C12 save");
    memset(wanted, 0, sizeof wanted);
    memcpy(wanted, "\0\0" "\0\1" "\0\3" "\0\0\0\0\0\0\0\1" "          ", 24);
    memcpy(wanted + 510, "\x18\x84", 2);
    EXPECT(n == 512 && memcmp(image, wanted, 512) == 0 && image[512] == 0x5A, "C12");
    feed(&b, LITERAL(LOGIN EVENT("W") DIRECTORY(ID7, "Y") STATE(ID7, "T") BID_SHORT(ID7) REPLAY_END));
    EQUAL(plain_save(&b.r, b.table, sizeof b.table, image, 1024, &n), 0, "save a row");
    memset(wanted, 0, sizeof wanted);
    memcpy(wanted, "\0\0" "\0\2" "\0\3" "\0\0\0\0\0\0\0\6" SESSION "\1" "W" "\0\1"
                   "\0\0\0\0\0\1\xE2\x40", 36);
    memcpy(wanted + 512, "\0\1" "\0\2" "\0\3" "\0\0\0\0\0\0\0\6", 14);
    memcpy(wanted + 526, ROW(ID7, "Y", "T", " ", 1, ROW_SHORT_BID, NO_SIDE, "\5"), 124);
    for (size_t k = 0; k < 2; k++) {
        unsigned long sum = 0;
        for (unsigned long i = 0; i < 510; i++)
            sum += (i + 1) * wanted[512 * k + i];
        wanted[512 * k + 510] = (uint8_t)(sum % 65521 / 256);
        wanted[512 * k + 511] = (uint8_t)(sum % 65521 % 256);
    }
    EXPECT(n == 1024 && memcmp(image, wanted, 1024) == 0 && image[1024] == 0x5A, "an image of one row");
}

static void save_refused(int line, const struct bench *b, int number)
{
    struct bench c = *b;
    uint8_t image[PLAIN_IMAGE_BYTES];
    size_t n = 9;
    memset(image, 0x5A, sizeof image);
    equal_at(line, (uint64_t)plain_save(&c.r, c.table, sizeof c.table, image, 0, &n), (uint64_t)number, "save refused");
    expect_at(line, n == 0 && memcmp(&c, b, sizeof c) == 0, "saving changes nothing");
    if (number == 25)
        return;
    equal_at(line, (uint64_t)plain_save(&c.r, c.table, sizeof c.table, image, sizeof image, &n), (uint64_t)number, "save refused");
    for (size_t i = 0; i < sizeof image; i++)
        expect_at(line, image[i] == 0x5A, "a refused save writes nothing");
}

/* Row rules, one broken at a time: place, byte. */
static const struct {
    size_t at;
    uint8_t value;
    const char *what;
} row_breaks[] = {
    {4, ' ', "symbol"}, {11, 'x', "symbol's end"}, {12, 100, "year"},
    {13, 0, "month 0"}, {13, 13, "month 13"}, {14, 0, "day 0"}, {14, 32, "day 32"},
    {15, 0x80, "strike"}, {19, 'B', "type"}, {20, 0, "underlying"},
    {32, 'z', "underlying's end"}, {33, 'Y', "closing"}, {34, 'X', "tradable"},
    {35, 'N', "variation"}, {52, 'Y', "state"}, {52, 1, "state 1"},
    {53, 0, "condition 0"}, {53, 'X', "condition, nothing seen"}, {54, 4, "sides 4"},
    {54, 255, "sides 255"}, {55, 1, "gap"}, {56, 1, "unseen bid"}, {60, 1, "unseen bid's price"},
    {75, 1, "unseen bid's end"}, {76, 1, "unseen ask"}, {95, 1, "unseen ask's end"},
    {98, 1, "time"}, {106, 1, "unseen bid's time"}, {113, 1, "unseen bid's time 1"},
    {114, 1, "unseen ask's time"}, {121, 1, "unseen ask's time 1"}, {122, 1, "tail"},
    {123, 0x80, "tail's end"},
};

static void saves_refused(void)
{
    struct bench b, c;
    start(&b);
    feed(&b, LITERAL(LOGIN EVENT("O") DIRECTORY(ID7, "Y") DIRECTORY(ID_MAX, "Y")));
    save_refused(__LINE__, &b, 25);
    for (size_t k = 0; k < sizeof row_breaks / sizeof *row_breaks; k++) {
        c = b, c.table[row_breaks[k].at] = row_breaks[k].value;
        save_refused(__LINE__, &c, 24);
        c = b, c.table[124 + row_breaks[k].at] = row_breaks[k].value;
        save_refused(__LINE__, &c, 24);
        c = b, c.table[248 + row_breaks[k].at] = row_breaks[k].value;
        save_refused(__LINE__, &c, 25); /* past the rows nothing is looked at */
    }
    c = b, memcpy(c.table + 124, ID7, 4), save_refused(__LINE__, &c, 24);
    c = b, c.table[54] = 1, c.table[60] = 0x80, save_refused(__LINE__, &c, 24);
    c = b, c.table[54] = 2, c.table[80] = 0x80, save_refused(__LINE__, &c, 24);
    c = b, c.table[54] = 2, c.table[60] = 1, save_refused(__LINE__, &c, 24);
    c = b, c.table[54] = 3, c.table[60] = c.table[80] = 0x7F, save_refused(__LINE__, &c, 25);
    c = b, c.table[54] = 1, c.table[53] = 'Y', save_refused(__LINE__, &c, 25);
    c = b, c.r.event = 'T', save_refused(__LINE__, &c, 24);
    c = b, c.r.event = 0, save_refused(__LINE__, &c, 25);
    c = b, c.r.live = PLAIN_MAX_NUMBER + 1, save_refused(__LINE__, &c, 24);
    c = b, c.r.live = PLAIN_MAX_NUMBER, save_refused(__LINE__, &c, 25);
    c = b, c.r.known = false, save_refused(__LINE__, &c, 24);
    start(&b);
    c = b, c.r.next = 2, save_refused(__LINE__, &c, 24);
    c = b, c.r.session[9] = 0, save_refused(__LINE__, &c, 24);
    c = b, c.r.event = 'O', save_refused(__LINE__, &c, 24);
    c = b, c.r.live = 1, save_refused(__LINE__, &c, 24);
    c = b, c.r.rows = 1, save_refused(__LINE__, &c, 24);
    c = b, c.r.rows = PLAIN_MAX_ROWS + 1, save_refused(__LINE__, &c, 20);
    save_refused(__LINE__, &b, 25);
}

/* Changes one byte of the image, makes its check right, and expects. */
static void changed(int line, const uint8_t *image, size_t n, size_t at,
                    uint8_t value, int number)
{
    uint8_t copy[4096];
    memcpy(copy, image, n);
    copy[at] = value;
    seal(copy, n);
    restore_refused(line, copy, n, number);
}

static size_t five_rows(uint8_t *image, size_t room)
{
    struct bench b;
    size_t n;
    start(&b);
    feed(&b, LITERAL(LOGIN EVENT("O") DIRECTORY(ID7, "Y") DIRECTORY(ID_MAX, "Y")
                     DIRECTORY("\0\0\0\x08", "Y") DIRECTORY("\0\0\0\x09", "Y")
                     DIRECTORY("\0\0\0\x0A", "N")));
    EQUAL(plain_save(&b.r, b.table, sizeof b.table, image, room, &n), 0, "save five rows");
    EQUAL(n, 3 * 512, "five rows make three blocks");
    return n;
}

/* Lengths, checks and the blocks' heads. */
static void frames_refused(void)
{
    static uint8_t long_image[PLAIN_IMAGE_BYTES + PLAIN_BLOCK_BYTES];
    uint8_t image[4096];
    size_t n = five_rows(image, sizeof image);
    restore_refused(__LINE__, image, 0, 21);
    restore_refused(__LINE__, image, n - 1, 21);
    restore_refused(__LINE__, image, n + 1, 21);
    restore_refused(__LINE__, long_image, sizeof long_image, 21);
    seal(long_image, sizeof long_image);
    restore_refused(__LINE__, long_image, PLAIN_IMAGE_BYTES, 23);
    for (size_t k = 0; k < 3; k++) {
        image[512 * k + 511] ^= 1;
        restore_refused(__LINE__, image, n, 22);
        image[512 * k + 511] ^= 1;
        changed(__LINE__, image, n, 512 * k, 1, 23);
        changed(__LINE__, image, n, 512 * k + 1, 7, 23);
        changed(__LINE__, image, n, 512 * k + 3, 7, 23);
        changed(__LINE__, image, n, 512 * k + 5, 2, 23);
        changed(__LINE__, image, n, 512 * k + 13, 1, 23);
        changed(__LINE__, image, n, 512 * k + 6, 1, 23);
    }
    restore_refused(__LINE__, image, n - 512, 23); /* the count says three */
}

/* The contents of block 0 and of the rows. */
static void contents_refused(void)
{
    uint8_t image[4096];
    size_t n = five_rows(image, sizeof image);
    changed(__LINE__, image, n, 24, 2, 24);
    changed(__LINE__, image, n, 24, 0, 24);
    changed(__LINE__, image, n, 25, 'T', 24);
    changed(__LINE__, image, n, 27, 4, 24);
    changed(__LINE__, image, n, 27, 6, 24); /* the sixth slot is all zeros */
    changed(__LINE__, image, n, 27, 9, 24);
    changed(__LINE__, image, n, 26, 1, 24);
    changed(__LINE__, image, n, 28, 1, 24);
    changed(__LINE__, image, n, 36, 1, 24);
    changed(__LINE__, image, n, 509, 1, 24);
    changed(__LINE__, image, n, 1024 + 138, 1, 24); /* unused slots */
    changed(__LINE__, image, n, 1024 + 509, 1, 24);
    for (size_t k = 0; k < sizeof row_breaks / sizeof *row_breaks; k++) {
        changed(__LINE__, image, n, 512 + 14 + row_breaks[k].at, row_breaks[k].value, 24);
        changed(__LINE__, image, n, 1024 + 14 + row_breaks[k].at, row_breaks[k].value, 24);
    }
    changed(__LINE__, image, n, 1024 + 17, 8, 24); /* id 8 twice, blocks apart */
}

/* The lowest number wins, whichever block it is in. */
static void restore_order(void)
{
    uint8_t image[4096];
    size_t n = five_rows(image, sizeof image);
    image[24] = 2;
    seal(image, n);
    restore_refused(__LINE__, image, n, 24);
    image[1024 + 5] = 2;
    seal(image, n);
    restore_refused(__LINE__, image, n, 23);
    image[1024 + 511] ^= 1;
    restore_refused(__LINE__, image, n, 22);
    restore_refused(__LINE__, image, n - 1, 21);
}

/* All blocks with the same next number: outside its range 23, else taken. */
static void restore_next(void)
{
    static const uint64_t nexts[] = {0, 1, PLAIN_MAX_NUMBER, PLAIN_MAX_NUMBER + 1, UINT64_MAX};
    uint8_t image[4096], fresh[512];
    struct bench b;
    size_t n = five_rows(image, sizeof image), m;
    for (size_t k = 0; k < sizeof nexts / sizeof *nexts; k++) {
        bool good = nexts[k] >= 1 && nexts[k] <= PLAIN_MAX_NUMBER;
        for (size_t block = 0; block < 3; block++)
            for (size_t i = 0; i < 8; i++)
                image[512 * block + 6 + i] = (uint8_t)(nexts[k] >> (56 - 8 * i));
        seal(image, n);
        EQUAL(plain_restore(&b.r, b.table, sizeof b.table, b.index, sizeof b.index, image, n), good ? 0 : 23, "next number");
        EQUAL(b.r.next, good ? nexts[k] : 1, "next number restored");
    }
    start(&b);
    EQUAL(plain_save(&b.r, b.table, sizeof b.table, fresh, sizeof fresh, &m), 0, "fresh image");
    memset(b.table, 1, sizeof b.table);
    EQUAL(plain_restore(&b.r, b.table, sizeof b.table, b.index, sizeof b.index, fresh, m), 0, "restore fresh");
    EXPECT(!b.r.known && b.r.next == 1 && b.table[0] == 0, "fresh restored");
    changed(__LINE__, fresh, m, 13, 2, 24);
    changed(__LINE__, fresh, m, 14, 'A', 24);
    changed(__LINE__, fresh, m, 24, 2, 24);
    changed(__LINE__, fresh, m, 24, 255, 24);
    changed(__LINE__, fresh, m, 25, 'O', 24);
    changed(__LINE__, fresh, m, 35, 1, 24);
    changed(__LINE__, fresh, m, 27, 1, 24);
    fresh[24] = 1; /* ten spaces are a name like any other */
    seal(fresh, m);
    EQUAL(plain_restore(&b.r, b.table, sizeof b.table, b.index, sizeof b.index, fresh, m), 0, "ten spaces known");
    EXPECT(b.r.known, "known");
    EQUAL(step(&b, LITERAL(LOGIN)).refusal, 5, "another session than the known");
}

static void full_image(void)
{
    struct bench b, again;
    static uint8_t image[PLAIN_IMAGE_BYTES + PLAIN_BLOCK_BYTES];
    size_t n;
    start(&b);
    feed(&b, LITERAL(LOGIN));
    fill_up(&b);
    memset(image, 0x5A, sizeof image);
    EQUAL(plain_save(&b.r, b.table, sizeof b.table, image, PLAIN_IMAGE_BYTES - 1, &n), 25, "one byte short");
    EQUAL(plain_save(&b.r, b.table, sizeof b.table, image, sizeof image, &n), 0, "a full table saved");
    EQUAL(n, PLAIN_IMAGE_BYTES, "the longest image");
    for (size_t i = PLAIN_IMAGE_BYTES; i < sizeof image; i++)
        EQUAL(image[i], 0x5A, "nothing past the image");
    reopen(&b, &again);
    EXPECT(plain_same_reader(&b.r, &again.r), "a full table resumed");
}

void test_images(void)
{
    resume_everywhere();
    no_prices_restored();
    save_mid_packet();
    images();
    saves_refused();
    frames_refused();
    contents_refused();
    restore_order();
    restore_next();
    full_image();
}
