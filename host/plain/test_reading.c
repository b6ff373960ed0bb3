/* Tests of reading: packets, rows, refusals, the listing, and cuts. */
#include "parts.h"
#include "plaintest.h"

/* C1 to C7. */
static void small_packets(void)
{
    struct bench b;
    struct plain_answer a;
    start(&b);
    a = step(&b, NULL, 0);
    EXPECT(a.kind == PLAIN_MORE && a.taken == 0, "C1");
    a = step(&b, LITERAL("\x00\x00"));
    EXPECT(a.kind == PLAIN_REFUSED && a.refusal == 1 && a.taken == 2, "C2");
    start(&b);
    a = step(&b, LITERAL("\x01\x01"));
    EXPECT(a.kind == PLAIN_REFUSED && a.refusal == 1 && a.taken == 2, "C3 257");
    start(&b);
    a = step(&b, LITERAL("\x01\x00"));
    EXPECT(a.kind == PLAIN_MORE && a.taken == 2 && b.r.used == 2, "C3 256");
    start(&b);
    a = step(&b, LITERAL(HEARTBEAT));
    EXPECT(a.kind == PLAIN_EVENT && a.event == PLAIN_HEARTBEAT && a.taken == 3, "C4");
    a = step(&b, LITERAL("\x00\x01"));
    EXPECT(a.kind == PLAIN_MORE && a.taken == 2, "C5 first");
    a = step(&b, LITERAL("H"));
    EXPECT(a.kind == PLAIN_EVENT && a.event == PLAIN_HEARTBEAT && a.taken == 1, "C5");
    a = step(&b, LITERAL(END));
    EXPECT(a.kind == PLAIN_REFUSED && a.refusal == 3 && a.taken == 3, "C6");
    start(&b);
    a = step(&b, LITERAL("\x00\x01" "S"));
    EXPECT(a.kind == PLAIN_REFUSED && a.refusal == 3 && a.taken == 3, "C7 before");
    start(&b);
    feed(&b, LITERAL(LOGIN));
    a = step(&b, LITERAL("\x00\x01" "S"));
    EXPECT(a.kind == PLAIN_REFUSED && a.refusal == 10 && a.taken == 3, "C7 after");
}

/* C8 to C11. */
static void small_fields(void)
{
    struct plain_message m;
    struct bench b;
    EQUAL(plain_read(LITERAL("S" "\x00\x09" TIME "O"), &m), 0, "C8 read");
    EQUAL(m.time, 34200123456789u, "C8");
    EQUAL(m.tracking, 9, "tracking");
    EQUAL(m.code, 'O', "event code");
    EQUAL(plain_read(LITERAL("S\0\0" "\x00\x00\x4E\x94\x91\x4F\x00\x00" "O"), &m), 12, "C9");
    EQUAL(plain_read(LITERAL("S\0\0" "\x00\x00\x4E\x94\x91\x4E\xFF\xFF" "O"), &m), 0, "C9 below");
    EQUAL(m.time, 86399999999999u, "C9 below");
    start(&b);
    feed(&b, LITERAL(LOGIN DIRECTORY(ID7, "Y") STATE(ID7, "T") BOTH_SHORT(ID7)));
    expect_row(&b, 0, LITERAL(ROW(ID7, "Y", "T", " ", 3, ROW_SHORT_BID,
                                  ROW_SHORT_ASK, "\3")));
    EQUAL(plain_read(LITERAL("B\0\7" TIME ID7 "X" LONG_BID), &m), 0, "C11 in range");
    EQUAL(m.one_long.side.price, 0x7FFFFFFF, "C11 price");
    EQUAL(plain_read(LITERAL("B\0\7" TIME ID7 "X" "\0\0\0\0" "\x80\0\0\0"
                             "\0\0\0\0\0\0\0\0\0\0\0\0"), &m), 12, "C11 out of range");
}

static void listings(void)
{
    struct bench b;
    start(&b);
    expect_listing(&b, "next 1\nok\n");
    feed(&b, LITERAL(LOGIN DIRECTORY(ID7, "Y") STATE(ID7, "T") BID_SHORT(ID7)));
    expect_listing(&b, "next 4\n7 T 1.2500 -\nok\n");
    feed(&b, LITERAL(ASK_SHORT(ID7) DIRECTORY(ID_MAX, "N")));
    expect_listing(&b, "next 6\n7 T 1.2500 655.3500\n4294967295 - - -\nok\n");
    feed(&b, LITERAL(BOTH_LONG(ID7)));
    step(&b, LITERAL("\x00\x01"));
    expect_listing(&b, "next 7\n7 T 214748.3647 1.2501\n4294967295 - - -\nok\n");
    step(&b, LITERAL("?"));
    expect_listing(&b, "next 7\n7 T 214748.3647 1.2501\n4294967295 - - -\nrefused 2\n");
    start(&b);
    feed(&b, LITERAL(LOGIN END));
    expect_listing(&b, "next 1\nend\n");
    start(&b);
    feed(&b, LITERAL("\x00\x02" "JA"));
    expect_listing(&b, "next 1\nend\n");
}

/* Prices at which a decimal is easily lost: a long bid, a short ask. */
static void listed_prices(void)
{
    static const struct {
        const char *bid, *ask, *wanted;
    } cases[] = {
        {"\0\0\0\0", "\0\0", "next 5\n7 T none none\nok\n"},
        {"\0\0\0\1", "\0\1", "next 5\n7 T 0.0001 0.0100\nok\n"},
        {"\0\0\0\0", "\0\1", "next 5\n7 T none 0.0100\nok\n"},
        {"\0\0\0\1", "\0\0", "next 5\n7 T 0.0001 none\nok\n"},
        {"\0\0\1\0", "\1\0", "next 5\n7 T 0.0256 2.5600\nok\n"},
        {"\0\1\0\0", "\xFF\xFF", "next 5\n7 T 6.5536 655.3500\nok\n"},
        {"\1\0\0\0", "\x80\0", "next 5\n7 T 1677.7216 327.6800\nok\n"},
        {"\0\0\x03\xE8", "\0\x0A", "next 5\n7 T 0.1000 0.1000\nok\n"},
        {"\0\0\x27\x0F", "\0\x63", "next 5\n7 T 0.9999 0.9900\nok\n"},
        {"\0\0\x27\x10", "\0\x64", "next 5\n7 T 1.0000 1.0000\nok\n"},
        {"\0\x98\x96\x80", "\x27\x10", "next 5\n7 T 1000.0000 100.0000\nok\n"},
    };
    for (size_t k = 0; k < sizeof cases / sizeof *cases; k++) {
        uint8_t bid[] = BID_LONG(ID7), ask[] = ASK_SHORT(ID7);
        struct bench b;
        memcpy(bid + 3 + 20, cases[k].bid, 4);
        memcpy(ask + 3 + 18, cases[k].ask, 2);
        start(&b);
        feed(&b, LITERAL(LOGIN DIRECTORY(ID7, "Y") STATE(ID7, "T")));
        feed(&b, bid, sizeof bid - 1);
        feed(&b, ask, sizeof ask - 1);
        expect_listing(&b, cases[k].wanted);
    }
}

/* A form of a quote: how wide its numbers are, and where its packet has the
 * prices of bid and ask, 0 for a side that it lacks. */
struct form {
    const char *packet;
    size_t n, width, bid, ask;
};

/* Prices none, 1 and the highest of the form, on the sides that it has. */
static void listed_form(const struct form *f, size_t bid, size_t ask)
{
    static const char *const short_words[] = {"none", "0.0100", "655.3500"};
    static const char *const long_words[] = {"none", "0.0001", "214748.3647"};
    const char *const *words = f->width == 2 ? short_words : long_words;
    const uint64_t prices[] = {0, 1, f->width == 2 ? 0xFFFF : 0x7FFFFFFF};
    uint8_t packet[59];
    char wanted[64];
    struct bench b;
    memcpy(packet, f->packet, f->n);
    if (f->bid != 0)
        set_number(packet + f->bid, f->width, prices[bid]);
    if (f->ask != 0)
        set_number(packet + f->ask, f->width, prices[ask]);
    start(&b);
    feed(&b, LITERAL(LOGIN DIRECTORY(ID7, "Y") STATE(ID7, "T")));
    feed(&b, packet, f->n);
    snprintf(wanted, sizeof wanted, "next 4\n7 T %s %s\nok\n",
             f->bid != 0 ? words[bid] : "-", f->ask != 0 ? words[ask] : "-");
    expect_listing(&b, wanted);
}

static void listed_forms(void)
{
    static const struct form forms[] = {
        {BOTH_SHORT(ID7), 39, 2, 21, 31}, {BOTH_LONG(ID7), 59, 4, 23, 43},
        {BID_SHORT(ID7), 29, 2, 21, 0},   {ASK_SHORT(ID7), 29, 2, 0, 21},
        {BID_LONG(ID7), 39, 4, 23, 0},    {ASK_LONG(ID7), 39, 4, 0, 23},
    };
    for (size_t k = 0; k < sizeof forms / sizeof *forms; k++)
        for (size_t prices = 0; prices < 9; prices++)
            listed_form(&forms[k], prices / 3, prices % 3);
}

/* A side goes from a price to none and back, and the other keeps every byte; a
 * purge makes both unseen. */
static void prices_come_and_go(void)
{
    struct bench b;
    start(&b);
    feed(&b, LITERAL(LOGIN DIRECTORY(ID7, "Y") STATE(ID7, "T") BOTH_SHORT(ID7)));
    expect_listing(&b, "next 4\n7 T 1.2500 655.3500\nok\n");
    feed(&b, LITERAL("\x00\x1B" "Sb" "\x00\x05" TIME ID7 " " SHORT_NONE));
    expect_row(&b, 0, LITERAL(ROW(ID7, "Y", "T", " ", 3, LONG_NONE, ROW_SHORT_ASK, "\5")));
    expect_listing(&b, "next 5\n7 T none 655.3500\nok\n");
    feed(&b, LITERAL("\x00\x25" "SA" "\x00\x08" TIME ID7 "X" LONG_NONE));
    expect_row(&b, 0, LITERAL(ROW(ID7, "Y", "T", "X", 3, LONG_NONE, LONG_NONE, "\x08")));
    expect_listing(&b, "next 6\n7 T none none\nok\n");
    feed(&b, LITERAL(BID_LONG(ID7)));
    expect_listing(&b, "next 7\n7 T 214748.3647 none\nok\n");
    feed(&b, LITERAL(ASK_SHORT(ID7) STATE(ID7, "H")));
    expect_listing(&b, "next 9\n7 H 214748.3647 655.3500\nok\n");
    feed(&b, LITERAL(STATE(ID7, "T") "\x00\x25" "Sq" "\x00\x03" TIME ID7 " " SHORT_NONE SHORT_NONE));
    expect_row(&b, 0, LITERAL(ROW(ID7, "Y", "T", " ", 3, LONG_NONE, LONG_NONE, "\3")));
    expect_listing(&b, "next 11\n7 T none none\nok\n");
    feed(&b, LITERAL(DIRECTORY(ID7, "N")));
    expect_listing(&b, "next 12\n7 T - -\nok\n");
}

/* Whether a side was seen is asked first, whatever its bytes are; a strike of 0
 * is no price, and its row is listed as any other. */
static void sides_unseen(void)
{
    uint8_t directory[] = DIRECTORY(ID7, "Y");
    struct bench b;
    memset(directory + 3 + 26, 0, 4);
    start(&b);
    feed(&b, LITERAL(LOGIN));
    feed(&b, directory, sizeof directory - 1);
    expect_listing(&b, "next 2\n7 - - -\nok\n");
    b.table[54] = 1;
    expect_listing(&b, "next 2\n7 - none -\nok\n");
    b.table[54] = 2;
    expect_listing(&b, "next 2\n7 - - none\nok\n");
    b.table[63] = 1;
    expect_listing(&b, "next 2\n7 - - none\nok\n");
    b.table[54] = 0xFC;
    b.table[83] = 1;
    expect_listing(&b, "next 2\n7 - - -\nok\n");
}

static void longest_listing(void)
{
    static const uint8_t largest[] = ROW(ID_MAX, "Y", "T", "X", 3,
                                         LONG_BID, LONG_BID, "\4");
    struct bench b;
    char text[PLAIN_LISTING_BYTES];
    size_t n;
    start(&b);
    for (size_t k = 0; k < PLAIN_MAX_ROWS; k++) {
        memcpy(b.table + k * PLAIN_ROW_BYTES, largest, PLAIN_ROW_BYTES);
        set_number(b.table + k * PLAIN_ROW_BYTES, 4, UINT32_MAX - k);
    }
    b.r.rows = PLAIN_MAX_ROWS;
    b.r.next = PLAIN_MAX_NUMBER;
    b.r.refusal = 16;
    EQUAL(plain_listing(&b.r, b.table, sizeof b.table, text, sizeof text, &n), 0, "longest listing");
    EQUAL(n, sizeof text, "longest listing's length");
}

/* The events of packets that carry no message. */
static void plain_events(void)
{
    struct bench b;
    struct plain_answer a;
    start(&b);
    a = step(&b, LITERAL("\x00\x04" "+abc"));
    EXPECT(a.kind == PLAIN_EVENT && a.event == PLAIN_SKIPPED && a.taken == 6, "+");
    a = step(&b, LITERAL("\x00\x01" "U" "rest"));
    EXPECT(a.kind == PLAIN_EVENT && a.event == PLAIN_SKIPPED && a.taken == 3, "U");
    a = step(&b, LITERAL(LOGIN));
    EXPECT(a.kind == PLAIN_EVENT && a.event == PLAIN_ACCEPTED && a.taken == 33, "login");
    EXPECT(memcmp(a.session, SESSION, 10) == 0, "login's session");
    EXPECT(b.r.known && b.r.logged_in && b.r.next == 1 &&
               memcmp(b.r.session, SESSION, 10) == 0, "handle after login");
    a = step(&b, LITERAL(END "more"));
    EXPECT(a.kind == PLAIN_EVENT && a.event == PLAIN_SESSION_END && a.taken == 3, "Z");
    a = step(&b, LITERAL(HEARTBEAT));
    EXPECT(a.kind == PLAIN_ENDED && a.taken == 0, "ended");
    a = step(&b, NULL, 0);
    EXPECT(a.kind == PLAIN_ENDED && a.taken == 0, "ended, no bytes");
    start(&b);
    a = step(&b, LITERAL("\x00\x02" "J\xFE"));
    EXPECT(a.kind == PLAIN_EVENT && a.event == PLAIN_REJECTED && a.reason == 0xFE, "J");
    EXPECT(b.r.ended && !b.r.logged_in && !b.r.known, "handle after J");
    a = step(&b, LITERAL(HEARTBEAT));
    EXPECT(a.kind == PLAIN_ENDED && a.taken == 0, "ended after J");
}

/* What each message does to its row, byte by byte. */
static void rows_change(void)
{
    struct bench b;
    start(&b);
    feed(&b, LITERAL(LOGIN));
    memset(b.table, 0xEE, sizeof b.table); /* an appended row is written whole */
    feed(&b, LITERAL(DIRECTORY(ID7, "Y") DIRECTORY(ID_MAX, "Y")));
    expect_row(&b, 0, LITERAL(ROW(ID7, "Y", "\0", " ", 0, NO_SIDE, NO_SIDE, "\1")));
    expect_row(&b, 1, LITERAL(ROW(ID_MAX, "Y", "\0", " ", 0, NO_SIDE, NO_SIDE, "\1")));
    EQUAL(b.table[2 * PLAIN_ROW_BYTES], 0xEE, "no byte past the rows");
    feed(&b, LITERAL(STATE(ID_MAX, "T")));
    expect_row(&b, 1, LITERAL(ROW(ID_MAX, "Y", "T", " ", 0, NO_SIDE, NO_SIDE, "\2")));
    feed(&b, LITERAL(ASK_SHORT(ID_MAX)));
    expect_row(&b, 1, LITERAL(ROW(ID_MAX, "Y", "T", "Y", 2, NO_SIDE, ROW_SHORT_ASK, "\6")));
    feed(&b, LITERAL(BID_LONG(ID_MAX)));
    expect_row(&b, 1, LITERAL(ROW(ID_MAX, "Y", "T", "X", 3, LONG_BID, ROW_SHORT_ASK, "\7")));
    feed(&b, LITERAL(ASK_LONG(ID_MAX)));
    expect_row(&b, 1, LITERAL(ROW(ID_MAX, "Y", "T", " ", 3, LONG_BID, LONG_ASK, "\x8")));
    feed(&b, LITERAL(BID_SHORT(ID_MAX)));
    expect_row(&b, 1, LITERAL(ROW(ID_MAX, "Y", "T", " ", 3, ROW_SHORT_BID, LONG_ASK, "\5")));
    feed(&b, LITERAL(BOTH_LONG(ID_MAX)));
    expect_row(&b, 1, LITERAL(ROW(ID_MAX, "Y", "T", "X", 3, LONG_BID, LONG_ASK, "\4")));
    feed(&b, LITERAL(DIRECTORY(ID_MAX, "Y")));
    expect_row(&b, 1, LITERAL(ROW(ID_MAX, "Y", "T", "X", 3, LONG_BID, LONG_ASK, "\1")));
    feed(&b, LITERAL(STATE(ID_MAX, "H")));
    expect_row(&b, 1, LITERAL(ROW(ID_MAX, "Y", "H", "X", 3, LONG_BID, LONG_ASK, "\2")));
    feed(&b, LITERAL(DIRECTORY(ID_MAX, "N")));
    expect_row(&b, 1, LITERAL(ROW(ID_MAX, "N", "H", " ", 0, NO_SIDE, NO_SIDE, "\1")));
    expect_row(&b, 0, LITERAL(ROW(ID7, "Y", "\0", " ", 0, NO_SIDE, NO_SIDE, "\1")));
    feed(&b, LITERAL(EVENT("Q") REPLAY_END));
    EXPECT(b.r.event == 'Q' && b.r.live == 123456 && b.r.next == 14 &&
               b.r.rows == 2, "event and live number");
}

/* A known id's directory replaces underlying, closing, variation, reserved. */
static void directory_replaces(void)
{
    static const uint8_t other[] = "\x00\x40" "Sm" "\x00\x63" TIME ID7 FIXED
        "AAPL1        " "W" "Y" "E" "\x00\xFF" "23456789abcdef";
    struct bench b;
    uint8_t row[PLAIN_ROW_BYTES];
    start(&b);
    feed(&b, LITERAL(LOGIN DIRECTORY(ID7, "Y") STATE(ID7, "T") BOTH_SHORT(ID7)));
    memcpy(row, b.table, sizeof row);
    memcpy(row, other + 14, 52);
    row[97] = 0x63;
    feed(&b, other, sizeof other - 1);
    expect_row(&b, 0, row, sizeof row);
    EQUAL(b.r.rows, 1, "no row is added");
}

/* Rows in memory that no session leaves behind. */
static void strange_memory(void)
{
    struct bench b;
    uint8_t row[PLAIN_ROW_BYTES];
    start(&b);
    feed(&b, LITERAL(LOGIN DIRECTORY(ID7, "Y") DIRECTORY(ID_MAX, "Y")));
    memcpy(b.table + PLAIN_ROW_BYTES, ID7, 4); /* the id twice: the later place counts */
    memcpy(b.index, "\0\1\0\0", 4);
    b.table[52] = 'T';
    b.table[54] = 0xF0;
    b.table[55] = 9;
    memset(b.table + 106, 0x11, 18);
    memcpy(row, b.table, sizeof row);
    feed(&b, LITERAL(ASK_LONG(ID7)));
    row[54] = 0xF2;
    memcpy(row + 76, LONG_ASK, 20);
    memcpy(row + 114, TIME, 8);
    row[97] = 8;
    expect_row(&b, 0, row, sizeof row);
    feed(&b, LITERAL(DIRECTORY(ID7, "N")));
    memset(row + 54, 0, 42); /* purging clears the gap too, not the tail */
    memset(row + 106, 0, 16);
    row[34] = 'N';
    row[97] = 1;
    expect_row(&b, 0, row, sizeof row);
    EQUAL(b.r.rows, 2, "no row is added");
}

/* The row for an id, which is at place k; PLAIN_MAX_ROWS for none. */
static void expect_found(int line, const struct bench *b, uint32_t id, size_t k)
{
    const uint8_t *row = b->table;
    equal_at(line, (uint64_t)plain_find(&b->r, b->table, sizeof b->table, b->index, sizeof b->index, id, &row), 0, "find");
    expect_at(line, row == (k < PLAIN_MAX_ROWS ? b->table + k * PLAIN_ROW_BYTES : NULL), "the row found");
}

static void rows_found(void)
{
    struct bench b;
    const uint8_t *row;
    start(&b);
    expect_found(__LINE__, &b, 7, PLAIN_MAX_ROWS);
    expect_found(__LINE__, &b, 0, PLAIN_MAX_ROWS); /* rows out of use are zeros */
    feed(&b, LITERAL(LOGIN DIRECTORY(ID7, "Y") DIRECTORY(ID_MAX, "Y")));
    expect_found(__LINE__, &b, 7, 0);
    expect_found(__LINE__, &b, UINT32_MAX, 1);
    expect_found(__LINE__, &b, 8, PLAIN_MAX_ROWS);
    memcpy(b.table + PLAIN_ROW_BYTES, ID7, 4); /* the id twice: the later place counts */
    expect_found(__LINE__, &b, 7, 1);
    b.table[3] = 8; /* out of order: 8 is sought above the place that has it */
    expect_found(__LINE__, &b, 7, 1);
    expect_found(__LINE__, &b, 8, PLAIN_MAX_ROWS);
    sort_index(&b);
    expect_found(__LINE__, &b, 7, 1);
    expect_found(__LINE__, &b, 8, 0);
    b.r.rows = 1;
    EQUAL(plain_find(&b.r, b.table, sizeof b.table, b.index, sizeof b.index, 7, &row), 20, "a row out of use");
    EXPECT(row == NULL, "no row of a false index");
    sort_index(&b);
    expect_found(__LINE__, &b, 7, PLAIN_MAX_ROWS);
    EQUAL(plain_find(&b.r, b.table, sizeof b.table - 1, b.index, sizeof b.index, 8, &row), 20, "a table too short");
    EXPECT(row == NULL, "no row of a table too short");
    b.r.refusal = 13; /* one that stands changes nothing */
    expect_found(__LINE__, &b, 8, 0);
    b.r.refusal = 17;
    EQUAL(plain_find(&b.r, b.table, sizeof b.table, b.index, sizeof b.index, 8, &row), 20, "a limit broken");
    start(&b);
    feed(&b, LITERAL(LOGIN));
    fill_up(&b);
    for (uint32_t k = 0; k < PLAIN_MAX_ROWS; k++)
        expect_found(__LINE__, &b, FIRST_ID + k, k);
    expect_found(__LINE__, &b, FIRST_ID - 1, PLAIN_MAX_ROWS);
    expect_found(__LINE__, &b, FIRST_ID + PLAIN_MAX_ROWS, PLAIN_MAX_ROWS);
}

/* Only rows in use are looked at: what lies past them is no row. */
static void rows_out_of_use(void)
{
    for (uint32_t rows = 0; rows < PLAIN_MAX_ROWS; rows++) {
        struct bench b;
        uint8_t *past;
        start(&b);
        feed(&b, LITERAL(LOGIN));
        b.r.rows = rows;
        sort_index(&b);
        past = b.table + rows * PLAIN_ROW_BYTES;
        memcpy(past, ROW(ID7, "Y", "T", "X", 3, LONG_BID, LONG_ASK, "\4"), PLAIN_ROW_BYTES);
        EQUAL(step(&b, LITERAL(BID_LONG(ID7))).refusal, 13, "a row out of use");
        b.r.refusal = 0;
        feed(&b, LITERAL(DIRECTORY(ID7, "Y")));
        EQUAL(b.r.rows, rows + 1, "a row added");
        expect_row(&b, rows, LITERAL(ROW(ID7, "Y", "\0", " ", 0, NO_SIDE, NO_SIDE, "\1")));
    }
}

/* A quote adds its sides' bits to whatever byte is there. */
static void sides_in_strange_memory(void)
{
    static const struct {
        const char *packet;
        size_t n;
        uint8_t bits;
    } quotes[] = {
        {BOTH_SHORT(ID7), 39, 3}, {BOTH_LONG(ID7), 59, 3}, {BID_SHORT(ID7), 29, 1},
        {ASK_SHORT(ID7), 29, 2},  {BID_LONG(ID7), 39, 1},  {ASK_LONG(ID7), 39, 2},
    };
    for (size_t k = 0; k < sizeof quotes / sizeof *quotes; k++) {
        for (unsigned sides = 0; sides < 256; sides++) {
            struct bench b;
            start(&b);
            feed(&b, LITERAL(LOGIN DIRECTORY(ID7, "Y") STATE(ID7, "T")));
            b.table[54] = (uint8_t)sides;
            feed(&b, (const uint8_t *)quotes[k].packet, quotes[k].n);
            EQUAL(b.table[54], sides | quotes[k].bits, "sides seen");
        }
    }
}

/* A refused packet, handed over whole and cut at each byte: number, bytes
 * taken, handle, table, and the answer repeated. */
static void refused_packet(int line, const struct bench *before,
                           const uint8_t *packet, size_t n, uint32_t number)
{
    size_t taken = number == 1 ? 2 : n;
    for (size_t cut = 0; cut < taken; cut++) {
        struct bench b = *before;
        struct plain_reader wanted = before->r;
        struct plain_answer a = step(&b, packet, cut);
        expect_at(line, a.kind == PLAIN_MORE && a.taken == cut && b.r.used == cut,
                  "more wanted before the refusal");
        expect_at(line, cut == 0 || memcmp(b.r.held, packet, cut) == 0, "held bytes");
        a = step(&b, packet + cut, n - cut);
        expect_at(line, a.kind == PLAIN_REFUSED, "refused");
        equal_at(line, a.refusal, number, "refusal");
        equal_at(line, a.taken, taken - cut, "bytes taken at the refusal");
        wanted.refusal = number;
        expect_at(line, plain_same_reader(&b.r, &wanted), "handle after a refusal");
        expect_at(line, memcmp(b.table, before->table, sizeof b.table) == 0,
                  "table after a refusal");
        expect_at(line, memcmp(b.index, before->index, sizeof b.index) == 0,
                  "index after a refusal");
        a = step(&b, packet, n);
        expect_at(line, a.kind == PLAIN_REFUSED && a.taken == 0 && a.refusal == number,
                  "the refusal repeated");
        expect_at(line, plain_same_reader(&b.r, &wanted), "handle after repeating");
    }
}

#define REFUSED(bench, text, number) \
    refused_packet(__LINE__, (bench), LITERAL(text), (number))

static void packet_refusals(void)
{
    struct bench fresh, in;
    start(&fresh);
    start(&in);
    feed(&in, LITERAL(LOGIN DIRECTORY(ID7, "Y") STATE(ID7, "T") BOTH_SHORT(ID7)));
    REFUSED(&fresh, "\x00\x00" "H", 1);
    REFUSED(&in, "\x01\x01" "H", 1);
    REFUSED(&in, "\xFF\xFF" "H", 1);
    REFUSED(&fresh, "\x00\x01" "\0", 2);
    REFUSED(&in, "\x00\x02" "hh", 2);
    REFUSED(&in, "\x00\x01" "R", 2);
    REFUSED(&fresh, STATE(ID7, "T"), 3);
    REFUSED(&fresh, END, 3);
    REFUSED(&fresh, "\x00\x02" "Z?", 3);
    REFUSED(&in, LOGIN, 3);
    REFUSED(&in, "\x00\x01" "A", 3);
    REFUSED(&in, "\x00\x02" "JA", 3);
    REFUSED(&in, "\x00\x01" "J", 3);
    REFUSED(&fresh, "\x00\x01" "A", 4);
    REFUSED(&fresh, "\x00\x20" "A" SESSION NINETEEN_SPACES " 1", 4);
    REFUSED(&fresh, "\x00\x01" "J", 4);
    REFUSED(&fresh, "\x00\x03" "JAA", 4);
    REFUSED(&fresh, "\x00\x02" "HH", 4);
    REFUSED(&in, "\x00\x02" "ZZ", 4);
    REFUSED(&fresh, "\x00\x1F" "A" SESSION NINETEEN_SPACES "0", 4);
    REFUSED(&fresh, "\x00\x1F" "A" SESSION NINETEEN_SPACES "2", 5);
    in.r.logged_in = false;
    REFUSED(&in, "\x00\x1F" "A" "ISE0000002" NINETEEN_SPACES "4", 5);
    REFUSED(&in, LOGIN, 5);
    in.r.logged_in = true;
    in.r.next = PLAIN_MAX_NUMBER;
    REFUSED(&in, STATE(ID7, "T"), 6);
    REFUSED(&in, "\x00\x01" "S", 6);
    in.r.next--;
    feed(&in, LITERAL(STATE(ID7, "T")));
    EQUAL(in.r.next, PLAIN_MAX_NUMBER, "the last number");
    feed(&in, LITERAL(HEARTBEAT END));
}

static void message_refusals(void)
{
    struct bench b;
    start(&b);
    feed(&b, LITERAL(LOGIN DIRECTORY(ID7, "Y") STATE(ID7, "T") BOTH_SHORT(ID7)
                     DIRECTORY(ID_MAX, "Y")));
    REFUSED(&b, "\x00\x01" "S", 10);
    REFUSED(&b, "\x00\x02" "S\0", 10);
    REFUSED(&b, "\x00\x02" "Sz", 10);
    REFUSED(&b, "\x00\x02" "SS", 11);
    REFUSED(&b, "\x00\x0E" "SS" "\x00\x09" TIME "O" "O", 11);
    REFUSED(&b, EVENT("T"), 12);
    REFUSED(&b, STATE("\0\0\0\x08", "?"), 12);
    REFUSED(&b, STATE("\0\0\0\x08", "T"), 13);
    REFUSED(&b, BID_SHORT("\0\0\0\x08"), 13);
    REFUSED(&b, BOTH_LONG("\x07\0\0\0"), 13);
    REFUSED(&b, BOTH_SHORT(ID_MAX), 14);
    feed(&b, LITERAL(STATE(ID_MAX, "O")));
    REFUSED(&b, ASK_LONG(ID_MAX), 14);
    feed(&b, LITERAL(STATE(ID_MAX, "T") DIRECTORY(ID_MAX, "N")));
    REFUSED(&b, BID_LONG(ID_MAX), 14);
    feed(&b, LITERAL(STATE(ID_MAX, "T")));
    REFUSED(&b, BID_LONG(ID_MAX), 14);
    feed(&b, LITERAL(DIRECTORY(ID_MAX, "Y") BID_LONG(ID_MAX)));
}

/* The first and the last row of a full table are spoken to as any other, and no
 * other row is added. */
static void full_table(void)
{
    enum { LAST = PLAIN_MAX_ROWS - 1 };
    uint8_t packets[] = STATE("\0\0\0\0", "T") BOTH_LONG("\0\0\0\0");
    uint8_t row[] = ROW("\0\0\0\0", "Y", "T", "X", 3, LONG_BID, LONG_ASK, "\4");
    struct bench b;
    start(&b);
    feed(&b, LITERAL(LOGIN));
    fill_up(&b);
    REFUSED(&b, DIRECTORY(ID7, "Y"), 16);
    REFUSED(&b, DIRECTORY(ID_MAX, "N"), 16);
    REFUSED(&b, STATE(ID7, "T"), 13);
    feed(&b, LITERAL(DIRECTORY("\0\0\x03\xE8", "N")));
    set_number(packets + 14, 4, FIRST_ID + LAST);
    set_number(packets + 19 + 14, 4, FIRST_ID + LAST);
    set_number(row, 4, FIRST_ID + LAST);
    feed(&b, packets, sizeof packets - 1);
    expect_row(&b, LAST, row, sizeof row - 1);
    EQUAL(b.r.rows, PLAIN_MAX_ROWS, "no row is added");
}

/* A reader with one instrument, in a state unless that is 0. */
static void start_in(struct bench *b, char state, char tradable)
{
    uint8_t directory[] = DIRECTORY(ID7, "Y"), action[] = STATE(ID7, "T");
    directory[48] = (uint8_t)tradable;
    action[18] = (uint8_t)state;
    start(b);
    feed(b, LITERAL(LOGIN));
    feed(b, directory, sizeof directory - 1);
    if (state != 0)
        feed(b, action, sizeof action - 1);
}

/* A quote, and the row that it makes where it is the first and the state is T. */
struct quote {
    const char *packet;
    size_t n;
    const char *row;
};

/* By document 02, taken in B, S and T with tradable Y, and refused otherwise. */
static void quote_in(char state, const struct quote *q)
{
    const uint8_t *packet = (const uint8_t *)q->packet;
    uint8_t row[PLAIN_ROW_BYTES];
    struct bench b;
    start_in(&b, state, 'N');
    refused_packet(__LINE__, &b, packet, q->n, 14);
    start_in(&b, state, 'Y');
    if (state != 'B' && state != 'S' && state != 'T') {
        refused_packet(__LINE__, &b, packet, q->n, 14);
        return;
    }
    feed(&b, packet, q->n);
    memcpy(row, q->row, sizeof row);
    row[52] = (uint8_t)state;
    expect_row(&b, 0, row, sizeof row);
}

/* Every form of a quote, before any state and in each of the eight. */
static void quotes_by_state(void)
{
    static const struct quote quotes[] = {
        {BOTH_SHORT(ID7), 39, ROW(ID7, "Y", "T", " ", 3, ROW_SHORT_BID, ROW_SHORT_ASK, "\3")},
        {BOTH_LONG(ID7), 59, ROW(ID7, "Y", "T", "X", 3, LONG_BID, LONG_ASK, "\4")},
        {BID_SHORT(ID7), 29, ROW(ID7, "Y", "T", " ", 1, ROW_SHORT_BID, NO_SIDE, "\5")},
        {ASK_SHORT(ID7), 29, ROW(ID7, "Y", "T", "Y", 2, NO_SIDE, ROW_SHORT_ASK, "\6")},
        {BID_LONG(ID7), 39, ROW(ID7, "Y", "T", "X", 1, LONG_BID, NO_SIDE, "\7")},
        {ASK_LONG(ID7), 39, ROW(ID7, "Y", "T", " ", 2, NO_SIDE, LONG_ASK, "\x08")},
    };
    static const char none_and_all[] = {0, 'B', 'S', 'H', 'T', 'I', 'O', 'R', 'X'};
    for (size_t k = 0; k < sizeof quotes / sizeof *quotes; k++)
        for (size_t i = 0; i < sizeof none_and_all; i++)
            quote_in(none_and_all[i], &quotes[k]);
}

/* States that follow each other: quotes stay through those that take none, and
 * a side that a quote lacks keeps every byte in B and S too. */
static void states_in_turn(void)
{
    struct bench b;
    start_in(&b, 'T', 'Y');
    feed(&b, LITERAL(BOTH_SHORT(ID7) STATE(ID7, "B") BID_LONG(ID7)));
    expect_row(&b, 0, LITERAL(ROW(ID7, "Y", "B", "X", 3, LONG_BID, ROW_SHORT_ASK, "\7")));
    feed(&b, LITERAL(STATE(ID7, "S") BID_SHORT(ID7)));
    expect_row(&b, 0, LITERAL(ROW(ID7, "Y", "S", " ", 3, ROW_SHORT_BID, ROW_SHORT_ASK, "\5")));
    feed(&b, LITERAL(ASK_LONG(ID7)));
    expect_row(&b, 0, LITERAL(ROW(ID7, "Y", "S", " ", 3, ROW_SHORT_BID, LONG_ASK, "\x08")));
    feed(&b, LITERAL(STATE(ID7, "T") STATE(ID7, "H")));
    REFUSED(&b, ASK_SHORT(ID7), 14);
    expect_row(&b, 0, LITERAL(ROW(ID7, "Y", "H", " ", 3, ROW_SHORT_BID, LONG_ASK, "\2")));
    feed(&b, LITERAL(STATE(ID7, "T") ASK_SHORT(ID7)));
    expect_row(&b, 0, LITERAL(ROW(ID7, "Y", "T", "Y", 3, ROW_SHORT_BID, ROW_SHORT_ASK, "\6")));
    feed(&b, LITERAL(STATE(ID7, "B") DIRECTORY(ID7, "N")));
    REFUSED(&b, BOTH_LONG(ID7), 14);
    feed(&b, LITERAL(DIRECTORY(ID7, "Y") BOTH_LONG(ID7)));
    expect_row(&b, 0, LITERAL(ROW(ID7, "Y", "B", "X", 3, LONG_BID, LONG_ASK, "\4")));
    expect_listing(&b, "next 17\n7 B 214748.3647 1.2501\nok\n");
}

/* Whatever bytes a row holds: a quote needs B, S or T, and Y. */
static void states_in_strange_memory(void)
{
    struct bench b, before;
    start_in(&before, 'T', 'Y');
    b = before;
    for (unsigned state = 0; state < 256; state++) {
        for (unsigned tradable = 0; tradable < 256; tradable++) {
            bool taken = (state == 'B' || state == 'S' || state == 'T') && tradable == 'Y';
            b.r = before.r;
            b.table[34] = (uint8_t)tradable;
            b.table[52] = (uint8_t)state;
            EQUAL(step(&b, LITERAL(BID_SHORT(ID7))).refusal, taken ? 0 : 14, "a quote's refusal");
        }
    }
}

/* Each of the sixteen fixed bytes of a directory, changed within its rules. */
static void fixed_fields(void)
{
    static const uint8_t packet[] = DIRECTORY(ID7, "Y");
    struct bench b, full;
    start(&b);
    feed(&b, LITERAL(LOGIN DIRECTORY(ID7, "Y")));
    start(&full);
    feed(&full, LITERAL(LOGIN));
    fill_up(&full);
    for (size_t i = 18; i <= 33; i++) {
        uint8_t other[sizeof packet];
        memcpy(other, packet, sizeof packet);
        if (i >= 22 && i < 26) /* the symbol's spaces: make them letters */
            memset(other + 22, 'X', i - 21);
        else
            other[i] = (uint8_t)(i == 33 ? 'P' : i == 18 ? 'B' : other[i] + 1);
        refused_packet(__LINE__, &b, other, sizeof packet - 1, 15);
        set_number(other + 14, 4, FIRST_ID); /* with another symbol even when full: 15 */
        refused_packet(__LINE__, &full, other, sizeof packet - 1, 15);
    }
}

/* Refusal 20 at stepping: nothing taken, nothing changed, and before all. */
static void handle_refused(int line, const struct bench *before, size_t table_len)
{
    struct bench b = *before;
    struct plain_answer a;
    uint8_t image[PLAIN_BLOCK_BYTES * 2];
    size_t written = 1;
    plain_step(&b.r, b.table, table_len, b.index, sizeof b.index, LITERAL(HEARTBEAT), &a);
    expect_at(line, a.kind == PLAIN_REFUSED && a.refusal == 20 && a.taken == 0, "20");
    expect_at(line, memcmp(&b, before, sizeof b) == 0, "20 changes nothing");
    memset(image, 0x77, sizeof image);
    equal_at(line, (uint64_t)plain_save(&b.r, b.table, table_len, image, 0, &written), 20, "20 on saving");
    expect_at(line, image[0] == 0x77 && written == 0, "20 on saving writes nothing");
}

static void handle_accepted(int line, const struct bench *before)
{
    struct bench b = *before;
    struct plain_answer a = step(&b, NULL, 0);
    expect_at(line, a.refusal != 20, "a handle within its limits");
}

static void broken_handles(void)
{
    struct bench b, c;
    start(&b);
    feed(&b, LITERAL(LOGIN));
    handle_refused(__LINE__, &b, 0);
    handle_refused(__LINE__, &b, PLAIN_TABLE_BYTES - 1);
    handle_refused(__LINE__, &b, PLAIN_TABLE_BYTES + 1);
    c = b, c.r.rows = PLAIN_MAX_ROWS, handle_accepted(__LINE__, &c);
    c = b, c.r.rows = PLAIN_MAX_ROWS + 1, handle_refused(__LINE__, &c, PLAIN_TABLE_BYTES);
    c = b, c.r.next = 0, handle_refused(__LINE__, &c, PLAIN_TABLE_BYTES);
    c = b, c.r.next = PLAIN_MAX_NUMBER + 1, handle_refused(__LINE__, &c, PLAIN_TABLE_BYTES);
    c = b, c.r.next = UINT64_MAX, handle_refused(__LINE__, &c, PLAIN_TABLE_BYTES);
    c.r.ended = true, handle_refused(__LINE__, &c, PLAIN_TABLE_BYTES);
    c.r.refusal = 2, handle_refused(__LINE__, &c, PLAIN_TABLE_BYTES);
    for (uint32_t refusal = 0; refusal < 300; refusal++) {
        c = b, c.r.refusal = refusal;
        if (refusal <= 6 || (refusal >= 10 && refusal <= 16))
            handle_accepted(__LINE__, &c);
        else
            handle_refused(__LINE__, &c, PLAIN_TABLE_BYTES);
    }
    for (uint32_t length = 0; length < 300; length++) {
        c = b, c.r.held[0] = (uint8_t)(length >> 8), c.r.held[1] = (uint8_t)length;
        for (c.r.used = 0; c.r.used < 300; c.r.used++)
            if (c.r.used < 2 || (length >= 1 && length <= 256 && c.r.used <= length + 1))
                handle_accepted(__LINE__, &c);
            else if (c.r.used % 16 < 4)
                handle_refused(__LINE__, &c, PLAIN_TABLE_BYTES);
    }
    c = b, c.r.held[0] = 0xFF, c.r.used = 1, handle_accepted(__LINE__, &c);
}

/* A handle both ended and refused repeats the refusal. */
static void ended_and_refused(void)
{
    struct bench b;
    struct plain_answer a;
    start(&b);
    b.r.ended = true;
    b.r.refusal = 16;
    a = step(&b, LITERAL(HEARTBEAT));
    EXPECT(a.kind == PLAIN_REFUSED && a.refusal == 16 && a.taken == 0, "refusal first");
    b.r.refusal = 0;
    a = step(&b, LITERAL("\x00\x00"));
    EXPECT(a.kind == PLAIN_ENDED && a.taken == 0, "ended");
}

static void start_refused(void)
{
    struct bench b, fresh;
    start(&fresh);
    memset(&b, 0x33, sizeof b);
    EQUAL(plain_start(&b.r, b.table, sizeof b.table + 1, b.index, sizeof b.index), 20, "start 20");
    EXPECT(plain_same_reader(&b.r, &fresh.r), "a fresh handle with 20");
    EXPECT(b.table[0] == 0x33 && b.table[PLAIN_TABLE_BYTES - 1] == 0x33, "memory left");
    EXPECT(b.index[0] == 0x33 && b.index[PLAIN_INDEX_BYTES - 1] == 0x33, "index left");
    EXPECT(memcmp(fresh.r.session, "          ", 10) == 0 && fresh.r.next == 1 &&
               !fresh.r.known && !fresh.r.logged_in && !fresh.r.ended &&
               fresh.r.rows + fresh.r.used + fresh.r.refusal == 0 &&
               fresh.r.event == 0 && fresh.r.live == 0, "a fresh handle");
    for (size_t i = 0; i < PLAIN_TABLE_BYTES; i++)
        EQUAL(fresh.table[i], 0, "a fresh table");
    expect_index(__LINE__, &fresh, NULL, 0);
}

/* Steps through bytes until they run out, adding the events to a list. */
static size_t collect(struct bench *b, const uint8_t *p, size_t n,
                      struct plain_answer *events, size_t count)
{
    for (;;) {
        struct plain_answer a = step(b, p, n);
        if (a.kind != PLAIN_EVENT) {
            EXPECT(a.kind == PLAIN_MORE ? a.taken == n : a.taken == 0 && n == 0, "the rest taken");
            return count;
        }
        p += a.taken;
        n -= a.taken;
        a.taken = 0;
        EXPECT(count < DAY_PACKETS, "no more events than packets");
        events[count++] = a;
    }
}

static void cut_everywhere(void)
{
    struct plain_answer whole[DAY_PACKETS], cut[DAY_PACKETS];
    struct bench a, b;
    size_t count;
    start(&a);
    EQUAL(collect(&a, day, DAY_BYTES, whole, 0), DAY_PACKETS, "the day's packets");
    EXPECT(a.r.ended && a.r.rows == 5 && a.r.next == 21 && a.r.event == 'Q' &&
               a.r.live == 123456, "the day's end");
    expect_row(&a, 0, LITERAL(ROW(ID7, "Y", "H", "X", 3, LONG_BID, ROW_SHORT_ASK, "\2")));
    expect_row(&a, 1, LITERAL(ROW(ID_MAX, "N", "T", " ", 0, NO_SIDE, NO_SIDE, "\1")));
    expect_row(&a, 2, LITERAL(ROW("\0\0\0\x08", "Y", "T", " ", 3, ROW_SHORT_BID, LONG_ASK, "\x08")));
    expect_row(&a, 4, LITERAL(ROW("\0\0\0\x0A", "Y", "\0", " ", 0, NO_SIDE, NO_SIDE, "\1")));
    for (size_t at = 0; at <= DAY_BYTES; at++) {
        start(&b);
        count = collect(&b, day, at, cut, 0);
        count = collect(&b, day + at, DAY_BYTES - at, cut, count);
        EQUAL(count, DAY_PACKETS, "packets of the cut session");
        for (size_t k = 0; k < count; k++)
            EXPECT(plain_same_answer(&whole[k], &cut[k]), "events of the cut session");
        EXPECT(same_bench(&a, &b), "handle, table and index of the cut session");
    }
    start(&b);
    for (size_t at = 0, n = 0; at < DAY_BYTES; at++)
        n = collect(&b, day + at, 1, cut, n);
    EXPECT(same_bench(&a, &b), "byte by byte");
}

void test_reading(void)
{
    small_packets();
    small_fields();
    listings();
    listed_prices();
    listed_forms();
    prices_come_and_go();
    sides_unseen();
    longest_listing();
    plain_events();
    rows_change();
    directory_replaces();
    strange_memory();
    rows_found();
    rows_out_of_use();
    sides_in_strange_memory();
    packet_refusals();
    message_refusals();
    full_table();
    quotes_by_state();
    states_in_turn();
    states_in_strange_memory();
    fixed_fields();
    broken_handles();
    ended_and_refused();
    start_refused();
    cut_everywhere();
}
