/* Tests of the index: where ids are entered, what a search visits, and what is left
 * where it goes astray. */
#include "plaintest.h"

enum { INDEX = PLAIN_INDEX_BYTES };

#define ID8 "\0\0\0\x08"
#define ID9 "\0\0\0\x09"
#define ID_ZERO "\0\0\0\0"

/* The index, by the row numbers that it should have. */
#define PLACES(bench, ...) \
    do { \
        static const uint16_t wanted[] = {__VA_ARGS__}; \
        expect_index(__LINE__, (bench), wanted, sizeof wanted / sizeof *wanted); \
    } while (0)

static void set_place(struct bench *b, size_t place, unsigned row)
{
    b->index[2 * place] = (uint8_t)(row >> 8);
    b->index[2 * place + 1] = (uint8_t)row;
}

static void list_id(struct bench *b, uint32_t id)
{
    uint8_t packet[] = DIRECTORY("\0\0\0\0", "Y");
    for (size_t i = 0; i < 4; i++)
        packet[14 + i] = (uint8_t)(id >> (24 - 8 * i));
    feed(b, packet, sizeof packet - 1);
}

static void begin(struct bench *b)
{
    start(b);
    feed(b, LITERAL(LOGIN));
}

/* Rows 0, 1 and 2 have ids 7, 9 and 8, in state T. */
static void begin_three(struct bench *b)
{
    begin(b);
    feed(b, LITERAL(DIRECTORY(ID7, "Y") DIRECTORY(ID9, "Y") DIRECTORY(ID8, "Y")
                    STATE(ID7, "T") STATE(ID8, "T") STATE(ID9, "T")));
}

static void entered_by_id(void)
{
    struct bench b;
    begin(&b);
    expect_index(__LINE__, &b, NULL, 0);
    list_id(&b, 5);
    PLACES(&b, 0);
    list_id(&b, 3);
    PLACES(&b, 1, 0);
    list_id(&b, 9);
    PLACES(&b, 1, 0, 2);
    list_id(&b, 7);
    PLACES(&b, 1, 0, 3, 2);
    list_id(&b, 0);
    PLACES(&b, 4, 1, 0, 3, 2);
    list_id(&b, UINT32_MAX);
    PLACES(&b, 4, 1, 0, 3, 2, 5);
    list_id(&b, 5);
    feed(&b, LITERAL(STATE(ID7, "T") BID_LONG(ID7) EVENT("Q") REPLAY_END));
    PLACES(&b, 4, 1, 0, 3, 2, 5);
    list_id(&b, 0x80000000);
    list_id(&b, 0x7FFFFFFF);
    PLACES(&b, 4, 1, 0, 3, 2, 7, 6, 5);
}

/* Ids from one on, each so much above the one before, in a ring of as many as fill a
 * table. All of them differ, so that each id of the ring is that of one row. */
static void entered_in_turn(uint32_t first, uint32_t by, uint32_t count)
{
    uint16_t row_of[PLAIN_MAX_ROWS], wanted[PLAIN_MAX_ROWS];
    struct bench b;
    size_t places = 0;
    begin(&b);
    for (uint32_t row = 0; row < PLAIN_MAX_ROWS; row++)
        row_of[(first + row * by) % PLAIN_MAX_ROWS] = (uint16_t)row;
    for (uint32_t row = 0; row < count; row++)
        list_id(&b, (first + row * by) % PLAIN_MAX_ROWS);
    for (uint32_t id = 0; id < PLAIN_MAX_ROWS; id++)
        if (row_of[id] < count)
            wanted[places++] = row_of[id];
    EQUAL(places, count, "a place for each row");
    expect_index(__LINE__, &b, wanted, count);
}

/* Ids that rise, that fall, and in mixed order. */
static void full_tables(void)
{
    for (uint32_t count = 0; count <= PLAIN_MAX_ROWS; count++)
        entered_in_turn(0, 1, count);
    for (uint32_t count = PLAIN_MAX_ROWS - 1; count <= PLAIN_MAX_ROWS; count++) {
        entered_in_turn(PLAIN_MAX_ROWS - 1, PLAIN_MAX_ROWS - 1, count);
        entered_in_turn(31, 97, count);
    }
}

/* A step that goes astray: 20, and everything is as it was. */
static void astray(int line, const struct bench *before, const uint8_t *packet, size_t n)
{
    struct bench b = *before;
    struct plain_answer a = step(&b, packet, n);
    expect_at(line, a.kind == PLAIN_REFUSED && a.refusal == 20 && a.taken == 0, "astray");
    expect_at(line, same_bench(&b, before), "a step that went astray changes nothing");
    sort_index(&b);
    a = step(&b, packet, n);
    expect_at(line, a.refusal != 20, "with a true index it goes on");
}

#define ASTRAY(bench, text) astray(__LINE__, (bench), LITERAL(text))

/* With three places the first look is at place 1; then, upwards, at place 2 twice,
 * and downwards at place 0. */
static void visited_places(void)
{
    struct bench b, c;
    begin_three(&b);
    PLACES(&b, 0, 2, 1);
    c = b, set_place(&c, 1, 3);
    ASTRAY(&c, STATE(ID7, "H"));
    ASTRAY(&c, BID_LONG(ID8));
    ASTRAY(&c, DIRECTORY(ID9, "Y"));
    ASTRAY(&c, DIRECTORY(ID_MAX, "Y"));
    c = b, set_place(&c, 2, 0xFFFF);
    feed(&c, LITERAL(STATE(ID7, "H")));
    ASTRAY(&c, BOTH_SHORT(ID8));
    ASTRAY(&c, ASK_SHORT(ID9));
    c = b, set_place(&c, 0, PLAIN_MAX_ROWS);
    feed(&c, LITERAL(STATE(ID8, "H") STATE(ID9, "H")));
    ASTRAY(&c, STATE(ID7, "H"));
    ASTRAY(&c, DIRECTORY(ID_ZERO, "Y"));
    c = b, set_place(&c, 3, 0xFFFF); /* out of use: nothing looks there */
    feed(&c, LITERAL(STATE(ID7, "H") STATE(ID8, "H") STATE(ID9, "H")));
    set_place(&c, 4, 0xEEEE);
    list_id(&c, 6);
    EXPECT(memcmp(c.index, "\0\3\0\0\0\2\0\1\xEE\xEE", 10) == 0, "one more place in use, and no other changed");
}

/* 20 comes after 1 to 6 and 10 to 12, and before 13 to 16; S and M look nowhere. */
static void order_of_refusals(void)
{
    enum { VISITED_FIRST = PLAIN_MAX_ROWS / 2 };
    struct bench b, full;
    begin_three(&b);
    memset(b.index, 0xFF, INDEX);
    feed(&b, LITERAL(HEARTBEAT EVENT("O") REPLAY_END));
    ASTRAY(&b, STATE("\0\0\0\x06", "T"));
    ASTRAY(&b, "\x00\x40" "Sm" "\x00\x01" TIME ID7 "MSFT    " "\x19\x06\x14" "\x00\x1A\xB3\xF0" "C"
               UNDERLYING "NYP" SPACES16);
    EQUAL(step(&b, LITERAL(STATE(ID7, "?"))).refusal, 12, "12 before 20");
    EQUAL(step(&b, LITERAL(STATE(ID7, "T"))).refusal, 12, "a standing refusal before 20");
    begin(&full);
    fill_up(&full);
    set_place(&full, VISITED_FIRST, PLAIN_MAX_ROWS);
    ASTRAY(&full, DIRECTORY(ID7, "Y"));
    set_place(&full, VISITED_FIRST, VISITED_FIRST);
    EQUAL(step(&full, LITERAL(DIRECTORY(ID7, "Y"))).refusal, 16, "16 with a true index");
}

/* The row of an id is the one that the search finds, or else there is none. */
static void false_places(void)
{
    struct bench b, c;
    begin_three(&b);
    c = b, memset(c.index, 0, INDEX); /* row 0 three times: 8 and 9 are not found */
    feed(&c, LITERAL(STATE(ID7, "H")));
    EQUAL(c.table[52], 'H', "the row that is named");
    feed(&c, LITERAL(DIRECTORY(ID9, "Y")));
    EQUAL(c.r.rows, 4, "a second row with the id");
    PLACES(&c, 0, 0, 0, 3);
    EQUAL(step(&c, LITERAL(STATE(ID8, "H"))).refusal, 13, "an id that is not found");
    c = b, set_place(&c, 0, 1), set_place(&c, 1, 2), set_place(&c, 2, 0); /* 9 8 7 */
    feed(&c, LITERAL(DIRECTORY(ID7, "Y")));
    PLACES(&c, 3, 1, 2, 0);
    EQUAL(c.r.rows, 4, "7 was sought below 8, and entered before 9");
    c = b, set_place(&c, 2, 2); /* 7 8 8: the later place counts */
    feed(&c, LITERAL(STATE(ID8, "H")));
    EQUAL(step(&c, LITERAL(STATE(ID9, "H"))).refusal, 13, "no place names it");
}

/* A cut packet that goes astray stays held as it was, and is finished later. */
static void astray_with_held(void)
{
    static const uint8_t packet[] = BID_LONG(ID8);
    struct bench b, c, whole;
    begin_three(&b);
    whole = b;
    feed(&whole, packet, sizeof packet - 1);
    for (size_t cut = 0; cut < sizeof packet - 1; cut++) {
        c = b;
        EQUAL(step(&c, packet, cut).taken, cut, "the part before the cut");
        set_place(&c, 1, 3);
        astray(__LINE__, &c, packet + cut, sizeof packet - 1 - cut);
        EQUAL(c.r.used, cut, "what is held");
        set_place(&c, 1, 2);
        EQUAL(step(&c, packet + cut, sizeof packet - 1 - cut).kind, PLAIN_EVENT, "the packet");
        EXPECT(same_bench(&c, &whole), "as if it had never gone astray");
    }
}

static void expect_astray_run(int line, struct plain_ran ran, uint32_t finished, size_t taken)
{
    expect_at(line, ran.why == PLAIN_RAN_REFUSED && ran.refusal == 20, "a run that went astray");
    equal_at(line, ran.finished, finished, "packets kept");
    equal_at(line, ran.taken, taken, "bytes of the packets kept");
}

static void runs_astray(void)
{
    struct bench b, c, kept;
    begin_three(&b);
    set_place(&b, 2, 7);
    kept = b;
    feed(&kept, LITERAL(HEARTBEAT STATE(ID7, "H")));
    c = b;
    expect_astray_run(__LINE__, run_to(&c, LITERAL(HEARTBEAT STATE(ID7, "H") BID_LONG(ID9) HEARTBEAT), 9), 2, 22);
    EXPECT(same_bench(&c, &kept), "the packets before it are kept");
    expect_astray_run(__LINE__, run_to(&c, LITERAL(BID_LONG(ID9)), 9), 0, 0);
    EXPECT(same_bench(&c, &kept), "and nothing more");
    EQUAL(run_to(&c, LITERAL(BID_LONG(ID9)), 0).why, PLAIN_RAN_CEILING, "no step, no search");
    c = b;
    EQUAL(run_to(&c, LITERAL("\x00\x25" "SB"), 9).taken, 4, "the start of a packet");
    kept = c;
    expect_astray_run(__LINE__, run_to(&c, LITERAL("\x00\x07" TIME ID9 "X" LONG_BID), 9), 0, 0);
    EXPECT(same_bench(&c, &kept), "what was held stays held");
}

/* Every call that is lent an index refuses another length, before all else. */
static void lengths_refused(const struct bench *b, size_t n)
{
    struct bench c = *b, before = *b;
    struct plain_answer a;
    struct plain_ran ran;
    const uint8_t *row;
    plain_step(&c.r, c.table, sizeof c.table, c.index, n, LITERAL(HEARTBEAT), &a);
    EXPECT(a.kind == PLAIN_REFUSED && a.refusal == 20 && a.taken == 0, "step");
    ran = plain_run(&c.r, c.table, sizeof c.table, c.index, n, LITERAL(HEARTBEAT), 1001);
    EXPECT(ran.why == PLAIN_RAN_REFUSED && ran.refusal == 20 && ran.finished == 0 && ran.taken == 0, "run");
    EQUAL(plain_find(&c.r, c.table, sizeof c.table, c.index, n, 7, &row), 20, "find");
    EXPECT(row == NULL && memcmp(&c, &before, sizeof c) == 0, "nothing changes");
    EQUAL(plain_start(&c.r, c.table, sizeof c.table, c.index, n), 20, "start");
    EXPECT(c.r.next == 1 && c.r.rows == 0 && !c.r.known, "a fresh handle");
    EQUAL(plain_restore(&c.r, c.table, sizeof c.table, c.index, n, (const uint8_t *)"", 0), 20, "20 before 21");
    c.r = before.r;
    EXPECT(same_bench(&c, &before), "table and index are left");
}

static void wrong_lengths(void)
{
    static const size_t lengths[] = {0, 1, INDEX - 2, INDEX - 1, INDEX + 1, INDEX + 2};
    struct bench b;
    begin_three(&b);
    for (size_t i = 0; i < sizeof lengths / sizeof *lengths; i++) {
        b.r.refusal = 0;
        lengths_refused(&b, lengths[i]);
        b.r.refusal = 13;
        lengths_refused(&b, lengths[i]);
        b.r.ended = true;
        lengths_refused(&b, lengths[i]);
    }
}

void test_index(void)
{
    entered_by_id();
    full_tables();
    visited_places();
    order_of_refusals();
    false_places();
    astray_with_held();
    runs_astray();
    wrong_lengths();
}
