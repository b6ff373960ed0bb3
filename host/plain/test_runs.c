/* Tests of runs: why each stops, what it takes and finishes, and that it leaves
 * what as many steps leave. */
#include "plaintest.h"

static void ran_at(int line, struct plain_ran ran, enum plain_why why, uint32_t refusal,
                   uint32_t finished, size_t taken)
{
    equal_at(line, ran.why, why, "why a run stopped");
    equal_at(line, ran.refusal, refusal, "a run's refusal");
    equal_at(line, ran.finished, finished, "packets finished");
    equal_at(line, ran.taken, taken, "bytes taken by a run");
}

#define RAN(ran, why, refusal, finished, taken) \
    ran_at(__LINE__, (ran), (why), (refusal), (finished), (taken))

static void more_wanted(void)
{
    struct bench b;
    start(&b);
    RAN(run_to(&b, LITERAL(""), 1), PLAIN_RAN_OUT, 0, 0, 0);
    RAN(run_to(&b, LITERAL(LOGIN HEARTBEAT), 3), PLAIN_RAN_OUT, 0, 2, 36);
    RAN(run_to(&b, LITERAL(DIRECTORY(ID7, "Y") "\x00\x11" "SH"), 1000), PLAIN_RAN_OUT, 0, 1, 70);
    EXPECT(b.r.used == 4 && memcmp(b.r.held, "\x00\x11" "SH", 4) == 0, "the cut packet is held");
    RAN(run_to(&b, LITERAL("\x00\x02" TIME ID7 "T" HEARTBEAT "\x00"), 5), PLAIN_RAN_OUT, 0, 2, 19);
    EXPECT(b.r.used == 1 && b.r.held[0] == 0 && b.r.next == 3, "a lone byte is held");
    expect_row(&b, 0, LITERAL(ROW(ID7, "Y", "T", " ", 0, NO_SIDE, NO_SIDE, "\2")));
}

/* At the ceiling nothing more is taken, and nothing of the rest is held. */
static void at_the_ceiling(void)
{
    struct bench b;
    start(&b);
    RAN(run_to(&b, LITERAL(LOGIN), 0), PLAIN_RAN_CEILING, 0, 0, 0);
    RAN(run_to(&b, LITERAL(""), 0), PLAIN_RAN_CEILING, 0, 0, 0);
    EXPECT(!b.r.logged_in && b.r.used == 0, "ceiling 0 takes nothing");
    RAN(run_to(&b, LITERAL(LOGIN HEARTBEAT), 1), PLAIN_RAN_CEILING, 0, 1, 33);
    RAN(run_to(&b, LITERAL(HEARTBEAT "\x00\x04" "+abc" "\x00\x01" "U" "\x00\x11"), 3), PLAIN_RAN_CEILING, 0, 3, 12);
    EQUAL(b.r.used, 0, "nothing is held");
    RAN(run_to(&b, LITERAL(EVENT("O") DIRECTORY(ID7, "Y")), 2), PLAIN_RAN_CEILING, 0, 2, 81);
    EXPECT(b.r.next == 3 && b.r.rows == 1 && b.r.event == 'O', "both messages");
    RAN(run_to(&b, LITERAL("\x00"), 1), PLAIN_RAN_OUT, 0, 0, 1);
    RAN(run_to(&b, LITERAL("\x01" "H"), 0), PLAIN_RAN_CEILING, 0, 0, 0);
    EQUAL(b.r.used, 1, "what is held stays");
    RAN(run_to(&b, LITERAL("\x01" "H" "\x00\x00"), 1), PLAIN_RAN_CEILING, 0, 1, 2);
}

/* J and Z are finished, and a run that finishes one has ended, at its ceiling too. */
static void ended(void)
{
    struct bench b;
    start(&b);
    feed(&b, LITERAL(LOGIN));
    RAN(run_to(&b, LITERAL(HEARTBEAT END HEARTBEAT), 2), PLAIN_RAN_ENDED, 0, 2, 6);
    RAN(run_to(&b, LITERAL(HEARTBEAT), 0), PLAIN_RAN_ENDED, 0, 0, 0);
    RAN(run_to(&b, LITERAL("\x00\x00"), 5), PLAIN_RAN_ENDED, 0, 0, 0);
    start(&b);
    RAN(run_to(&b, LITERAL("\x00\x02" "JA" HEARTBEAT), 1), PLAIN_RAN_ENDED, 0, 1, 4);
    start(&b);
    RAN(run_to(&b, LITERAL(HEARTBEAT "\x00\x02" "JA" HEARTBEAT), 1000), PLAIN_RAN_ENDED, 0, 2, 7);
    RAN(run_to(&b, LITERAL(""), 1), PLAIN_RAN_ENDED, 0, 0, 0);
}

/* The packets before a refused one stay; its bytes are taken, and it is not
 * finished. */
static void refused(void)
{
    struct bench b;
    start(&b);
    RAN(run_to(&b, LITERAL(LOGIN DIRECTORY(ID7, "Y") BID_SHORT(ID7) HEARTBEAT), 2), PLAIN_RAN_CEILING, 0, 2, 99);
    RAN(run_to(&b, LITERAL(EVENT("Q") BID_SHORT(ID7) HEARTBEAT), 2), PLAIN_RAN_REFUSED, 14, 1, 44);
    EXPECT(b.r.refusal == 14 && b.r.used == 0 && b.r.next == 3 && b.r.event == 'Q', "the message before it");
    expect_row(&b, 0, LITERAL(ROW(ID7, "Y", "\0", " ", 0, NO_SIDE, NO_SIDE, "\1")));
    RAN(run_to(&b, LITERAL(HEARTBEAT), 0), PLAIN_RAN_REFUSED, 14, 0, 0);
    RAN(run_to(&b, LITERAL(HEARTBEAT), 5), PLAIN_RAN_REFUSED, 14, 0, 0);
    b.r.ended = true;
    RAN(run_to(&b, LITERAL(HEARTBEAT), 5), PLAIN_RAN_REFUSED, 14, 0, 0);
    start(&b);
    RAN(run_to(&b, LITERAL(HEARTBEAT "\x01\x01" "rest"), 9), PLAIN_RAN_REFUSED, 1, 1, 5);
    start(&b);
    RAN(run_to(&b, LITERAL("\x00\x01"), 1), PLAIN_RAN_OUT, 0, 0, 2);
    RAN(run_to(&b, LITERAL("X" HEARTBEAT), 1), PLAIN_RAN_REFUSED, 2, 0, 1);
}

/* 20 and 27 change nothing; 20 comes first, and 27 before what stands. */
static void call_refused(int line, const struct bench *before, size_t table_len, uint32_t ceiling,
                         uint32_t refusal)
{
    struct bench b = *before;
    struct plain_ran ran = plain_run(&b.r, b.table, table_len, b.index, sizeof b.index, LITERAL(HEARTBEAT), ceiling);
    ran_at(line, ran, PLAIN_RAN_REFUSED, refusal, 0, 0);
    expect_at(line, memcmp(&b, before, sizeof b) == 0, "a refused call changes nothing");
}

static void calls_refused(void)
{
    static const uint32_t ceilings[] = {1001, 1002, 65536, 1u << 31, UINT32_MAX};
    struct bench b, broken;
    start(&b);
    feed(&b, LITERAL(LOGIN));
    step(&b, LITERAL("\x00\x04" "+a"));
    broken = b;
    broken.r.rows = PLAIN_MAX_ROWS + 1;
    call_refused(__LINE__, &b, PLAIN_TABLE_BYTES - 1, 5, 20);
    call_refused(__LINE__, &b, PLAIN_TABLE_BYTES + 1, 0, 20);
    call_refused(__LINE__, &broken, PLAIN_TABLE_BYTES, 1000, 20);
    for (size_t i = 0; i < sizeof ceilings / sizeof *ceilings; i++) {
        call_refused(__LINE__, &b, PLAIN_TABLE_BYTES, ceilings[i], 27);
        call_refused(__LINE__, &b, PLAIN_TABLE_BYTES - 1, ceilings[i], 20);
        call_refused(__LINE__, &broken, PLAIN_TABLE_BYTES, ceilings[i], 20);
    }
    b.r.ended = true;
    call_refused(__LINE__, &b, PLAIN_TABLE_BYTES, 1001, 27);
    b.r.refusal = 3;
    call_refused(__LINE__, &b, PLAIN_TABLE_BYTES, 1001, 27);
}

static void most_packets(void)
{
    static uint8_t piece[3 * 1500];
    struct bench b;
    for (size_t i = 0; i < sizeof piece; i += 3)
        memcpy(piece + i, HEARTBEAT, 3);
    start(&b);
    RAN(run_to(&b, piece, sizeof piece, 999), PLAIN_RAN_CEILING, 0, 999, 2997);
    RAN(run_to(&b, piece, sizeof piece, 1000), PLAIN_RAN_CEILING, 0, 1000, 3000);
    RAN(run_to(&b, piece, 3000, 1000), PLAIN_RAN_CEILING, 0, 1000, 3000);
    RAN(run_to(&b, piece, 2999, 1000), PLAIN_RAN_OUT, 0, 999, 2999);
    RAN(run_to(&b, LITERAL("H"), 1000), PLAIN_RAN_OUT, 0, 1, 1);
}

/* The request, word for word, over steps. A step with no bytes changes nothing,
 * and says whether the reader has ended or refused. */
static struct plain_ran by_steps(struct bench *b, const uint8_t *p, size_t n, uint32_t ceiling)
{
    struct plain_ran ran = {PLAIN_RAN_CEILING, 0, 0, 0};
    for (;;) {
        struct plain_answer a = step(b, p, 0);
        if (a.kind == PLAIN_MORE && ran.finished == ceiling)
            return ran;
        if (a.kind == PLAIN_MORE)
            a = step(b, p + ran.taken, n - ran.taken);
        ran.taken += a.taken;
        ran.refusal = a.refusal;
        ran.finished += a.kind == PLAIN_EVENT;
        if (a.kind == PLAIN_EVENT)
            continue;
        ran.why = a.kind == PLAIN_MORE ? PLAIN_RAN_OUT : a.kind == PLAIN_ENDED ? PLAIN_RAN_ENDED : PLAIN_RAN_REFUSED;
        return ran;
    }
}

/* Both ways through the bytes, in runs of one ceiling after another. */
static void as_steps(const struct bench *from, const uint8_t *p, size_t n, uint32_t ceiling)
{
    struct bench a = *from, b = *from;
    struct plain_ran ran, wanted;
    do {
        ran = run_to(&a, p, n, ceiling);
        wanted = by_steps(&b, p, n, ceiling);
        RAN(ran, wanted.why, wanted.refusal, wanted.finished, wanted.taken);
        EXPECT(same_bench(&a, &b), "a run's handle, table and index");
        p += ran.taken;
        n -= ran.taken;
    } while (ran.why == PLAIN_RAN_CEILING && ceiling != 0);
}

static void day_by_runs(void)
{
    struct bench fresh, cut;
    start(&fresh);
    for (uint32_t ceiling = 0; ceiling <= DAY_PACKETS + 1; ceiling++)
        as_steps(&fresh, day, DAY_BYTES, ceiling);
    for (size_t at = 0; at <= DAY_BYTES; at += 7) {
        cut = fresh;
        by_steps(&cut, day, at, 1000);
        as_steps(&cut, day + at, DAY_BYTES - at, (uint32_t)at % 9);
    }
}

static void sessions_by_runs(void)
{
    static uint8_t space[1 << 17];
    for (uint64_t seed = 0; seed < 300; seed++) {
        struct dice d = dice_seeded(seed);
        struct session_plan plan = random_plan(&d);
        struct bytes s = {space, 0, sizeof space - DAMAGE_ROOM};
        struct bench b;
        plan.packets %= 60;
        plan.instruments = 1 + plan.instruments % 8;
        make_session(&d, &plan, &s);
        s.room = sizeof space;
        if (seed % 3 != 0)
            damage_session(&d, (enum session_damage)dice_below(&d, SESSION_DAMAGES), &s);
        start(&b);
        b.r = reader_for_plan(&plan);
        as_steps(&b, s.at, dice_below(&d, s.n + 1), (uint32_t)dice_below(&d, 12));
        as_steps(&b, s.at, s.n, (uint32_t)dice_below(&d, 1001));
    }
}

void test_runs(void)
{
    more_wanted();
    at_the_ceiling();
    ended();
    refused();
    calls_refused();
    most_packets();
    day_by_runs();
    sessions_by_runs();
}
