/* The generators, run through the plain reader: what they make is what they say. */
#include "parts.h"
#include "plaintest.h"

static bool takes_quote(unsigned state)
{
    return state == 'B' || state == 'S' || state == 'T';
}

/* How many quotes were taken, by the state of their rows. */
static unsigned long quoted[256];

/* How many prices they had: in pennies and in ten-thousandths, of bids and of asks,
 * none, 1, the highest of the form, and others. */
static unsigned long priced[2][2][4];

static void count_price(size_t form, enum plain_which which, uint32_t price)
{
    uint32_t highest = form == 0 ? 65535 : 2147483647;
    priced[form][which][price < 2 ? price : price == highest ? 2 : 3]++;
}

static void count_priced(const struct plain_message *m)
{
    switch (m->kind) {
    case PLAIN_BOTH_SHORT:
        count_price(0, PLAIN_BID, m->both_short.bid.price);
        count_price(0, PLAIN_ASK, m->both_short.ask.price);
        break;
    case PLAIN_BOTH_LONG:
        count_price(1, PLAIN_BID, m->both_long.bid.price);
        count_price(1, PLAIN_ASK, m->both_long.ask.price);
        break;
    case PLAIN_ONE_SHORT:
        count_price(0, m->one_short.which, m->one_short.side.price);
        break;
    default:
        count_price(1, m->one_long.which, m->one_long.side.price);
        break;
    }
}

static void count_quoted(const struct bench *b, const struct plain_answer *a)
{
    const uint8_t *row;
    if (a->kind != PLAIN_EVENT || a->event != PLAIN_MESSAGE ||
        a->message.kind < PLAIN_BOTH_SHORT || a->message.kind > PLAIN_ONE_LONG)
        return;
    plain_find(&b->r, b->table, sizeof b->table, b->index, sizeof b->index, a->message.id, &row);
    EXPECT(row != NULL, "the row of a quote that was taken");
    quoted[row[ROW_STATE]]++;
    count_priced(&a->message);
}

/* Runs bytes in random pieces until they run out or the reader stops; the
 * refusal, or 0. */
static uint32_t run(struct dice *d, struct bench *b, const struct bytes *s)
{
    struct plain_answer a;
    size_t at = 0;
    do {
        size_t n = d ? make_piece_size(d, s->n - at) : s->n - at;
        a = step(b, s->at + at, n);
        EXPECT(a.taken <= n && (a.kind != PLAIN_MORE || a.taken == n), "bytes taken");
        at += a.taken;
        count_quoted(b, &a);
    } while (a.kind == PLAIN_EVENT || (a.kind == PLAIN_MORE && at < s->n));
    return a.refusal;
}

static uint8_t session_space[200000];

/* The index that a reader kept is the one that its table asks for. */
static void expect_true_index(const struct bench *b)
{
    struct bench sorted = *b;
    sort_index(&sorted);
    EXPECT(memcmp(sorted.index, b->index, sizeof sorted.index) == 0, "a true index");
}

static void expect_quoted(void)
{
    for (unsigned state = 0; state < 256; state++)
        EXPECT(takes_quote(state) ? quoted[state] > 100 : quoted[state] == 0,
               "the states in which true sessions quote");
    for (size_t sort = 0; sort < 4; sort++)
        EXPECT(priced[0][PLAIN_BID][sort] > 20 && priced[0][PLAIN_ASK][sort] > 20 &&
                   priced[1][PLAIN_BID][sort] > 20 && priced[1][PLAIN_ASK][sort] > 20,
               "the prices that true sessions have");
}

static void true_sessions(void)
{
    for (uint64_t seed = 0; seed < 400; seed++) {
        struct dice d = dice_seeded(seed);
        struct session_plan plan = random_plan(&d);
        struct bytes s = {session_space, 0, sizeof session_space};
        struct bench whole, cut;
        uint32_t refusal;
        EXPECT(session_room(&plan) <= s.room, "room");
        make_session(&d, &plan, &s);
        start(&whole);
        whole.r = reader_for_plan(&plan);
        cut = whole;
        refusal = run(NULL, &whole, &s);
        EXPECT(refusal == 0 || (refusal == 6 && whole.r.next == PLAIN_MAX_NUMBER),
               "a made session is accepted");
        EQUAL(run(&d, &cut, &s), refusal, "a made session in pieces");
        EXPECT(same_bench(&whole, &cut), "cut and whole");
        expect_true_index(&whole);
    }
    expect_quoted();
}

/* A damage that spoils a quote leads to 14, in every session with a quote. */
static void spoilt_quotes(enum session_damage kind)
{
    unsigned long spoilt = 0;
    for (uint64_t seed = 0; seed < 200; seed++) {
        struct dice d = dice_seeded(seed);
        struct session_plan plan = random_plan(&d);
        struct bytes s = {session_space, 0, sizeof session_space};
        struct bench b;
        size_t n;
        plan.first = 1;
        make_session(&d, &plan, &s);
        n = s.n;
        damage_session(&d, kind, &s);
        start(&b);
        EQUAL(run(NULL, &b, &s), s.n == n ? 0 : 14, "a spoilt quote");
        spoilt += s.n != n;
    }
    EXPECT(spoilt > 100, "quotes are spoilt");
}

static void damaged_sessions(void)
{
    unsigned long seen[32] = {0};
    for (uint64_t seed = 0; seed < 60 * SESSION_DAMAGES; seed++) {
        struct dice d = dice_seeded(seed ^ UINT64_C(0xDA3A6E));
        struct session_plan plan = random_plan(&d);
        struct bytes s = {session_space, 0, sizeof session_space};
        struct bench whole, cut;
        uint32_t refusal;
        make_session(&d, &plan, &s);
        damage_session(&d, (enum session_damage)(seed % SESSION_DAMAGES), &s);
        if (dice_chance(&d, 20))
            damage_session(&d, (enum session_damage)dice_below(&d, SESSION_DAMAGES), &s);
        start(&whole);
        whole.r = reader_for_plan(&plan);
        cut = whole;
        refusal = run(NULL, &whole, &s);
        EQUAL(run(&d, &cut, &s), refusal, "a damaged session in pieces");
        EXPECT(same_bench(&whole, &cut), "cut and whole");
        expect_true_index(&whole);
        seen[refusal]++;
    }
    for (uint32_t k = 0; k <= 16; k++)
        if (k <= 6 || k >= 10)
            EXPECT(seen[k] != 0, "the damages reach every refusal");
}

static void made_messages(void)
{
    for (uint64_t seed = 0; seed < 20000; seed++) {
        struct dice d = dice_seeded(seed);
        struct plain_message m, back;
        uint8_t out[64], again[64];
        size_t n, k;
        make_any_message(&d, &m);
        EQUAL(plain_write(&m, out, sizeof out, &n), 0, "a made record is written");
        EQUAL(plain_read(out, n, &back), 0, "and read back");
        EXPECT(plain_same_message(&m, &back), "as the same record");
        break_message(&d, &m);
        EQUAL(plain_write(&m, out, sizeof out, &n), 26, "a broken record");
        n = make_message_bytes(&d, out, sizeof out);
        if (plain_read(out, n, &m) != 0)
            continue;
        EQUAL(plain_write(&m, again, sizeof again, &k), 0, "what is read is written");
        EXPECT(k == n && memcmp(out, again, n) == 0, "as the same bytes");
    }
}

static void made_readers(void)
{
    static uint8_t image[PLAIN_IMAGE_BYTES];
    unsigned long seen[32] = {0};
    for (uint64_t seed = 0; seed < 4000; seed++) {
        struct dice d = dice_seeded(seed);
        struct bench b;
        uint8_t space[PLAIN_PACKET_BYTES];
        struct bytes s = {space, 0, sizeof space};
        size_t n;
        make_reader(&d, seed % 2 == 0, &b.r, b.table);
        EQUAL(plain_save(&b.r, b.table, sizeof b.table, image, sizeof image, &n), 0, "a made handle saves");
        if (seed % 5 == 0)
            blur_table(&d, &b.r, b.table);
        sort_index(&b);
        put_packet_for(&d, &b.r, b.table, &s);
        if (seed % 2 == 0)
            b.r.used = 0;
        seen[step(&b, s.at, s.n).refusal]++;
        if (seed % 3 == 0) {
            spoil_reader(&d, &b.r);
            EQUAL(plain_save(&b.r, b.table, sizeof b.table, image, sizeof image, &n), 24, "a spoilt handle");
        }
        break_reader(&d, &b.r);
        EQUAL(step(&b, space, 1).refusal, 20, "a broken handle");
        EQUAL(plain_save(&b.r, b.table, sizeof b.table, image, sizeof image, &n), 20, "a broken handle");
    }
    EXPECT(seen[0] && seen[5] && seen[12] && seen[13] && seen[14] && seen[15] && seen[16],
           "the made packets reach the rows' refusals");
}

/* A quote to a row in any state is taken by the rule alone. */
static void made_quotes(void)
{
    unsigned long seen[2] = {0};
    for (uint64_t seed = 0; seed < 4000; seed++) {
        struct dice d = dice_seeded(seed);
        struct bench b;
        struct plain_message m;
        uint8_t space[PLAIN_PACKET_BYTES];
        struct bytes s = {space, 0, sizeof space};
        const uint8_t *row;
        bool taken;
        make_quoted(&d, seed % 4 == 0, &b.r, b.table, &s);
        sort_index(&b);
        EQUAL(plain_read(s.at + 3, s.n - 3, &m), 0, "a made quote");
        plain_find(&b.r, b.table, sizeof b.table, b.index, sizeof b.index, m.id, &row);
        EXPECT(row != NULL, "the row of a made quote");
        taken = takes_quote(row[ROW_STATE]) && row[ROW_TRADABLE] == 'Y';
        EQUAL(step(&b, s.at, s.n).refusal, taken ? 0 : 14, "a made quote's refusal");
        seen[taken]++;
    }
    EXPECT(seen[0] > 400 && seen[1] > 400, "made quotes are taken and refused");
}

/* The packets of a row at all times are taken, and where its times were broken before
 * them, saving is refused. */
static void made_timed(void)
{
    static uint8_t image[PLAIN_IMAGE_BYTES];
    unsigned long purged = 0;
    for (uint64_t seed = 0; seed < 2000; seed++) {
        struct dice d = dice_seeded(seed);
        struct bench b;
        uint8_t space[4 * PLAIN_PACKET_BYTES];
        struct bytes s = {space, 0, sizeof space};
        size_t n;
        make_timed(&d, seed % 2 == 0, &b.r, b.table, &s);
        sort_index(&b);
        EQUAL(plain_save(&b.r, b.table, sizeof b.table, image, sizeof image, &n), seed % 2 == 0 ? 24 : 0, "its times");
        feed(&b, s.at, s.n);
        purged += s.n >= 66 && s.at[s.n - 66 + 3] == 'm';
    }
    EXPECT(purged > 500, "rows are purged");
}

/* A restored image is saved to the same bytes, or if it had no times, to an image that
 * has them once those are taken away. */
static void expect_saved_again(const struct bench *b, const struct bytes *image)
{
    static uint8_t space[PLAIN_IMAGE_BYTES];
    struct bytes again = {space, 0, sizeof space};
    EQUAL(plain_save(&b->r, b->table, sizeof b->table, again.at, again.room, &again.n), 0, "saved again");
    if (get_number(image->at + 4, 2) != 3)
        age_image(&again);
    EXPECT(again.n == image->n && memcmp(again.at, image->at, again.n) == 0, "as the same image");
}

/* A move refuses what a restore does, and at 23 also a version of the other sort. */
static void expect_moved(const struct bytes *image, int restored)
{
    static uint8_t out[PLAIN_IMAGE_BYTES], again[PLAIN_IMAGE_BYTES];
    bool judged = restored == 0 || restored == 24, timed = judged && get_number(image->at + 4, 2) == 3;
    int forward = judged && timed ? 23 : restored, back = judged && !timed ? 23 : restored;
    size_t n, again_n;
    EQUAL(plain_back(image->at, image->n, out, sizeof out, &n), back, "back");
    EQUAL(n, back == 0 ? image->n : 0, "bytes written");
    EQUAL(plain_forward(image->at, image->n, out, sizeof out, &n), forward, "forward");
    EQUAL(n, forward == 0 ? image->n : 0, "bytes written");
    if (forward != 0)
        return;
    EQUAL(plain_back(out, n, again, sizeof again, &again_n), 0, "forward then back");
    EXPECT(again_n == n && memcmp(again, image->at, n) == 0, "the same bytes");
}

static void made_images(void)
{
    static uint8_t space[PLAIN_IMAGE_BYTES + PLAIN_BLOCK_BYTES];
    unsigned long seen[32] = {0}, made[PLAIN_MAX_ROWS + 1] = {0}, versions[4] = {0};
    for (uint64_t seed = 0; seed < 150 * IMAGE_DAMAGES; seed++) {
        struct dice d = dice_seeded(seed);
        struct bytes image = {space, 0, sizeof space};
        struct bench b;
        int refusal;
        make_image(&d, &image);
        EQUAL(plain_restore(&b.r, b.table, sizeof b.table, b.index, sizeof b.index, image.at, image.n), 0, "a made image");
        expect_true_index(&b);
        expect_moved(&image, 0);
        made[b.r.rows]++;
        versions[get_number(image.at + 4, 2)]++;
        damage_image(&d, (enum image_damage)(seed % IMAGE_DAMAGES), &image);
        refusal = plain_restore(&b.r, b.table, sizeof b.table, b.index, sizeof b.index, image.at, image.n);
        seen[refusal]++;
        if (refusal == 0)
            expect_saved_again(&b, &image);
        expect_moved(&image, refusal);
    }
    for (size_t k = 21; k <= 24; k++)
        EXPECT(seen[k] > 100, "the damages reach every refusal of an image");
    EXPECT(made[0] > 20 && made[PLAIN_ROWS_OF_VERSION_1] > 20 && made[PLAIN_ROWS_OF_VERSION_1 + 1] > 20 &&
               made[PLAIN_MAX_ROWS - 1] > 20 && made[PLAIN_MAX_ROWS] > 20,
           "the rows that made images have");
    EXPECT(versions[1] > 100 && versions[2] > 100 && versions[3] > 100, "the versions that made images have");
}

/* The sort of a seen side's time: zero, the latest, unknown, or another. */
static size_t sort_of(uint64_t time)
{
    return time == 0 ? 0 : time == PLAIN_MAX_TIME ? 1 : time == UINT64_MAX ? 2 : 3;
}

/* Rows have times of every sort on every side, and a broken time is 24 on saving, and
 * in an image without times on restoring. */
static void made_times(void)
{
    unsigned long made[2][4] = {{0}};
    for (uint64_t seed = 0; seed < 4000; seed++) {
        struct dice d = dice_seeded(seed);
        uint8_t space[1024];
        struct bytes image = {space, 0, sizeof space};
        struct bench b;
        start(&b);
        feed(&b, LITERAL(LOGIN DIRECTORY(ID7, "Y")));
        make_row(&d, 7, b.table);
        for (size_t side = 0; side < 2; side++)
            if (b.table[ROW_SIDES] >> side & 1)
                made[side][sort_of(get_number(b.table + 106 + 8 * side, 8))]++;
        EQUAL(plain_save(&b.r, b.table, sizeof b.table, space, sizeof space, &image.n), 0, "a made row");
        age_image(&image);
        EQUAL(plain_restore(&b.r, b.table, sizeof b.table, b.index, sizeof b.index, image.at, image.n), 0, "aged");
        break_times(&d, true, b.table);
        EQUAL(plain_save(&b.r, b.table, sizeof b.table, space, 0, &image.n), 24, "a broken time");
        image.n = sizeof space;
        break_times(&d, false, space + 512 + 14);
        seal_image(&image);
        restore_refused(__LINE__, image.at, image.n, 24);
    }
    for (size_t sort = 0; sort < 4; sort++)
        EXPECT(made[PLAIN_BID][sort] > 100 && made[PLAIN_ASK][sort] > 100, "the times that made rows have");
}

void test_generators(void)
{
    true_sessions();
    spoilt_quotes(DAMAGE_NOT_TRADING);
    spoilt_quotes(DAMAGE_UNTRADABLE);
    damaged_sessions();
    made_messages();
    made_readers();
    made_quotes();
    made_timed();
    made_images();
    made_times();
}
