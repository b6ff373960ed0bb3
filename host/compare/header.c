/* Tests what nelqubat.h itself does and says: every constant against the
 * library's answers or plain.h, every helper against the plain reader's fields
 * on memory that the library filled. */
#include "nelqubat.h"

#include "generate.h"
#include "parts.h"

#include <stdio.h>
#include <stdlib.h>
#include <string.h>

static unsigned long checks;

static void equal_at(int line, uint64_t got, uint64_t wanted)
{
    checks++;
    if (got == wanted)
        return;
    fprintf(stderr, "header: line %d: got %llu, wanted %llu\n", line, (unsigned long long)got,
            (unsigned long long)wanted);
    exit(1);
}

#define EQUAL(got, wanted) equal_at(__LINE__, (uint64_t)(got), (uint64_t)(wanted))
#define SAME(a, b, n) EQUAL(memcmp((a), (b), (n)), 0)
#define LITERAL(text) (const uint8_t *)(text), sizeof(text) - 1

/* The library's memory, and the plain reader's. */
static uint8_t handle[NELQUBAT_HANDLE_BYTES], table[NELQUBAT_TABLE_BYTES], id_index[NELQUBAT_INDEX_BYTES];
static uint8_t event[NELQUBAT_RECORD_BYTES], record[NELQUBAT_RECORD_BYTES];
static uint8_t image[NELQUBAT_IMAGE_BYTES + NELQUBAT_BLOCK_BYTES], moved[NELQUBAT_IMAGE_BYTES];
static struct plain_reader reader;
static uint8_t plain_table[PLAIN_TABLE_BYTES], plain_index[PLAIN_INDEX_BYTES];

static void start_both(void)
{
    EQUAL(nelqubat_start(handle, sizeof handle, table, sizeof table, id_index, sizeof id_index), NELQUBAT_DONE);
    EQUAL(plain_start(&reader, plain_table, sizeof plain_table, plain_index, sizeof plain_index), 0);
}

static uint32_t step(const uint8_t *piece, size_t n)
{
    return nelqubat_step(handle, sizeof handle, table, sizeof table, id_index, sizeof id_index, piece, n,
                         event, sizeof event);
}

static uint64_t run(size_t handle_n, const uint8_t *piece, size_t n, uint32_t ceiling)
{
    return nelqubat_run(handle, handle_n, table, sizeof table, id_index, sizeof id_index, piece, n, ceiling);
}

static uint32_t restore(size_t n)
{
    return nelqubat_restore(handle, sizeof handle, table, sizeof table, id_index, sizeof id_index, image, n);
}

/* Sizes: those of the documents, those that the library states, and those of plain.h. */

static void test_written_sizes(void)
{
    EQUAL(NELQUBAT_VERSION, 6);
    EQUAL(NELQUBAT_MAX_ROWS, 500);
    EQUAL(NELQUBAT_ROW_BYTES, 124);
    EQUAL(NELQUBAT_TABLE_BYTES, 62000);
    EQUAL(NELQUBAT_INDEX_BYTES, 1000);
    EQUAL(NELQUBAT_BLOCK_BYTES, 512);
    EQUAL(NELQUBAT_BLOCK_ROWS, 4);
    EQUAL(NELQUBAT_MAX_BLOCKS, 126);
    EQUAL(NELQUBAT_IMAGE_BYTES, 64512);
}

static void test_sizes(void)
{
    EQUAL(nelqubat_is_version(), 1);
    EQUAL(NELQUBAT_HANDLE_BYTES, nelqubat_handle_size());
    EQUAL(NELQUBAT_TABLE_BYTES, nelqubat_table_size());
    EQUAL(NELQUBAT_INDEX_BYTES, nelqubat_index_size());
    EQUAL(NELQUBAT_RECORD_BYTES, nelqubat_record_size());
    EQUAL(NELQUBAT_ROW_BYTES, PLAIN_ROW_BYTES);
    EQUAL(NELQUBAT_MAX_ROWS, PLAIN_MAX_ROWS);
    EQUAL(NELQUBAT_TABLE_BYTES, PLAIN_TABLE_BYTES);
    EQUAL(NELQUBAT_INDEX_BYTES, PLAIN_INDEX_BYTES);
    EQUAL(NELQUBAT_BLOCK_BYTES, PLAIN_BLOCK_BYTES);
    EQUAL(NELQUBAT_MAX_BLOCKS, PLAIN_MAX_BLOCKS);
    EQUAL(NELQUBAT_IMAGE_BYTES, PLAIN_IMAGE_BYTES);
    EQUAL(NELQUBAT_MESSAGE_BYTES, PLAIN_MESSAGE_BYTES);
    EQUAL(NELQUBAT_PACKET_BYTES, PLAIN_PACKET_BYTES);
    EQUAL(NELQUBAT_SESSION_BYTES, PLAIN_SESSION_BYTES);
    EQUAL(NELQUBAT_LINE_BYTES, 80);
    EQUAL(NELQUBAT_STACK_BYTES, 4096);
    EQUAL(NELQUBAT_MAX_PACKETS, PLAIN_MAX_PACKETS);
}

/* Numbers, answers and records. */

static void test_numbers(void)
{
    struct dice d = dice_seeded(1);
    for (size_t width = 1; width <= 8; width++) {
        uint8_t ours[10], theirs[10];
        uint64_t v = dice_next(&d);
        memset(ours, 0xAA, sizeof ours);
        memset(theirs, 0xAA, sizeof theirs);
        nelqubat_set(ours + 1, width, v);
        set_number(theirs + 1, width, v);
        SAME(ours, theirs, sizeof ours);
        EQUAL(nelqubat_get(ours + 1, width), get_number(ours + 1, width));
    }
}

static void same_long(struct nelqubat_side s, const struct plain_long_side *p)
{
    EQUAL(s.market, p->market);
    EQUAL(s.price, p->price);
    EQUAL(s.price_on_wire, p->price);
    EQUAL(s.size, p->size);
    EQUAL(s.customer, p->customer);
    EQUAL(s.professional, p->professional);
}

static void same_short(struct nelqubat_side s, const struct plain_short_side *p)
{
    EQUAL(s.market, p->market);
    EQUAL(s.price, p->price * UINT32_C(100));
    EQUAL(s.price_on_wire, p->price);
    EQUAL(s.size, p->size);
    EQUAL(s.customer, p->customer);
    EQUAL(s.professional, p->professional);
}

static uint8_t one_letter(enum plain_which which, const char *letters)
{
    return (uint8_t)letters[which == PLAIN_BID ? 0 : 1];
}

static void same_one_short(const uint8_t *r, const struct plain_one_short *p)
{
    EQUAL(nelqubat_record_letter(r), one_letter(p->which, "ba"));
    EQUAL(nelqubat_record_code(r), p->condition);
    same_short(p->which == PLAIN_BID ? nelqubat_record_bid(r) : nelqubat_record_ask(r), &p->side);
}

static void same_one_long(const uint8_t *r, const struct plain_one_long *p)
{
    EQUAL(nelqubat_record_letter(r), one_letter(p->which, "BA"));
    EQUAL(nelqubat_record_code(r), p->condition);
    same_long(p->which == PLAIN_BID ? nelqubat_record_bid(r) : nelqubat_record_ask(r), &p->side);
}

static void same_directory(const uint8_t *r, const struct plain_message *m)
{
    EQUAL(nelqubat_record_letter(r), 'm');
    EQUAL(nelqubat_record_strike(r), m->directory.strike);
    EQUAL(nelqubat_record_year(r), m->directory.year);
    EQUAL(nelqubat_record_month(r), m->directory.month);
    EQUAL(nelqubat_record_day(r), m->directory.day);
    EQUAL(nelqubat_record_type(r), m->directory.type);
    EQUAL(nelqubat_record_closing(r), m->directory.closing);
    EQUAL(nelqubat_record_tradable(r), m->directory.tradable);
    EQUAL(nelqubat_record_variation(r), m->directory.variation);
    SAME(nelqubat_record_symbol(r), m->symbol, sizeof m->symbol);
    SAME(nelqubat_record_underlying(r), m->underlying, sizeof m->underlying);
    SAME(nelqubat_record_reserved(r), m->reserved, sizeof m->reserved);
}

static void same_quote(const uint8_t *r, const struct plain_message *m)
{
    if (m->kind == PLAIN_BOTH_SHORT) {
        EQUAL(nelqubat_record_letter(r), 'q');
        EQUAL(nelqubat_record_code(r), m->both_short.condition);
        same_short(nelqubat_record_bid(r), &m->both_short.bid);
        same_short(nelqubat_record_ask(r), &m->both_short.ask);
    } else if (m->kind == PLAIN_BOTH_LONG) {
        EQUAL(nelqubat_record_letter(r), 'Q');
        EQUAL(nelqubat_record_code(r), m->both_long.condition);
        same_long(nelqubat_record_bid(r), &m->both_long.bid);
        same_long(nelqubat_record_ask(r), &m->both_long.ask);
    } else if (m->kind == PLAIN_ONE_SHORT) {
        same_one_short(r, &m->one_short);
    } else {
        same_one_long(r, &m->one_long);
    }
}

/* A message's side: whether it sets it, and its price in ten-thousandths. */
struct quoted {
    bool is_set;
    uint32_t price;
};

static struct quoted in_pennies(const struct plain_short_side *s)
{
    return (struct quoted){true, s->price * UINT32_C(100)};
}

static struct quoted in_parts(const struct plain_long_side *s)
{
    return (struct quoted){true, s->price};
}

static struct quoted side_of(const struct plain_message *m, enum plain_which which)
{
    const struct quoted not_set = {false, 0};
    switch (m->kind) {
    case PLAIN_BOTH_SHORT:
        return in_pennies(which == PLAIN_BID ? &m->both_short.bid : &m->both_short.ask);
    case PLAIN_BOTH_LONG:
        return in_parts(which == PLAIN_BID ? &m->both_long.bid : &m->both_long.ask);
    case PLAIN_ONE_SHORT:
        return m->one_short.which == which ? in_pennies(&m->one_short.side) : not_set;
    case PLAIN_ONE_LONG:
        return m->one_long.which == which ? in_parts(&m->one_long.side) : not_set;
    default:
        return not_set;
    }
}

static void same_prices(const uint8_t *r, struct quoted bid, struct quoted ask)
{
    EQUAL(nelqubat_record_quotes_bid(r), bid.is_set);
    EQUAL(nelqubat_record_quotes_ask(r), ask.is_set);
    EQUAL(nelqubat_record_bid_price(r), bid.price);
    EQUAL(nelqubat_record_ask_price(r), ask.price);
    EQUAL(nelqubat_record_has_bid(r), bid.price != 0);
    EQUAL(nelqubat_record_has_ask(r), ask.price != 0);
}

/* A record that the library made, and the plain reader's message. */
static void same_message(const uint8_t *r, const struct plain_message *m)
{
    EQUAL(nelqubat_record_tracking(r), m->tracking);
    EQUAL(nelqubat_record_id(r), m->id);
    EQUAL(nelqubat_record_time(r), m->time);
    EQUAL(nelqubat_record_number(r), m->kind == PLAIN_REPLAY_END ? m->number : 0);
    same_prices(r, side_of(m, PLAIN_BID), side_of(m, PLAIN_ASK));
    if (m->kind == PLAIN_SYSTEM_EVENT) {
        EQUAL(nelqubat_record_letter(r), 'S');
        EQUAL(nelqubat_record_code(r), m->code);
    } else if (m->kind == PLAIN_STATE) {
        EQUAL(nelqubat_record_letter(r), 'H');
        EQUAL(nelqubat_record_code(r), m->state);
    } else if (m->kind == PLAIN_REPLAY_END) {
        EQUAL(nelqubat_record_letter(r), 'M');
    } else if (m->kind == PLAIN_DIRECTORY) {
        same_directory(r, m);
    } else {
        same_quote(r, m);
    }
}

static void test_records(void)
{
    struct dice d = dice_seeded(2);
    for (unsigned i = 0; i < 2000; i++) {
        uint8_t bytes[PLAIN_MESSAGE_BYTES], out[NELQUBAT_MESSAGE_BYTES];
        struct plain_message m;
        size_t n;
        uint32_t answer;
        make_any_message(&d, &m);
        EQUAL(plain_write(&m, bytes, sizeof bytes, &n), 0);
        EQUAL(nelqubat_read(bytes, n, record, sizeof record), NELQUBAT_DONE);
        same_message(record, &m);
        answer = nelqubat_write(record, sizeof record, out, sizeof out);
        EQUAL(nelqubat_refusal(answer), NELQUBAT_DONE);
        EQUAL(nelqubat_written(answer), n);
    }
}

/* Prices none, 1 and others in bytes with any letter, whether they are a record or
 * not: a side that the letter does not set has none, whatever stands there. */
static void test_record_prices(void)
{
    static const uint32_t prices[] = {0, 1, 0xFFFF, 0x7FFFFFFF};
    memset(record, 0xFF, sizeof record);
    for (unsigned i = 0; i < 256 * 16; i++) {
        uint8_t letter = (uint8_t)(i / 16);
        uint32_t bid = prices[i / 4 % 4], ask = prices[i % 4];
        uint32_t unit = letter != 0 && strchr("qba", letter) ? 100 : 1;
        struct quoted b = {letter != 0 && strchr("qQbB", letter), 0};
        struct quoted a = {letter != 0 && strchr("qQaA", letter), 0};
        record[NELQUBAT_RECORD_LETTER] = letter;
        set_number(record + NELQUBAT_RECORD_BID + 4, 4, bid);
        set_number(record + NELQUBAT_RECORD_ASK + 4, 4, ask);
        b.price = b.is_set ? bid * unit : 0;
        a.price = a.is_set ? ask * unit : 0;
        same_prices(record, b, a);
        EQUAL(nelqubat_price_at(record + NELQUBAT_RECORD_BID, unit), bid * unit);
        EQUAL(nelqubat_record_bid(record).price, bid * unit);
        EQUAL(nelqubat_record_ask(record).price, ask * unit);
    }
}

/* Rows, handles and answers, over sessions. */

static void same_row_side(struct nelqubat_side s, const uint8_t *at)
{
    EQUAL(s.market, get_number(at, 4));
    EQUAL(s.price, get_number(at + 4, 4));
    EQUAL(s.price_on_wire, get_number(at + 4, 4));
    EQUAL(s.size, get_number(at + 8, 4));
    EQUAL(s.customer, get_number(at + 12, 4));
    EQUAL(s.professional, get_number(at + 16, 4));
}

/* A side as the listing has it, said by what the helpers answer. */
static const char *side_word(char *word, size_t room, int is_seen, int has_price, uint32_t price)
{
    if (!is_seen)
        return "-";
    if (!has_price)
        return "none";
    snprintf(word, room, "%lu.%04lu", (unsigned long)price / 10000, (unsigned long)price % 10000);
    return word;
}

/* The plain reader's listing of a table with this row alone has the words that the
 * helpers say, and a price is the row's number, 0 exactly where there is none. */
static void same_row_line(const uint8_t *row)
{
    static uint8_t alone[PLAIN_TABLE_BYTES];
    struct plain_reader r = {.next = 1, .rows = 1};
    char bid[16], ask[16], wanted[80], text[80];
    size_t n;
    memcpy(alone, row, PLAIN_ROW_BYTES);
    EQUAL(plain_listing(&r, alone, sizeof alone, text, sizeof text, &n), 0);
    snprintf(wanted, sizeof wanted, "next 1\n%lu %c %s %s\nok\n", (unsigned long)nelqubat_row_id(row),
             nelqubat_row_state(row) == 0 ? '-' : nelqubat_row_state(row),
             side_word(bid, sizeof bid, nelqubat_row_seen_bid(row), nelqubat_row_has_bid(row),
                       nelqubat_row_bid_price(row)),
             side_word(ask, sizeof ask, nelqubat_row_seen_ask(row), nelqubat_row_has_ask(row),
                       nelqubat_row_ask_price(row)));
    EQUAL(n, strlen(wanted));
    SAME(text, wanted, n);
    EQUAL(nelqubat_row_bid_price(row), nelqubat_row_seen_bid(row) ? get_number(row + ROW_BID + 4, 4) : 0);
    EQUAL(nelqubat_row_ask_price(row), nelqubat_row_seen_ask(row) ? get_number(row + ROW_ASK + 4, 4) : 0);
    EQUAL(nelqubat_row_has_bid(row), nelqubat_row_bid_price(row) != 0);
    EQUAL(nelqubat_row_has_ask(row), nelqubat_row_ask_price(row) != 0);
}

/* Any sides seen, with prices none, 1, the highest and beyond. */
static void test_row_prices(void)
{
    static const uint32_t prices[] = {0, 1, 0x7FFFFFFF, 0xFFFFFFFF};
    uint8_t row[PLAIN_ROW_BYTES];
    memset(row, 'T', sizeof row);
    for (unsigned i = 0; i < 256 * 16; i++) {
        row[ROW_SIDES] = (uint8_t)(i / 16);
        set_number(row + ROW_BID + 4, 4, prices[i / 4 % 4]);
        set_number(row + ROW_ASK + 4, 4, prices[i % 4]);
        same_row_line(row);
    }
}

/* Where the times of the sides stand, and what the helpers say of them: the number, and
 * whether the side was seen and the number is a time. */
static void same_times(const uint8_t *row)
{
    uint64_t bid = get_number(row + 106, 8), ask = get_number(row + 114, 8);
    EQUAL(nelqubat_row_bid_time(row), bid);
    EQUAL(nelqubat_row_ask_time(row), ask);
    EQUAL(nelqubat_row_knows_bid_time(row), row[54] % 2 == 1 && bid != PLAIN_UNKNOWN_TIME);
    EQUAL(nelqubat_row_knows_ask_time(row), row[54] / 2 % 2 == 1 && ask != PLAIN_UNKNOWN_TIME);
}

/* Any sides seen, with times 0, 1, the last of a day, unknown and beside it. */
static void test_row_times(void)
{
    static const uint64_t times[] = {0, 1, PLAIN_MAX_TIME, UINT64_MAX, UINT64_MAX - 1, UINT64_MAX >> 1};
    uint8_t row[PLAIN_ROW_BYTES];
    EQUAL(NELQUBAT_ROW_BID_TIME, 106);
    EQUAL(NELQUBAT_ROW_ASK_TIME, 114);
    EQUAL(NELQUBAT_TIME_UNKNOWN, UINT64_MAX);
    memset(row, 0xAA, sizeof row);
    for (unsigned i = 0; i < 256 * 36; i++) {
        row[ROW_SIDES] = (uint8_t)(i / 36);
        set_number(row + 106, 8, times[i / 6 % 6]);
        set_number(row + 114, 8, times[i % 6]);
        same_times(row);
    }
}

/* The three that a side can be, each told from the others: in the order of the bid
 * and the ask, never quoted, at an unknown time, at a known one. */
static void sides_are(const uint8_t *row, const char *words)
{
    char bid = !nelqubat_row_seen_bid(row) ? '-' : nelqubat_row_knows_bid_time(row) ? 'k' : '?';
    char ask = !nelqubat_row_seen_ask(row) ? '-' : nelqubat_row_knows_ask_time(row) ? 'k' : '?';
    EQUAL(bid, words[0]);
    EQUAL(ask, words[1]);
}

static void same_row(const uint8_t *row, const uint8_t *plain)
{
    EQUAL(nelqubat_row_id(row), get_number(plain + ROW_ID, 4));
    SAME(nelqubat_row_symbol(row), plain + ROW_SYMBOL, 8);
    EQUAL(nelqubat_row_year(row), plain[ROW_YEAR]);
    EQUAL(nelqubat_row_month(row), plain[ROW_MONTH]);
    EQUAL(nelqubat_row_day(row), plain[ROW_DAY]);
    EQUAL(nelqubat_row_strike(row), get_number(plain + ROW_STRIKE, 4));
    EQUAL(nelqubat_row_type(row), plain[ROW_TYPE]);
    SAME(nelqubat_row_underlying(row), plain + ROW_UNDERLYING, 13);
    EQUAL(nelqubat_row_closing(row), plain[ROW_CLOSING]);
    EQUAL(nelqubat_row_tradable(row), plain[ROW_TRADABLE]);
    EQUAL(nelqubat_row_variation(row), plain[ROW_VARIATION]);
    SAME(nelqubat_row_reserved(row), plain + ROW_RESERVED, 16);
    EQUAL(nelqubat_row_state(row), plain[ROW_STATE]);
    EQUAL(nelqubat_row_condition(row), plain[ROW_CONDITION]);
    EQUAL(nelqubat_row_seen_bid(row), plain[ROW_SIDES] % 2 == 1);
    EQUAL(nelqubat_row_seen_ask(row), plain[ROW_SIDES] / 2 == 1);
    same_row_line(row);
    same_row_side(nelqubat_row_bid(row), plain + ROW_BID);
    same_row_side(nelqubat_row_ask(row), plain + ROW_ASK);
    EQUAL(nelqubat_row_tracking(row), get_number(plain + ROW_TRACKING, 2));
    EQUAL(nelqubat_row_time(row), get_number(plain + ROW_TIME, 8));
    same_times(row);
    SAME(row + NELQUBAT_ROW_BID_TIME, plain + 106, 16);
}

static void same_handle_and_index(void)
{
    EQUAL(nelqubat_handle_next(handle), reader.next);
    EQUAL(nelqubat_handle_live(handle), reader.live);
    EQUAL(nelqubat_handle_rows(handle), reader.rows);
    EQUAL(nelqubat_handle_held(handle), reader.used);
    SAME(nelqubat_handle_session(handle), reader.session, sizeof reader.session);
    EQUAL(nelqubat_handle_known(handle), reader.known);
    EQUAL(nelqubat_handle_logged_in(handle), reader.logged_in);
    EQUAL(nelqubat_handle_ended(handle), reader.ended);
    EQUAL(nelqubat_handle_refusal(handle), reader.refusal);
    EQUAL(nelqubat_handle_event(handle), reader.event);
    SAME(nelqubat_handle_packet(handle), reader.held, reader.used);
    SAME(id_index, plain_index, sizeof id_index);
}

static unsigned kind_of(const struct plain_answer *a)
{
    static const unsigned events[] = {
        [PLAIN_MESSAGE] = NELQUBAT_MESSAGE, [PLAIN_ACCEPTED] = NELQUBAT_LOGIN,
        [PLAIN_REJECTED] = NELQUBAT_REJECTED, [PLAIN_HEARTBEAT] = NELQUBAT_HEARTBEAT,
        [PLAIN_SESSION_END] = NELQUBAT_END, [PLAIN_SKIPPED] = NELQUBAT_SKIPPED};
    if (a->kind == PLAIN_EVENT)
        return events[a->event];
    return a->kind == PLAIN_MORE ? NELQUBAT_MORE : a->kind == PLAIN_ENDED ? NELQUBAT_ENDED : NELQUBAT_REFUSED;
}

static void same_answer(uint32_t answer, const struct plain_answer *a)
{
    EQUAL(nelqubat_kind(answer), kind_of(a));
    EQUAL(nelqubat_taken(answer), a->taken);
    EQUAL(nelqubat_refusal(answer), a->refusal);
    EQUAL(nelqubat_is_event(answer), a->kind == PLAIN_EVENT);
    if (a->kind != PLAIN_EVENT)
        return;
    if (a->event == PLAIN_MESSAGE)
        same_message(event, &a->message);
    if (a->event == PLAIN_REJECTED)
        EQUAL(nelqubat_rejected_reason(event), a->reason);
    if (a->event != PLAIN_ACCEPTED)
        return;
    EQUAL(nelqubat_login_number(event), reader.next);
    SAME(nelqubat_login_session(event), a->session, sizeof a->session);
}

static void step_both(const uint8_t *bytes, size_t n)
{
    struct plain_answer a;
    do {
        uint32_t answer = step(bytes, n);
        plain_step(&reader, plain_table, sizeof plain_table, plain_index, sizeof plain_index, bytes, n, &a);
        same_answer(answer, &a);
        same_handle_and_index();
        bytes += a.taken;
        n -= a.taken;
    } while (a.kind == PLAIN_EVENT);
}

/* The parts of a run's answer, each at its own place. */
static void test_run_parts(void)
{
    uint64_t parts = UINT64_C(0x0403020103E8091B);
    EQUAL(nelqubat_run_refusal(parts), NELQUBAT_REFUSED_CEILING);
    EQUAL(nelqubat_run_why(parts), NELQUBAT_CEILING);
    EQUAL(nelqubat_run_finished(parts), NELQUBAT_MAX_PACKETS);
    EQUAL(nelqubat_run_taken(parts), 0x04030201);
    EQUAL(nelqubat_run_refusal(UINT64_MAX), 0xFF);
    EQUAL(nelqubat_run_why(UINT64_MAX), 0xFF);
    EQUAL(nelqubat_run_finished(UINT64_MAX), 0xFFFF);
    EQUAL(nelqubat_run_taken(UINT64_MAX), 0xFFFFFFFF);
}

static void same_run(uint64_t answer, const struct plain_ran *ran)
{
    static const unsigned whys[] = {
        [PLAIN_RAN_OUT] = NELQUBAT_MORE, [PLAIN_RAN_ENDED] = NELQUBAT_ENDED,
        [PLAIN_RAN_REFUSED] = NELQUBAT_REFUSED, [PLAIN_RAN_CEILING] = NELQUBAT_CEILING};
    EQUAL(nelqubat_run_refusal(answer), ran->refusal);
    EQUAL(nelqubat_run_why(answer), whys[ran->why]);
    EQUAL(nelqubat_run_finished(answer), ran->finished);
    EQUAL(nelqubat_run_taken(answer), ran->taken);
}

/* The header's own loop, on both. */
static void run_both(const uint8_t *bytes, size_t n, uint32_t ceiling)
{
    uint64_t answer;
    do {
        struct plain_ran ran = plain_run(&reader, plain_table, sizeof plain_table, plain_index,
                                         sizeof plain_index, bytes, n, ceiling);
        answer = run(sizeof handle, bytes, n, ceiling);
        same_run(answer, &ran);
        same_handle_and_index();
        bytes += ran.taken;
        n -= ran.taken;
    } while (nelqubat_run_why(answer) == NELQUBAT_CEILING);
}

/* What the session left, saved and restored: a session known, and no login. */
static void restore_both(void)
{
    uint32_t answer = nelqubat_save(handle, sizeof handle, table, sizeof table, image, sizeof image);
    size_t n;
    EQUAL(plain_save(&reader, plain_table, sizeof plain_table, image, sizeof image, &n), 0);
    EQUAL(nelqubat_written(answer), n);
    EQUAL(restore(n), NELQUBAT_DONE);
    EQUAL(plain_restore(&reader, plain_table, sizeof plain_table, plain_index, sizeof plain_index, image, n), 0);
    same_handle_and_index();
}

/* Each row is found by its id, which no other row of a session has. */
static void find_rows(void)
{
    uint32_t answer;
    for (size_t k = 0; k < reader.rows; k++) {
        answer = nelqubat_find(handle, sizeof handle, table, sizeof table, id_index, sizeof id_index,
                               (uint32_t)get_number(plain_table + k * PLAIN_ROW_BYTES + ROW_ID, 4));
        EQUAL(nelqubat_refusal(answer), NELQUBAT_DONE);
        EQUAL(nelqubat_found(answer), 1);
        EQUAL(nelqubat_found_at(answer), k);
        EQUAL(nelqubat_found_row(table, answer) == table + k * PLAIN_ROW_BYTES, 1);
    }
}

/* Nothing is found: no row has the id, or the call is refused. */
static void find_nothing(size_t index_n, uint32_t id, unsigned refusal)
{
    uint32_t answer = nelqubat_find(handle, sizeof handle, table, sizeof table, id_index, index_n, id);
    EQUAL(nelqubat_refusal(answer), refusal);
    EQUAL(nelqubat_found(answer), 0);
    EQUAL(nelqubat_found_row(table, answer) == NULL, 1);
}

static void test_sessions(void)
{
    static uint8_t space[1 << 17];
    for (uint64_t seed = 0; seed < 40; seed++) {
        struct dice d = dice_seeded(seed);
        struct session_plan plan = random_plan(&d);
        struct bytes s = {space, 0, sizeof space};
        plan.first = 1;
        plan.instruments = 1 + plan.instruments % 12;
        make_session(&d, &plan, &s);
        if (seed % 4 == 3)
            damage_session(&d, (enum session_damage)dice_below(&d, SESSION_DAMAGES), &s);
        start_both();
        step_both(s.at, dice_below(&d, s.n + 1));
        start_both();
        if (seed % 2 == 0)
            step_both(s.at, s.n);
        else
            run_both(s.at, s.n, (uint32_t)dice_between(&d, 1, 40));
        for (size_t k = 0; k < reader.rows; k++)
            same_row(nelqubat_row(table, k), plain_table + k * PLAIN_ROW_BYTES);
        find_rows();
        find_nothing(sizeof id_index, 0, NELQUBAT_DONE);
        find_nothing(sizeof id_index - 1, nelqubat_row_id(table), NELQUBAT_REFUSED_MEMORY);
        restore_both();
    }
    start_both();
    step_both(LITERAL("\x00\x02" "JA"));
    start_both();
    run_both(LITERAL("\x00\x01" "H" "\x00\x02" "JA"), 2);
}

/* Refusals: each one by its cause, with its number in document 01 and a word of
 * the phrase for it. */

#define LOGIN "\x00\x1F" "ASESSION001                   1"
#define HEAD "\x00\x01" "\x00\x00\x1F\x1A\xD6\x35\xBD\x15"
#define ID7 "\x00\x00\x00\x07"
#define FIELDS "IBM     " "\x1A\x0C\x12" "\x00\x0F\x42\x40" "CIBM          NYS                "
#define DIRECTORY "\x00\x40" "Sm" HEAD ID7 FIELDS
#define TRADING "\x00\x11" "SH" HEAD ID7 "T"
#define BID "\x00\x1B" "Sb" HEAD ID7 " " "\0\1\0\1\0\1\0\1\0\1"
#define ASK "\x00\x1B" "Sa" HEAD ID7 " " "\0\1\0\1\0\1\0\1\0\1"

static void refused(unsigned got, unsigned constant, unsigned number, const char *word)
{
    EQUAL(got, number);
    EQUAL(constant, number);
    EQUAL(strstr(nelqubat_refusal_name(number), word) != NULL, 1);
}

static unsigned packets(const uint8_t *bytes, size_t n)
{
    uint32_t answer;
    nelqubat_start(handle, sizeof handle, table, sizeof table, id_index, sizeof id_index);
    do {
        answer = step(bytes, n);
        bytes += nelqubat_taken(answer);
        n -= nelqubat_taken(answer);
    } while (nelqubat_is_event(answer));
    return nelqubat_refusal(answer);
}

static void test_packet_refusals(void)
{
    refused(packets(LITERAL("\x00\x00")), NELQUBAT_REFUSED_LENGTH, 1, "length");
    refused(packets(LITERAL("\x00\x01" "X")), NELQUBAT_REFUSED_LETTER, 2, "packet letter");
    refused(packets(LITERAL("\x00\x01" "Z")), NELQUBAT_REFUSED_PLACE, 3, "place");
    refused(packets(LITERAL("\x00\x01" "J")), NELQUBAT_REFUSED_FORM, 4, "form");
    refused(packets(LITERAL("\x00\x1F" "ASESSION001                   2")), NELQUBAT_REFUSED_LOGIN, 5, "login");
    packets(LITERAL(LOGIN));
    nelqubat_set(handle + NELQUBAT_HANDLE_NEXT, 8, PLAIN_MAX_NUMBER);
    refused(nelqubat_refusal(step(LITERAL("\x00\x01" "S"))), NELQUBAT_REFUSED_NUMBERS, 6, "number is left");
    refused(packets(LITERAL(LOGIN "\x00\x01" "S")), NELQUBAT_REFUSED_MESSAGE, 10, "message letter");
    refused(packets(LITERAL(LOGIN "\x00\x02" "SH")), NELQUBAT_REFUSED_MESSAGE_LENGTH, 11, "length");
    refused(packets(LITERAL(LOGIN "\x00\x11" "SH" HEAD ID7 "Z")), NELQUBAT_REFUSED_FIELD, 12, "field");
    refused(packets(LITERAL(LOGIN "\x00\x11" "SH" HEAD ID7 "T")), NELQUBAT_REFUSED_NO_ROW, 13, "no row");
    refused(packets(LITERAL(LOGIN DIRECTORY BID)), NELQUBAT_REFUSED_NOT_TRADING, 14, "not trade");
    refused(packets(LITERAL(LOGIN DIRECTORY "\x00\x40" "Sm" HEAD ID7 "IBN     " "\x1A\x0C\x12" "\x00\x0F\x42\x40"
                            "CIBM          NYS                ")), NELQUBAT_REFUSED_FIXED_FIELD, 15, "fixed field");
}

/* So much was written, with this version in the first and in the last block. */
static void written_as(uint32_t answer, const uint8_t *out, size_t n, unsigned version)
{
    EQUAL(nelqubat_refusal(answer), NELQUBAT_DONE);
    EQUAL(nelqubat_written(answer), n);
    EQUAL(nelqubat_get(out + 4, 2), version);
    EQUAL(nelqubat_get(out + n - NELQUBAT_BLOCK_BYTES + 4, 2), version);
}

/* The table as it is, saved: as many blocks as its rows need, in version 3; moved back,
 * in the version that fits the rows; and forward again, which gives the same bytes, as
 * no side was seen. */
static void saved_by_rows(size_t rows)
{
    size_t blocks = 1 + (rows + NELQUBAT_BLOCK_ROWS - 1) / NELQUBAT_BLOCK_ROWS;
    size_t n = blocks * NELQUBAT_BLOCK_BYTES;
    uint32_t answer = nelqubat_save(handle, sizeof handle, table, sizeof table, image, n);
    written_as(answer, image, n, 3);
    answer = nelqubat_back(image, n, moved, n);
    written_as(answer, moved, n, rows <= 256 ? 1 : 2);
    memset(image, 0x55, n);
    answer = nelqubat_forward(moved, n, image, n);
    written_as(answer, image, n, 3);
    EQUAL(nelqubat_written(nelqubat_save(handle, sizeof handle, table, sizeof table, moved, n)), n);
    SAME(image, moved, n);
}

static void test_full_table(void)
{
    uint8_t packet[] = DIRECTORY;
    packets(LITERAL(LOGIN));
    for (size_t k = 0; k < NELQUBAT_MAX_ROWS; k++) {
        saved_by_rows(k);
        set_number(packet + 14, 4, 100 + k);
        EQUAL(nelqubat_refusal(step(packet, sizeof packet - 1)), NELQUBAT_DONE);
        EQUAL(nelqubat_handle_rows(handle), k + 1);
    }
    set_number(packet + 14, 4, 99);
    refused(nelqubat_refusal(step(packet, sizeof packet - 1)), NELQUBAT_REFUSED_FULL, 16, "full");
    EQUAL(nelqubat_handle_rows(handle), NELQUBAT_MAX_ROWS);
    saved_by_rows(NELQUBAT_MAX_ROWS);
    EQUAL(restore(NELQUBAT_IMAGE_BYTES), NELQUBAT_DONE);
    EQUAL(restore(NELQUBAT_IMAGE_BYTES + NELQUBAT_BLOCK_BYTES), NELQUBAT_REFUSED_IMAGE_LENGTH);
}

static void test_call_refusals(void)
{
    struct bytes sealed = {image, NELQUBAT_BLOCK_BYTES, sizeof image};
    uint32_t answer;
    answer = nelqubat_start(handle, sizeof handle - 1, table, sizeof table, id_index, sizeof id_index);
    refused(nelqubat_refusal(answer), NELQUBAT_REFUSED_MEMORY, 20, "memory");
    start_both();
    answer = nelqubat_save(handle, sizeof handle, table, sizeof table, image, sizeof image);
    EQUAL(nelqubat_written(answer), NELQUBAT_BLOCK_BYTES);
    refused(nelqubat_refusal(restore(1)), NELQUBAT_REFUSED_IMAGE_LENGTH, 21, "length");
    image[100] = 1;
    refused(nelqubat_refusal(restore(sealed.n)), NELQUBAT_REFUSED_CHECK, 22, "check");
    image[1] = 1;
    seal_image(&sealed);
    refused(nelqubat_refusal(restore(sealed.n)), NELQUBAT_REFUSED_HEAD, 23, "head");
    image[1] = 0;
    image[5] = 2; /* the version of more than 256 rows, and there are none */
    seal_image(&sealed);
    refused(nelqubat_refusal(restore(sealed.n)), NELQUBAT_REFUSED_HEAD, 23, "version");
    image[5] = 3;
    seal_image(&sealed);
    refused(nelqubat_refusal(restore(sealed.n)), NELQUBAT_REFUSED_CONTENTS, 24, "contents");
    answer = nelqubat_save(handle, sizeof handle, table, sizeof table, image, 511);
    refused(nelqubat_refusal(answer), NELQUBAT_REFUSED_SHORT, 25, "too short");
    memset(record, 0, sizeof record);
    answer = nelqubat_write(record, sizeof record, image, sizeof image);
    refused(nelqubat_refusal(answer), NELQUBAT_REFUSED_RECORD, 26, "record");
}

/* A move that is refused, which leaves the output as it was. */
static void not_moved(uint32_t answer, unsigned constant, unsigned number, const char *word)
{
    refused(nelqubat_refusal(answer), constant, number, word);
    EQUAL(nelqubat_written(answer), 0);
    for (size_t i = 0; i < sizeof moved; i++)
        EQUAL(moved[i], 0x55);
}

/* A row with a bid, saved, and each refusal of the two moves. */
static void test_move_refusals(void)
{
    enum { TWO = 2 * NELQUBAT_BLOCK_BYTES };
    struct bytes sealed = {image, TWO, sizeof image};
    packets(LITERAL(LOGIN DIRECTORY TRADING BID));
    EQUAL(nelqubat_written(nelqubat_save(handle, sizeof handle, table, sizeof table, image, sizeof image)), TWO);
    memset(moved, 0x55, sizeof moved);
    not_moved(nelqubat_back(image, TWO - 1, moved, sizeof moved), NELQUBAT_REFUSED_IMAGE_LENGTH, 21, "length");
    not_moved(nelqubat_forward(image, 0, moved, sizeof moved), NELQUBAT_REFUSED_IMAGE_LENGTH, 21, "length");
    not_moved(nelqubat_forward(image, TWO, moved, sizeof moved), NELQUBAT_REFUSED_HEAD, 23, "version");
    not_moved(nelqubat_back(image, TWO, moved, TWO - 1), NELQUBAT_REFUSED_SHORT, 25, "too short");
    image[5] = image[NELQUBAT_BLOCK_BYTES + 5] = 1;
    not_moved(nelqubat_back(image, TWO, moved, sizeof moved), NELQUBAT_REFUSED_CHECK, 22, "check");
    not_moved(nelqubat_forward(image, TWO, moved, sizeof moved), NELQUBAT_REFUSED_CHECK, 22, "check");
    seal_image(&sealed);
    not_moved(nelqubat_back(image, TWO, moved, sizeof moved), NELQUBAT_REFUSED_HEAD, 23, "version");
    not_moved(nelqubat_forward(image, TWO, moved, 0), NELQUBAT_REFUSED_CONTENTS, 24, "rules of the version");
}

/* The three that a side can be, over a save, a move back and a restore. */
static void test_sides_told_apart(void)
{
    size_t n;
    packets(LITERAL(LOGIN DIRECTORY TRADING));
    sides_are(table, "--");
    packets(LITERAL(LOGIN DIRECTORY TRADING BID));
    sides_are(table, "k-");
    EQUAL(nelqubat_row_bid_time(table), UINT64_C(34200123456789));
    n = nelqubat_written(nelqubat_save(handle, sizeof handle, table, sizeof table, image, sizeof image));
    EQUAL(restore(n), NELQUBAT_DONE);
    sides_are(table, "k-");
    EQUAL(nelqubat_written(nelqubat_back(image, n, moved, sizeof moved)), n);
    memcpy(image, moved, n);
    EQUAL(restore(n), NELQUBAT_DONE);
    sides_are(table, "?-");
    EQUAL(nelqubat_row_bid_time(table), NELQUBAT_TIME_UNKNOWN);
    EQUAL(nelqubat_row_ask_time(table), 0);
    EQUAL(nelqubat_kind(step(LITERAL("\x00\x1F" "ASESSION001                   4"))), NELQUBAT_LOGIN);
    EQUAL(nelqubat_kind(step(LITERAL(ASK))), NELQUBAT_MESSAGE);
    sides_are(table, "?k");
    EQUAL(nelqubat_kind(step(LITERAL(BID))), NELQUBAT_MESSAGE);
    sides_are(table, "kk");
}

/* Refusals of a run: of the call, and of a packet, with the packets before it. */
static void test_run_refusals(void)
{
    uint64_t answer;
    packets(LITERAL(LOGIN));
    answer = run(sizeof handle, LITERAL(DIRECTORY BID), NELQUBAT_MAX_PACKETS + 1);
    refused(nelqubat_run_refusal(answer), NELQUBAT_REFUSED_CEILING, 27, "ceiling");
    EQUAL(answer, 27 + 256 * NELQUBAT_REFUSED);
    answer = run(sizeof handle - 1, LITERAL(DIRECTORY BID), UINT32_MAX);
    EQUAL(answer, NELQUBAT_REFUSED_MEMORY + 256 * NELQUBAT_REFUSED);
    answer = run(sizeof handle, LITERAL(DIRECTORY BID), NELQUBAT_MAX_PACKETS);
    EQUAL(nelqubat_run_refusal(answer), NELQUBAT_REFUSED_NOT_TRADING);
    EQUAL(nelqubat_run_why(answer), NELQUBAT_REFUSED);
    EQUAL(nelqubat_run_finished(answer), 1);
    EQUAL(nelqubat_run_taken(answer), sizeof DIRECTORY BID - 1);
    EQUAL(nelqubat_handle_rows(handle), 1);
}

/* A place that names no row in use: the call is refused, and once the index is
 * true the same packet is taken. */
static void test_false_index(void)
{
    uint64_t answer;
    packets(LITERAL(LOGIN DIRECTORY));
    id_index[1] = 1;
    find_nothing(sizeof id_index, 7, NELQUBAT_REFUSED_MEMORY);
    refused(nelqubat_refusal(step(LITERAL(DIRECTORY))), NELQUBAT_REFUSED_MEMORY, 20, "false index");
    answer = run(sizeof handle, LITERAL("\x00\x01" "H" DIRECTORY), 5);
    EQUAL(nelqubat_run_refusal(answer), NELQUBAT_REFUSED_MEMORY);
    EQUAL(nelqubat_run_why(answer), NELQUBAT_REFUSED);
    EQUAL(nelqubat_run_finished(answer), 1);
    EQUAL(nelqubat_run_taken(answer), 3);
    EQUAL(nelqubat_handle_refusal(handle), NELQUBAT_DONE);
    id_index[1] = 0;
    EQUAL(nelqubat_kind(step(LITERAL(DIRECTORY))), NELQUBAT_MESSAGE);
}

static void test_names(void)
{
    const char *none = "no refusal has this number";
    for (unsigned n = 0; n < 300; n++) {
        bool is_number = n <= 6 || (n >= 10 && n <= 16) || (n >= 20 && n <= 27);
        EQUAL(strcmp(nelqubat_refusal_name(n), none) != 0, is_number);
    }
    EQUAL(strcmp(nelqubat_refusal_name(NELQUBAT_DONE), "done"), 0);
}

int main(void)
{
    test_written_sizes();
    test_sizes();
    test_numbers();
    test_records();
    test_record_prices();
    test_row_prices();
    test_row_times();
    test_run_parts();
    test_sessions();
    test_packet_refusals();
    test_full_table();
    test_call_refusals();
    test_move_refusals();
    test_sides_told_apart();
    test_run_refusals();
    test_false_index();
    test_names();
    printf("header: all %lu checks hold\n", checks);
    return fflush(stdout) == 0 ? 0 : 1;
}
