#include "oracle.h"

#include "nelqubat.h"

#include <string.h>

/* Handles. */

static void pack_fields(const struct plain_reader *r, uint8_t *handle)
{
    nelqubat_set(handle + NELQUBAT_HANDLE_NEXT, 8, r->next);
    nelqubat_set(handle + NELQUBAT_HANDLE_LIVE, 8, r->live);
    nelqubat_set(handle + NELQUBAT_HANDLE_ROWS, 8, r->rows);
    nelqubat_set(handle + NELQUBAT_HANDLE_HELD, 8, r->used);
    memcpy(handle + NELQUBAT_HANDLE_SESSION, r->session, PLAIN_SESSION_BYTES);
    handle[NELQUBAT_HANDLE_KNOWN] = r->known;
    handle[NELQUBAT_HANDLE_LOGGED_IN] = r->logged_in;
    handle[NELQUBAT_HANDLE_ENDED] = r->ended;
    handle[NELQUBAT_HANDLE_REFUSAL] = (uint8_t)r->refusal;
    handle[NELQUBAT_HANDLE_EVENT] = r->event;
}

void oracle_pack_handle(const struct plain_reader *r, uint8_t *handle)
{
    pack_fields(r, handle);
    memcpy(handle + NELQUBAT_HANDLE_PACKET, r->held, PLAIN_PACKET_BYTES);
}

/* The plain reader's counts are narrower: what is too large for any handle
 * stays too large. */
static uint32_t clamp(uint64_t v)
{
    return v > UINT32_MAX ? UINT32_MAX : (uint32_t)v;
}

/* A reader from a handle's bytes; false if they are no handle. */
static bool unpack_handle(const uint8_t *handle, size_t n, struct plain_reader *r)
{
    if (n != NELQUBAT_HANDLE_BYTES || handle[NELQUBAT_HANDLE_KNOWN] > 1 ||
        handle[NELQUBAT_HANDLE_LOGGED_IN] > 1 || handle[NELQUBAT_HANDLE_ENDED] > 1)
        return false;
    r->next = nelqubat_get(handle + NELQUBAT_HANDLE_NEXT, 8);
    r->live = nelqubat_get(handle + NELQUBAT_HANDLE_LIVE, 8);
    r->rows = clamp(nelqubat_get(handle + NELQUBAT_HANDLE_ROWS, 8));
    r->used = clamp(nelqubat_get(handle + NELQUBAT_HANDLE_HELD, 8));
    memcpy(r->session, handle + NELQUBAT_HANDLE_SESSION, PLAIN_SESSION_BYTES);
    r->known = handle[NELQUBAT_HANDLE_KNOWN] == 1;
    r->logged_in = handle[NELQUBAT_HANDLE_LOGGED_IN] == 1;
    r->ended = handle[NELQUBAT_HANDLE_ENDED] == 1;
    r->refusal = handle[NELQUBAT_HANDLE_REFUSAL];
    r->event = handle[NELQUBAT_HANDLE_EVENT];
    memcpy(r->held, handle + NELQUBAT_HANDLE_PACKET, PLAIN_PACKET_BYTES);
    return true;
}

/* Records. */

static void pack_long(const struct plain_long_side *s, uint8_t *at)
{
    nelqubat_set(at, 4, s->market);
    nelqubat_set(at + 4, 4, s->price);
    nelqubat_set(at + 8, 4, s->size);
    nelqubat_set(at + 12, 4, s->customer);
    nelqubat_set(at + 16, 4, s->professional);
}

static void pack_short(const struct plain_short_side *s, uint8_t *at)
{
    struct plain_long_side wide = {s->market, s->price, s->size, s->customer,
                                   s->professional};
    pack_long(&wide, at);
}

static size_t side_place(enum plain_which which)
{
    return which == PLAIN_BID ? NELQUBAT_RECORD_BID : NELQUBAT_RECORD_ASK;
}

static void pack_directory(const struct plain_message *m, uint8_t *record)
{
    nelqubat_set(record + NELQUBAT_RECORD_STRIKE, 4, m->directory.strike);
    record[NELQUBAT_RECORD_YEAR] = m->directory.year;
    record[NELQUBAT_RECORD_MONTH] = m->directory.month;
    record[NELQUBAT_RECORD_DAY] = m->directory.day;
    record[NELQUBAT_RECORD_TYPE] = m->directory.type;
    record[NELQUBAT_RECORD_CLOSING] = m->directory.closing;
    record[NELQUBAT_RECORD_TRADABLE] = m->directory.tradable;
    record[NELQUBAT_RECORD_VARIATION] = m->directory.variation;
    memcpy(record + NELQUBAT_RECORD_SYMBOL, m->symbol, sizeof m->symbol);
    memcpy(record + NELQUBAT_RECORD_UNDERLYING, m->underlying, sizeof m->underlying);
    memcpy(record + NELQUBAT_RECORD_RESERVED, m->reserved, sizeof m->reserved);
}

/* Packs a quote's condition and sides; its letter. */
static uint8_t pack_quote(const struct plain_message *m, uint8_t *record)
{
    switch (m->kind) {
    case PLAIN_BOTH_SHORT:
        record[NELQUBAT_RECORD_CODE] = m->both_short.condition;
        pack_short(&m->both_short.bid, record + NELQUBAT_RECORD_BID);
        pack_short(&m->both_short.ask, record + NELQUBAT_RECORD_ASK);
        return 'q';
    case PLAIN_BOTH_LONG:
        record[NELQUBAT_RECORD_CODE] = m->both_long.condition;
        pack_long(&m->both_long.bid, record + NELQUBAT_RECORD_BID);
        pack_long(&m->both_long.ask, record + NELQUBAT_RECORD_ASK);
        return 'Q';
    case PLAIN_ONE_SHORT:
        record[NELQUBAT_RECORD_CODE] = m->one_short.condition;
        pack_short(&m->one_short.side, record + side_place(m->one_short.which));
        return m->one_short.which == PLAIN_BID ? 'b' : 'a';
    default:
        record[NELQUBAT_RECORD_CODE] = m->one_long.condition;
        pack_long(&m->one_long.side, record + side_place(m->one_long.which));
        return m->one_long.which == PLAIN_BID ? 'B' : 'A';
    }
}

void oracle_pack_record(const struct plain_message *m, uint8_t *record)
{
    memset(record, 0, NELQUBAT_RECORD_BYTES);
    if (m->kind == PLAIN_REPLAY_END) {
        record[NELQUBAT_RECORD_LETTER] = 'M';
        nelqubat_set(record + NELQUBAT_RECORD_NUMBER, 8, m->number);
        return;
    }
    nelqubat_set(record + NELQUBAT_RECORD_TRACKING, 2, m->tracking);
    nelqubat_set(record + NELQUBAT_RECORD_TIME, 8, m->time);
    if (m->kind == PLAIN_SYSTEM_EVENT) {
        record[NELQUBAT_RECORD_LETTER] = 'S';
        record[NELQUBAT_RECORD_CODE] = m->code;
        return;
    }
    nelqubat_set(record + NELQUBAT_RECORD_ID, 4, m->id);
    if (m->kind == PLAIN_DIRECTORY) {
        record[NELQUBAT_RECORD_LETTER] = 'm';
        pack_directory(m, record);
    } else if (m->kind == PLAIN_STATE) {
        record[NELQUBAT_RECORD_LETTER] = 'H';
        record[NELQUBAT_RECORD_CODE] = m->state;
    } else {
        record[NELQUBAT_RECORD_LETTER] = pack_quote(m, record);
    }
}

static struct plain_long_side unpack_long(const uint8_t *at)
{
    struct nelqubat_side s = nelqubat_side_at(at, 1);
    return (struct plain_long_side){s.market, s.price_on_wire, s.size, s.customer,
                                    s.professional};
}

static struct plain_short_side unpack_short(const uint8_t *at)
{
    struct plain_long_side s = unpack_long(at);
    return (struct plain_short_side){
        (uint16_t)s.market, (uint16_t)s.price, (uint16_t)s.size,
        (uint16_t)s.customer, (uint16_t)s.professional};
}

static void unpack_directory(const uint8_t *record, struct plain_message *m)
{
    m->kind = PLAIN_DIRECTORY;
    m->directory = (struct plain_directory){
        .strike = nelqubat_record_strike(record),
        .year = record[NELQUBAT_RECORD_YEAR],
        .month = record[NELQUBAT_RECORD_MONTH],
        .day = record[NELQUBAT_RECORD_DAY],
        .type = record[NELQUBAT_RECORD_TYPE],
        .closing = record[NELQUBAT_RECORD_CLOSING],
        .tradable = record[NELQUBAT_RECORD_TRADABLE],
        .variation = record[NELQUBAT_RECORD_VARIATION]};
    memcpy(m->symbol, record + NELQUBAT_RECORD_SYMBOL, sizeof m->symbol);
    memcpy(m->underlying, record + NELQUBAT_RECORD_UNDERLYING, sizeof m->underlying);
    memcpy(m->reserved, record + NELQUBAT_RECORD_RESERVED, sizeof m->reserved);
}

static void unpack_quote(const uint8_t *record, struct plain_message *m)
{
    uint8_t letter = record[NELQUBAT_RECORD_LETTER];
    uint8_t condition = record[NELQUBAT_RECORD_CODE];
    enum plain_which which = letter == 'b' || letter == 'B' ? PLAIN_BID : PLAIN_ASK;
    if (letter == 'q') {
        m->kind = PLAIN_BOTH_SHORT;
        m->both_short = (struct plain_both_short){
            condition, unpack_short(record + NELQUBAT_RECORD_BID),
            unpack_short(record + NELQUBAT_RECORD_ASK)};
    } else if (letter == 'Q') {
        m->kind = PLAIN_BOTH_LONG;
        m->both_long = (struct plain_both_long){
            condition, unpack_long(record + NELQUBAT_RECORD_BID),
            unpack_long(record + NELQUBAT_RECORD_ASK)};
    } else if (letter == 'b' || letter == 'a') {
        m->kind = PLAIN_ONE_SHORT;
        m->one_short = (struct plain_one_short){
            condition, which, unpack_short(record + side_place(which))};
    } else {
        m->kind = PLAIN_ONE_LONG;
        m->one_long = (struct plain_one_long){
            condition, which, unpack_long(record + side_place(which))};
    }
}

/* A message from 112 bytes; false if they are no record. Whatever the letter
 * lacks, or a short quote cannot hold, is lost on the way through the message,
 * so that bytes are a record exactly when they come back the same. */
static bool unpack_record(const uint8_t *record, struct plain_message *m)
{
    uint8_t again[NELQUBAT_RECORD_BYTES];
    uint8_t letter = record[NELQUBAT_RECORD_LETTER];
    if (letter == 0 || strchr("SmHqQbaBAM", letter) == NULL)
        return false;
    memset(m, 0, sizeof *m);
    m->tracking = nelqubat_record_tracking(record);
    m->time = nelqubat_record_time(record);
    m->id = nelqubat_record_id(record);
    if (letter == 'M') {
        m->kind = PLAIN_REPLAY_END;
        m->number = nelqubat_record_number(record);
    } else if (letter == 'S') {
        m->kind = PLAIN_SYSTEM_EVENT;
        m->code = record[NELQUBAT_RECORD_CODE];
    } else if (letter == 'H') {
        m->kind = PLAIN_STATE;
        m->state = record[NELQUBAT_RECORD_CODE];
    } else if (letter == 'm') {
        unpack_directory(record, m);
    } else {
        unpack_quote(record, m);
    }
    oracle_pack_record(m, again);
    return memcmp(again, record, sizeof again) == 0;
}

/* The functions. */

uint32_t oracle_start(uint8_t *handle, size_t handle_n,
                      uint8_t *table, size_t table_n,
                      uint8_t *index, size_t index_n)
{
    struct plain_reader r;
    int refusal;
    if (handle_n != NELQUBAT_HANDLE_BYTES)
        return 20;
    refusal = plain_start(&r, table, table_n, index, index_n);
    oracle_pack_handle(&r, handle);
    return (uint32_t)refusal;
}

static uint32_t step_answer(unsigned refusal, unsigned kind, size_t taken)
{
    return refusal | kind << 8 | (uint32_t)taken << 16;
}

/* Fills the event memory as far as the event goes; the kind of answer. */
static unsigned tell_event(const struct plain_reader *r,
                           const struct plain_answer *a, uint8_t *event)
{
    switch (a->event) {
    case PLAIN_MESSAGE:
        oracle_pack_record(&a->message, event);
        return NELQUBAT_MESSAGE;
    case PLAIN_ACCEPTED:
        nelqubat_set(event, 8, r->next);
        memcpy(event + 8, a->session, PLAIN_SESSION_BYTES);
        return NELQUBAT_LOGIN;
    case PLAIN_REJECTED:
        event[0] = a->reason;
        return NELQUBAT_REJECTED;
    case PLAIN_HEARTBEAT:
        return NELQUBAT_HEARTBEAT;
    case PLAIN_SESSION_END:
        return NELQUBAT_END;
    default:
        return NELQUBAT_SKIPPED;
    }
}

uint32_t oracle_step(uint8_t *handle, size_t handle_n,
                     uint8_t *table, size_t table_n,
                     uint8_t *index, size_t index_n,
                     const uint8_t *piece, size_t piece_n,
                     uint8_t *event, size_t event_n)
{
    struct plain_reader r;
    struct plain_answer a;
    uint32_t held;
    if (event_n != NELQUBAT_RECORD_BYTES || !unpack_handle(handle, handle_n, &r))
        return step_answer(20, NELQUBAT_REFUSED, 0);
    held = r.used;
    plain_step(&r, table, table_n, index, index_n, piece, piece_n, &a);
    if (a.refusal == 20)
        return step_answer(20, NELQUBAT_REFUSED, 0);
    pack_fields(&r, handle);
    if (a.kind == PLAIN_REFUSED)
        return step_answer(a.refusal, NELQUBAT_REFUSED, a.taken);
    if (a.kind == PLAIN_ENDED)
        return step_answer(0, NELQUBAT_ENDED, a.taken);
    if (a.kind == PLAIN_MORE) {
        memcpy(handle + NELQUBAT_HANDLE_PACKET + held, r.held + held, a.taken);
        return step_answer(0, NELQUBAT_MORE, a.taken);
    }
    return step_answer(0, tell_event(&r, &a, event), a.taken);
}

static uint64_t run_answer(const struct plain_ran *ran)
{
    static const unsigned whys[] = {
        [PLAIN_RAN_OUT] = NELQUBAT_MORE, [PLAIN_RAN_ENDED] = NELQUBAT_ENDED,
        [PLAIN_RAN_REFUSED] = NELQUBAT_REFUSED, [PLAIN_RAN_CEILING] = NELQUBAT_CEILING};
    return ran->refusal | whys[ran->why] << 8 | (uint64_t)ran->finished << 16 |
           (uint64_t)ran->taken << 32;
}

/* The plain reader completes a packet in its held places; a handle keeps them,
 * but for the bytes that are held in the end. A refused call that finished nothing
 * leaves the handle; 20 may also come behind packets that were finished. */
uint64_t oracle_run(uint8_t *handle, size_t handle_n,
                    uint8_t *table, size_t table_n,
                    uint8_t *index, size_t index_n,
                    const uint8_t *piece, size_t piece_n, uint32_t ceiling)
{
    struct plain_reader r;
    struct plain_ran ran = {PLAIN_RAN_REFUSED, 20, 0, 0};
    if (unpack_handle(handle, handle_n, &r))
        ran = plain_run(&r, table, table_n, index, index_n, piece, piece_n, ceiling);
    if (ran.refusal >= 20 && ran.finished == 0)
        return run_answer(&ran);
    pack_fields(&r, handle);
    if (ran.why == PLAIN_RAN_OUT)
        memcpy(handle + NELQUBAT_HANDLE_PACKET, r.held, r.used);
    return run_answer(&ran);
}

/* What a call answers that writes to output. */
static uint32_t written_answer(int refusal, size_t written)
{
    return (uint32_t)refusal | (uint32_t)written << 8;
}

uint32_t oracle_save(const uint8_t *handle, size_t handle_n,
                     const uint8_t *table, size_t table_n,
                     uint8_t *out, size_t out_n)
{
    struct plain_reader r;
    size_t written;
    int refusal;
    if (!unpack_handle(handle, handle_n, &r))
        return 20;
    refusal = plain_save(&r, table, table_n, out, out_n, &written);
    return written_answer(refusal, written);
}

uint32_t oracle_restore(uint8_t *handle, size_t handle_n,
                        uint8_t *table, size_t table_n,
                        uint8_t *index, size_t index_n,
                        const uint8_t *image, size_t image_n)
{
    struct plain_reader r;
    int refusal;
    if (handle_n != NELQUBAT_HANDLE_BYTES)
        return 20;
    refusal = plain_restore(&r, table, table_n, index, index_n, image, image_n);
    oracle_pack_handle(&r, handle);
    return (uint32_t)refusal;
}

uint32_t oracle_forward(const uint8_t *image, size_t image_n,
                        uint8_t *out, size_t out_n)
{
    size_t written;
    int refusal = plain_forward(image, image_n, out, out_n, &written);
    return written_answer(refusal, written);
}

uint32_t oracle_back(const uint8_t *image, size_t image_n,
                     uint8_t *out, size_t out_n)
{
    size_t written;
    int refusal = plain_back(image, image_n, out, out_n, &written);
    return written_answer(refusal, written);
}

uint32_t oracle_read(const uint8_t *bytes, size_t bytes_n,
                     uint8_t *record, size_t record_n)
{
    struct plain_message m;
    int refusal;
    if (record_n != NELQUBAT_RECORD_BYTES)
        return 20;
    refusal = plain_read(bytes, bytes_n, &m);
    if (refusal == 0)
        oracle_pack_record(&m, record);
    return (uint32_t)refusal;
}

uint32_t oracle_write(const uint8_t *record, size_t record_n,
                      uint8_t *out, size_t out_n)
{
    struct plain_message m;
    size_t written;
    int refusal;
    if (record_n != NELQUBAT_RECORD_BYTES)
        return 20;
    if (!unpack_record(record, &m))
        return 26;
    refusal = plain_write(&m, out, out_n, &written);
    return written_answer(refusal, written);
}

/* Lays out line k: taken from a listing with no rows, or from one with the
 * row alone, which the plain reader finds at the front of the memory. A row
 * may hold any bytes, so its line's end is counted and not looked for. */
static size_t lay_line(struct plain_reader r, const uint8_t *table, size_t k,
                       const char *bare, size_t bare_n, char *line)
{
    size_t head = (size_t)((const char *)memchr(bare, '\n', bare_n) - bare) + 1;
    char text[256];
    size_t n;
    if (k == 0) {
        memcpy(line, bare, head);
        return head;
    }
    if (k > r.rows) {
        memcpy(line, bare + head, bare_n - head);
        return bare_n - head;
    }
    r.rows = 1;
    plain_listing(&r, table + (k - 1) * PLAIN_ROW_BYTES, PLAIN_TABLE_BYTES,
                  text, sizeof text, &n);
    memcpy(line, text + head, n - bare_n);
    return n - bare_n;
}

uint32_t oracle_line(const uint8_t *handle, size_t handle_n,
                     const uint8_t *table, size_t table_n,
                     size_t k, uint8_t *out, size_t out_n)
{
    struct plain_reader r, without;
    char bare[256], line[256];
    size_t n;
    if (!unpack_handle(handle, handle_n, &r) || r.rows > PLAIN_MAX_ROWS)
        return 20;
    without = r;
    without.rows = 0;
    if (plain_listing(&without, table, table_n, bare, sizeof bare, &n) != 0)
        return 20;
    if (k > (size_t)r.rows + 1)
        return 0;
    n = lay_line(r, table, k, bare, n, line);
    if (out_n < n)
        return 25;
    memcpy(out, line, n);
    return (uint32_t)n << 8;
}

uint32_t oracle_find(const uint8_t *handle, size_t handle_n,
                     const uint8_t *table, size_t table_n,
                     const uint8_t *index, size_t index_n, uint32_t id)
{
    struct plain_reader r;
    const uint8_t *row;
    if (!unpack_handle(handle, handle_n, &r) ||
        plain_find(&r, table, table_n, index, index_n, id, &row) != 0)
        return 20;
    return row == NULL ? 0 : (uint32_t)((row - table) / PLAIN_ROW_BYTES + 1) << 8;
}
