#include "cases.h"

#include "edges.h"
#include "oracle.h"

#include <string.h>

/* The library lets a host name any k; most are near the lines there are. */
static void add_line(struct dice *d, uint64_t k, struct script *s)
{
    struct call c = usual_call(CALL_LINE);
    c.k = k;
    if (dice_chance(d, 30))
        c.memory_n = (uint32_t)dice_below(d, 48);
    script_add(s, c, NULL, 0);
}

static void add_lines(struct dice *d, struct script *s)
{
    static const uint64_t far[] = {NELQUBAT_MAX_ROWS, NELQUBAT_MAX_ROWS + 1, NELQUBAT_MAX_ROWS + 2,
                                   2 * NELQUBAT_MAX_ROWS, UINT64_C(1) << 32, UINT64_MAX};
    size_t lines = dice_below(d, dice_chance(d, 5) ? NELQUBAT_MAX_ROWS + 4 : 6);
    for (uint64_t k = 0; k < lines; k++)
        add_line(d, k, s);
    add_line(d, far[dice_below(d, sizeof far / sizeof *far)], s);
}

/* An id that is looked for: mostly as it is given, else one near it, or any. */
static uint32_t vary_id(struct dice *d, uint32_t id)
{
    if (dice_chance(d, 80))
        return id;
    return dice_chance(d, 50) ? id ^ UINT32_C(1) << dice_below(d, 32) : (uint32_t)dice_next(d);
}

static void add_find(struct dice *d, uint32_t id, struct script *s)
{
    struct call c = usual_call(CALL_FIND);
    c.k = vary_id(d, id);
    script_add(s, c, NULL, 0);
}

/* Output memory for a save: all, or about what some count of blocks needs. */
static void add_save(struct dice *d, enum operation op, struct script *s)
{
    struct call c = usual_call(op);
    if (dice_chance(d, 40))
        c.memory_n = (uint32_t)make_length(d, NELQUBAT_BLOCK_BYTES * dice_between(d, 1, NELQUBAT_MAX_BLOCKS));
    script_add(s, c, NULL, 0);
}

/* One of the lent lengths made wrong. */
static void spoil_length(struct dice *d, struct call *c)
{
    switch (dice_below(d, 4)) {
    case 0:
        c->handle_n = (uint32_t)make_length(d, c->handle_n);
        break;
    case 1:
        c->table_n = (uint32_t)make_length(d, c->table_n);
        break;
    case 2:
        c->index_n = (uint32_t)make_length(d, c->index_n);
        break;
    default:
        c->memory_n = (uint32_t)make_length(d, c->memory_n);
        break;
    }
}

/* A false index from here on, in a way that the number says. */
static void add_spoil(struct dice *d, struct script *s)
{
    struct call c = usual_call(CALL_SPOIL);
    c.k = dice_next(d);
    script_add(s, c, NULL, 0);
}

/* How a session is cut: whole, single bytes, as the network would, at random,
 * or in ever changing sizes. */
enum cut { CUT_WHOLE, CUT_SINGLE, CUT_NETWORK, CUT_RANDOM, CUT_CHANGING };

static enum cut pick_cut(struct dice *d, size_t n)
{
    if (dice_chance(d, n < 6000 ? 10 : 1))
        return CUT_SINGLE;
    return (enum cut)(dice_chance(d, 20) ? CUT_WHOLE : dice_between(d, CUT_NETWORK, CUT_CHANGING));
}

static size_t piece_size(struct dice *d, enum cut cut, size_t left)
{
    size_t n = left;
    if (cut == CUT_SINGLE)
        n = 1;
    else if (cut == CUT_NETWORK)
        n = 1460;
    else if (cut == CUT_RANDOM)
        n = dice_between(d, 0, 400);
    else if (cut == CUT_CHANGING)
        n = make_piece_size(d, left);
    return n < left ? n : left;
}

/* A run's ceiling: at an edge, low, or any; too high at times. */
static uint32_t make_ceiling(struct dice *d)
{
    static const uint32_t edges[] = {0, 1, 2, 999, 1000, 1001, 65537, UINT32_C(1) << 31, UINT32_MAX};
    if (dice_chance(d, 40))
        return edges[dice_below(d, sizeof edges / sizeof *edges)];
    return (uint32_t)dice_between(d, 1, dice_chance(d, 80) ? 9 : 1000);
}

/* A piece that is read by steps or, in most cases where runs are made, by them. */
static struct call piece_call(struct dice *d, bool by_runs)
{
    struct call c = usual_call(by_runs && dice_chance(d, 80) ? CALL_TURNS : CALL_FEED);
    if (c.op == CALL_TURNS)
        c.k = make_ceiling(d);
    return c;
}

/* Now and then the index is made false between two pieces. */
static void add_pieces(struct dice *d, const uint8_t *bytes, size_t n, bool by_runs, struct script *s)
{
    enum cut cut = pick_cut(d, n);
    bool spoils = dice_chance(d, 20);
    while (n > 0) {
        size_t size = piece_size(d, cut, n);
        struct call c = piece_call(d, by_runs);
        if (spoils && dice_chance(d, 20))
            add_spoil(d, s);
        if (dice_chance(d, 1) && dice_chance(d, 20))
            spoil_length(d, &c);
        script_add(s, c, bytes, size);
        bytes += size;
        n -= size;
    }
}

/* The start of a packet, about in the middle of the session. */
static size_t middle(struct dice *d, const struct bytes *session)
{
    size_t wanted = dice_below(d, session->n + 1), at = 0;
    while (at + 2 <= session->n && at < wanted)
        at += 2 + (size_t)session->at[at] * 256 + session->at[at + 1];
    return at < session->n ? at : session->n;
}

/* Looks for the ids of some of the session's messages, where they have one. */
static void add_session_finds(struct dice *d, const struct bytes *session, struct script *s)
{
    enum { PACKET_ID = 14 };
    for (size_t i = dice_between(d, 1, 4); i > 0; i--) {
        size_t at = middle(d, session) + PACKET_ID;
        if (at + 4 <= session->n)
            add_find(d, (uint32_t)nelqubat_get(session->at + at, 4), s);
    }
}

/* The handle that waits for the plan's login, made by start where it is
 * fresh, over a table that is not zero. With no row in use, an index may be any. */
static void begin_session(struct dice *d, const struct session_plan *plan, struct script *s)
{
    struct plain_reader r = reader_for_plan(plan);
    struct call start = usual_call(CALL_START);
    script_clear(s);
    dice_fill(d, s->handle, sizeof s->handle);
    if (dice_chance(d, 50))
        dice_fill(d, s->index, sizeof s->index);
    if (plan->first == 1) {
        memset(s->table, (int)dice_below(d, 256), sizeof s->table);
        if (dice_chance(d, 15)) {
            spoil_length(d, &start);
            script_add(s, start, NULL, 0);
        }
        script_add(s, usual_call(CALL_START), NULL, 0);
    } else {
        oracle_pack_handle(&r, s->handle);
    }
    s->thorough = dice_chance(d, 2);
}

/* A session, whose bytes go where there is room. */
static struct session_plan make_any_session(struct dice *d, bool damaged, struct bytes *session)
{
    struct session_plan plan = random_plan(d);
    if (damaged && dice_chance(d, 80)) {
        plan.packets %= 30;
        plan.instruments = 1 + plan.instruments % 8;
    }
    session->room -= DAMAGE_ROOM;
    make_session(d, &plan, session);
    session->room += DAMAGE_ROOM;
    for (bool again = damaged; again; again = dice_chance(d, 20)) {
        if (dice_chance(d, 15))
            edge_session(d, session);
        else
            damage_session(d, (enum session_damage)dice_below(d, SESSION_DAMAGES), session);
    }
    return plan;
}

/* Heartbeats in one piece, few or about as many as a run may finish, and behind
 * them an end or a rejection; the ceiling lets them pass, or one more. */
static void add_burst(struct dice *d, struct script *s)
{
    uint8_t burst[3 * 1100 + 4];
    size_t count = dice_chance(d, 20) ? dice_between(d, 990, 1100) : dice_below(d, 4);
    uint64_t ceiling = count + dice_below(d, 2);
    struct call c = usual_call(CALL_TURNS);
    for (size_t i = 0; i < count; i++)
        memcpy(burst + 3 * i, "\0\1H", 3);
    memcpy(burst + 3 * count, dice_chance(d, 50) ? "\0\1Z" : "\0\2JA", 4);
    c.k = ceiling < NELQUBAT_MAX_PACKETS ? ceiling : NELQUBAT_MAX_PACKETS;
    script_add(s, c, burst, 3 * count + 4);
}

static void add_session(struct dice *d, bool damaged, bool by_runs, struct script *s, struct tally *t)
{
    static uint8_t space[INPUT_ROOM];
    struct bytes session = {space, 0, sizeof space};
    struct session_plan plan = make_any_session(d, damaged, &session);
    size_t resumed;
    begin_session(d, &plan, s);
    if (by_runs && dice_chance(d, 10))
        add_burst(d, s);
    resumed = dice_chance(d, 15) ? middle(d, &session) : session.n;
    add_pieces(d, session.at, resumed, by_runs, s);
    if (resumed < session.n)
        add_save(d, CALL_RESUME, s);
    add_pieces(d, session.at + resumed, session.n - resumed, by_runs, s);
    if (by_runs && dice_chance(d, 20))
        add_burst(d, s);
    if (dice_chance(d, 20))
        add_save(d, dice_chance(d, 50) ? CALL_SAVE : CALL_RESUME, s);
    if (dice_chance(d, 20))
        add_lines(d, s);
    if (dice_chance(d, 20))
        add_session_finds(d, &session, s);
    t->sessions++;
    t->damaged += damaged;
}

void make_session_case(struct dice *d, bool damaged, struct script *s, struct tally *t)
{
    add_session(d, damaged, false, s, t);
}

void make_run_case(struct dice *d, bool damaged, struct script *s, struct tally *t)
{
    add_session(d, damaged, true, s, t);
}

/* Handles. */

/* A number of any magnitude. */
static void set_magnitude(struct dice *d, uint8_t *p)
{
    uint64_t v = dice_next(d);
    nelqubat_set(p, 8, v >> dice_below(d, 64));
}

/* Changes a handle's bytes: fields, flags, held bytes, or all of them. */
static void damage_handle(struct dice *d, struct plain_reader *r, uint8_t *handle)
{
    switch (dice_below(d, 8)) {
    case 0:
        dice_fill(d, handle, NELQUBAT_HANDLE_BYTES);
        if (dice_chance(d, 50))
            memset(handle + NELQUBAT_HANDLE_KNOWN, (int)dice_below(d, 2), 3);
        break;
    case 1:
        set_other(d, &handle[dice_between(d, NELQUBAT_HANDLE_KNOWN, NELQUBAT_HANDLE_ENDED)]);
        break;
    case 2:
        set_other(d, &handle[dice_below(d, NELQUBAT_HANDLE_PACKET + 4)]);
        break;
    case 3:
        set_magnitude(d, handle + 8 * dice_below(d, 4));
        break;
    case 4:
        spoil_reader(d, r);
        oracle_pack_handle(r, handle);
        break;
    case 5:
        break_reader(d, r);
        oracle_pack_handle(r, handle);
        break;
    default:
        edge_handle(d, handle);
        break;
    }
}

/* A piece for a handle: a packet that fits its table, the rest of the packet
 * that it holds, or any bytes. */
static size_t make_piece(struct dice *d, const struct plain_reader *r,
                         const uint8_t *table, uint8_t *out, size_t room)
{
    struct bytes piece = {out, 0, room};
    if (r->used > 0 && dice_chance(d, 50)) {
        size_t n = dice_below(d, room);
        dice_fill(d, out, n);
        if (r->used < 3 && n > 3)
            out[2 - r->used] = 'S';
        return n;
    }
    for (size_t i = dice_between(d, 1, 3); i > 0; i--)
        put_packet_for(d, r, table, &piece);
    if (dice_chance(d, 10) && piece.n > 0)
        piece.n = dice_below(d, piece.n + 1);
    return piece.n;
}

/* A row of the table, mostly one in use. */
static uint8_t *pick_row(struct dice *d, const struct plain_reader *r, uint8_t *table)
{
    bool any = r->rows == 0 || r->rows > NELQUBAT_MAX_ROWS || dice_chance(d, 20);
    return table + dice_below(d, any ? NELQUBAT_MAX_ROWS : r->rows) * NELQUBAT_ROW_BYTES;
}

/* Gives a row the id of another, and looks for it. */
static void add_repeated_id(struct dice *d, const struct plain_reader *r, struct script *s)
{
    uint8_t *row = pick_row(d, r, s->table);
    memmove(pick_row(d, r, s->table), row, 4);
    add_find(d, nelqubat_row_id(row), s);
}

static size_t blocks_for(uint32_t rows)
{
    return 1 + (rows + PLAIN_BLOCK_ROWS - 1) / PLAIN_BLOCK_ROWS;
}

static void add_handle_call(struct dice *d, const struct plain_reader *r, struct script *s)
{
    static const enum operation ops[] = {CALL_STEP, CALL_FEED, CALL_FEED, CALL_SAVE, CALL_LINE, CALL_LINE,
                                         CALL_FIND, CALL_RESUME, CALL_START, CALL_RUN, CALL_RUN, CALL_TURNS};
    uint8_t piece[600];
    struct call c = usual_call(ops[dice_below(d, sizeof ops / sizeof *ops)]);
    size_t n = 0;
    if (c.op == CALL_STEP || c.op == CALL_FEED || c.op == CALL_RUN || c.op == CALL_TURNS)
        n = make_piece(d, r, s->table, piece, sizeof piece);
    if (c.op == CALL_RUN || c.op == CALL_TURNS)
        c.k = make_ceiling(d);
    if (c.op == CALL_LINE)
        c.k = dice_chance(d, 80) ? dice_below(d, (uint64_t)r->rows % (NELQUBAT_MAX_ROWS + 1) + 4) : dice_next(d);
    if (c.op == CALL_FIND)
        c.k = vary_id(d, nelqubat_row_id(pick_row(d, r, s->table)));
    if (c.op == CALL_SAVE || c.op == CALL_RESUME)
        c.memory_n = (uint32_t)make_length(d, NELQUBAT_BLOCK_BYTES * blocks_for(r->rows % (NELQUBAT_MAX_ROWS + 1)));
    if (dice_chance(d, 15))
        spoil_length(d, &c);
    script_add(s, c, piece, n);
}

void make_handle_case(struct dice *d, bool damaged, struct script *s, struct tally *t)
{
    struct plain_reader r;
    script_clear(s);
    dice_fill(d, s->handle + NELQUBAT_HANDLE_BYTES, SPARE_BYTES);
    make_reader(d, dice_chance(d, 70), &r, s->table);
    if (dice_chance(d, 10)) /* rows out of use lie behind those in use */
        r.rows = (uint32_t)dice_below(d, (uint64_t)r.rows + 1);
    if (dice_chance(d, 50))
        dice_fill(d, r.held + r.used, sizeof r.held - r.used);
    if (dice_chance(d, 20))
        blur_table(d, &r, s->table);
    else if (r.rows > 0 && dice_chance(d, 30))
        edge_row(d, s->table + dice_below(d, r.rows) * NELQUBAT_ROW_BYTES);
    make_index(s->table, r.rows, s->index);
    oracle_pack_handle(&r, s->handle);
    if (damaged)
        damage_handle(d, &r, s->handle);
    for (size_t i = dice_between(d, 1, 6); i > 0; i--) {
        if (dice_chance(d, 20))
            add_spoil(d, s);
        add_handle_call(d, &r, s);
    }
    if (dice_chance(d, 10))
        add_repeated_id(d, &r, s);
    s->thorough = dice_chance(d, 20);
    t->handles++;
    t->damaged += damaged;
}

void make_quote_case(struct dice *d, bool damaged, struct script *s, struct tally *t)
{
    struct plain_reader r;
    uint8_t packet[NELQUBAT_PACKET_BYTES];
    struct bytes quote = {packet, 0, sizeof packet};
    script_clear(s);
    make_quoted(d, damaged, &r, s->table, &quote);
    make_index(s->table, r.rows, s->index);
    oracle_pack_handle(&r, s->handle);
    add_pieces(d, quote.at, quote.n, false, s);
    t->handles++;
    t->damaged += damaged;
}

void make_time_case(struct dice *d, bool damaged, struct script *s, struct tally *t)
{
    struct plain_reader r;
    uint8_t space[4 * NELQUBAT_PACKET_BYTES];
    struct bytes packets = {space, 0, sizeof space};
    script_clear(s);
    make_timed(d, damaged, &r, s->table, &packets);
    make_index(s->table, r.rows, s->index);
    oracle_pack_handle(&r, s->handle);
    if (damaged || dice_chance(d, 20))
        script_add(s, usual_call(CALL_SAVE), NULL, 0);
    add_pieces(d, packets.at, packets.n, dice_chance(d, 30), s);
    add_save(d, dice_chance(d, 50) ? CALL_SAVE : CALL_RESUME, s);
    t->handles++;
    t->damaged += damaged;
}

/* Indexes. */

/* An id beside one that is there, at an end, or any. */
static uint32_t pick_new_id(struct dice *d, const struct plain_reader *r, uint8_t *table)
{
    uint32_t beside = nelqubat_row_id(pick_row(d, r, table)), any = (uint32_t)dice_next(d);
    if (dice_chance(d, 20))
        return dice_chance(d, 50) ? 0 : UINT32_MAX;
    if (dice_chance(d, 20))
        return any;
    return dice_chance(d, 50) ? beside + 1 : beside - 1;
}

static void put_newcomer(struct dice *d, const struct plain_reader *r, uint8_t *table, struct bytes *s)
{
    struct plain_message m;
    make_message(d, PLAIN_DIRECTORY, &m);
    m.id = pick_new_id(d, r, table);
    put_message(s, &m);
}

/* A packet that lists a new id, mostly so where the table is full, or speaks to some
 * row; often to the first, which is the one that zeros name. */
static void put_searched(struct dice *d, const struct plain_reader *r, uint8_t *table, struct bytes *s)
{
    struct plain_reader first = *r;
    first.rows = r->rows < 1 ? r->rows : 1;
    if (dice_chance(d, r->rows == NELQUBAT_MAX_ROWS ? 60 : 30))
        put_newcomer(d, r, table, s);
    else
        put_packet_for(d, dice_chance(d, 50) ? &first : r, table, s);
}

/* One to three packets, read in one of four ways. */
static void add_search(struct dice *d, const struct plain_reader *r, struct script *s)
{
    static const enum operation ops[] = {CALL_STEP, CALL_FEED, CALL_RUN, CALL_TURNS};
    uint8_t space[3 * NELQUBAT_PACKET_BYTES];
    struct bytes piece = {space, 0, sizeof space};
    struct call c = usual_call(ops[dice_below(d, sizeof ops / sizeof *ops)]);
    c.k = dice_between(d, 1, 4);
    for (size_t i = dice_between(d, 1, 3); i > 0; i--)
        put_searched(d, r, s->table, &piece);
    if (dice_chance(d, 10))
        c.index_n = (uint32_t)make_length(d, c.index_n);
    script_add(s, c, piece.at, piece.n);
}

/* The start of a packet that a later call goes on with. */
static void add_start_of_packet(struct dice *d, const struct plain_reader *r, struct script *s)
{
    uint8_t packet[NELQUBAT_PACKET_BYTES];
    struct bytes piece = {packet, 0, sizeof packet};
    size_t cut;
    put_packet_for(d, r, s->table, &piece);
    cut = dice_below(d, piece.n);
    script_add(s, usual_call(CALL_STEP), piece.at, cut);
    add_spoil(d, s);
    script_add(s, usual_call(CALL_FEED), piece.at + cut, piece.n - cut);
}

static void add_index_find(struct dice *d, const struct plain_reader *r, struct script *s)
{
    struct call c = usual_call(CALL_FIND);
    c.k = vary_id(d, nelqubat_row_id(pick_row(d, r, s->table)));
    if (dice_chance(d, 20))
        c.index_n = (uint32_t)make_length(d, c.index_n);
    script_add(s, c, NULL, 0);
}

/* A reader that takes messages, often with few rows, so that a false index still
 * finds some, and now and then with a table that is full, or has room for one. */
static void make_searched(struct dice *d, struct plain_reader *r, uint8_t *table)
{
    uint32_t most = (uint32_t)dice_between(d, 1, 4), least = 0;
    do
        make_reader(d, true, r, table);
    while (!r->known);
    if (dice_chance(d, 50))
        r->rows = r->rows < most ? r->rows : most;
    else if (dice_chance(d, 40))
        least = (uint32_t)dice_between(d, NELQUBAT_MAX_ROWS - 1, NELQUBAT_MAX_ROWS);
    for (; r->rows < least; r->rows++)
        make_row(d, (uint32_t)dice_next(d), table + NELQUBAT_ROW_BYTES * (size_t)r->rows);
    r->logged_in = true;
    r->used = dice_chance(d, 80) ? 0 : r->used;
    r->next = 1 + dice_below(d, 1000);
}

void make_index_case(struct dice *d, bool damaged, struct script *s, struct tally *t)
{
    struct plain_reader r;
    script_clear(s);
    make_searched(d, &r, s->table);
    make_index(s->table, r.rows, s->index);
    if (damaged)
        damage_index(d, (enum index_damage)dice_below(d, INDEX_DAMAGES), r.rows, s->index);
    oracle_pack_handle(&r, s->handle);
    if (dice_chance(d, 50))
        add_index_find(d, &r, s);
    for (size_t i = dice_between(d, 1, 4); i > 0; i--)
        add_search(d, &r, s);
    if (dice_chance(d, 30))
        add_start_of_packet(d, &r, s);
    if (dice_chance(d, 50))
        add_index_find(d, &r, s);
    t->handles++;
    t->damaged += damaged;
}

/* Images. */

/* Any bytes, or bytes that sum up to the most, with checks that are right. */
static void make_any_blocks(struct dice *d, struct bytes *image)
{
    image->n = NELQUBAT_BLOCK_BYTES * dice_between(d, 1, 4);
    dice_fill(d, image->at, image->n);
    if (dice_chance(d, 50)) {
        uint8_t *other = &image->at[dice_below(d, image->n)], value = *other;
        memset(image->at, 255, image->n);
        *other = value;
    }
    seal_image(image);
}

static void make_any_image(struct dice *d, bool damaged, struct bytes *image)
{
    make_image(d, image);
    if (!damaged)
        return;
    if (dice_chance(d, 10)) {
        make_any_blocks(d, image);
    } else if (dice_chance(d, 30)) {
        edge_image(d, image);
    } else if (dice_chance(d, 30)) {
        damage_image(d, (enum image_damage)dice_between(d, IMAGE_VERSION, IMAGE_NAMED), image);
    } else if (dice_chance(d, 25)) {
        damage_image(d, IMAGE_TIME, image);
    } else {
        damage_image(d, (enum image_damage)dice_below(d, IMAGE_DAMAGES), image);
    }
}

/* Looks for the id in one of the image's places for rows. */
static void add_image_find(struct dice *d, const struct bytes *image, struct script *s)
{
    enum { FIRST_ROW = 14 };
    size_t blocks = image->n / NELQUBAT_BLOCK_BYTES, at;
    if (blocks < 2)
        return;
    at = dice_between(d, 1, blocks - 1) * NELQUBAT_BLOCK_BYTES + FIRST_ROW;
    at += dice_below(d, PLAIN_BLOCK_ROWS) * NELQUBAT_ROW_BYTES;
    add_find(d, (uint32_t)nelqubat_get(image->at + at, 4), s);
}

void make_image_case(struct dice *d, bool damaged, struct script *s, struct tally *t)
{
    static uint8_t space[NELQUBAT_IMAGE_BYTES + NELQUBAT_BLOCK_BYTES];
    struct bytes image = {space, 0, sizeof space};
    struct call restore = usual_call(CALL_RESTORE);
    uint8_t piece[64];
    make_any_image(d, damaged, &image);
    script_clear(s);
    dice_fill(d, s->handle, sizeof s->handle);
    memset(s->table, (int)dice_below(d, 256), sizeof s->table);
    if (dice_chance(d, 80))
        dice_fill(d, s->index, sizeof s->index);
    if (dice_chance(d, 10))
        spoil_length(d, &restore);
    else if (dice_chance(d, 8))
        restore.index_n = (uint32_t)make_length(d, restore.index_n);
    script_add(s, restore, image.at, image.n);
    if (dice_chance(d, 70))
        add_save(d, dice_chance(d, 50) ? CALL_SAVE : CALL_RESUME, s);
    if (dice_chance(d, 20))
        add_lines(d, s);
    if (dice_chance(d, 20))
        add_image_find(d, &image, s);
    dice_fill(d, piece, sizeof piece);
    if (dice_chance(d, 20))
        script_add(s, usual_call(CALL_FEED), piece, sizeof piece);
    t->images++;
    t->damaged += damaged;
}

/* Moves. */

/* Output memory for a move: as long as the image, about so, or much. A round goes the way
 * that the image's version asks for, or now and then back first. */
static void add_move(struct dice *d, enum operation op, const struct bytes *image, struct script *s)
{
    enum { AT_VERSION = 4 };
    struct call c = usual_call(op);
    size_t length = make_length(d, image->n);
    if (dice_chance(d, 80))
        c.memory_n = (uint32_t)(length < IMAGE_ROOM ? length : IMAGE_ROOM);
    c.k = dice_chance(d, 20) || nelqubat_get(image->at + AT_VERSION, 2) == PLAIN_VERSION_TIMED;
    script_add(s, c, image->at, image->n);
}

void make_move_case(struct dice *d, bool damaged, struct script *s, struct tally *t)
{
    static uint8_t space[NELQUBAT_IMAGE_BYTES + NELQUBAT_BLOCK_BYTES];
    struct bytes image = {space, 0, sizeof space};
    make_any_image(d, damaged, &image);
    script_clear(s);
    dice_fill(d, s->handle, sizeof s->handle);
    add_move(d, CALL_FORWARD, &image, s);
    add_move(d, CALL_BACK, &image, s);
    add_move(d, CALL_ROUND, &image, s);
    if (dice_chance(d, 30))
        add_save(d, dice_chance(d, 50) ? CALL_SAVE : CALL_RESUME, s);
    t->images++;
    t->damaged += damaged;
}

/* Records. */

static const char letters[] = "SmHqQbaBAM";

static void break_record(struct dice *d, struct plain_message *m, uint8_t *record)
{
    size_t number = dice_below(d, 10), letter = dice_below(d, 10);
    switch (dice_below(d, 7)) {
    case 0: /* a place that the letter lacks, or any other */
        flip_bit(d, &record[dice_below(d, NELQUBAT_RECORD_BYTES)]);
        break;
    case 1:
        record[NELQUBAT_RECORD_LETTER] = (uint8_t)letters[letter];
        if (dice_chance(d, 50))
            dice_fill(d, record, 1);
        break;
    case 2: /* the upper half of a side's number */
        record[NELQUBAT_RECORD_BID + 4 * number + dice_below(d, 2)] = 1;
        break;
    case 3:
        dice_fill(d, record, NELQUBAT_RECORD_BYTES);
        record[NELQUBAT_RECORD_LETTER] = (uint8_t)letters[letter];
        break;
    case 4:
        break_message(d, m);
        oracle_pack_record(m, record);
        break;
    default:
        edge_record(d, record);
        break;
    }
}

/* Any message; of quotes, many with prices at their ends. */
static void make_case_message(struct dice *d, struct plain_message *m)
{
    make_any_message(d, m);
    if (dice_chance(d, 40))
        vary_prices(d, m);
}

static void add_write(struct dice *d, bool damaged, struct script *s)
{
    uint8_t record[SMALL_ROOM] = {0};
    struct plain_message m;
    struct call c = usual_call(CALL_WRITE);
    make_case_message(d, &m);
    oracle_pack_record(&m, record);
    if (damaged)
        break_record(d, &m, record);
    if (dice_chance(d, 30))
        c.memory_n = (uint32_t)dice_below(d, 80);
    script_add(s, c, record,
               dice_chance(d, 10) ? make_length(d, NELQUBAT_RECORD_BYTES) : NELQUBAT_RECORD_BYTES);
}

static void add_read(struct dice *d, bool damaged, struct script *s)
{
    uint8_t bytes[80];
    struct plain_message m;
    struct call c = usual_call(CALL_READ);
    size_t n;
    if (damaged && dice_chance(d, 70)) {
        n = make_message_bytes(d, bytes, sizeof bytes);
    } else {
        make_case_message(d, &m);
        plain_write(&m, bytes, sizeof bytes, &n);
        if (damaged)
            edge_message(d, bytes, n);
    }
    if (dice_chance(d, 10))
        c.memory_n = (uint32_t)make_length(d, NELQUBAT_RECORD_BYTES);
    script_add(s, c, bytes, n);
}

void make_record_case(struct dice *d, bool damaged, struct script *s, struct tally *t)
{
    script_clear(s);
    for (size_t i = 0; i < 16; i++) {
        if (dice_chance(d, 50))
            add_write(d, damaged, s);
        else
            add_read(d, damaged, s);
    }
    t->records += 16;
    t->damaged += damaged ? 16 : 0;
}
