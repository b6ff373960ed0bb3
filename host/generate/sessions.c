#include "parts.h"

#include <string.h>

/* The market behind a session: what has been said of each instrument, so that
 * only true messages follow. */

struct instrument {
    struct plain_message directory;
    uint8_t state;
    uint32_t price; /* middle of the quotes, in ten-thousandths */
};

struct market {
    struct instrument list[PLAIN_MAX_ROWS];
    size_t count;
    uint64_t time;
};

struct session_plan usual_plan(void)
{
    struct session_plan plan = {
        .instruments = 64, .packets = 1000, .quotes = 900, .states = 20,
        .directories = 10, .newcomers = 2, .events = 1, .heartbeats = 20,
        .skipped = 4, .replay_end = true, .end = true, .first = 1};
    memcpy(plan.session, "ISETOP0001", PLAIN_SESSION_BYTES);
    return plan;
}

/* Mostly few, else as many as fill the table or as lie about a change of version. */
static unsigned pick_instruments(struct dice *d)
{
    static const unsigned many[] = {PLAIN_ROWS_OF_VERSION_1 - 1, PLAIN_ROWS_OF_VERSION_1,
                                    PLAIN_ROWS_OF_VERSION_1 + 1, PLAIN_MAX_ROWS - 1};
    if (dice_chance(d, 4))
        return PLAIN_MAX_ROWS;
    if (dice_chance(d, 5))
        return many[dice_below(d, sizeof many / sizeof *many)];
    return (unsigned)dice_between(d, 1, 12);
}

struct session_plan random_plan(struct dice *d)
{
    struct session_plan plan = usual_plan();
    plan.instruments = pick_instruments(d);
    plan.packets = (unsigned)dice_below(d, 120);
    plan.quotes = (unsigned)dice_between(d, 1, 100);
    plan.states = (unsigned)dice_below(d, 40);
    plan.directories = (unsigned)dice_below(d, 40);
    plan.newcomers = (unsigned)dice_below(d, 10);
    plan.events = (unsigned)dice_below(d, 10);
    plan.heartbeats = (unsigned)dice_below(d, 20);
    plan.skipped = (unsigned)dice_below(d, 20);
    plan.replay_end = dice_chance(d, 50);
    plan.end = dice_chance(d, 50);
    if (dice_chance(d, 10))
        plan.first = PLAIN_MAX_NUMBER - dice_below(d, 60);
    else if (dice_chance(d, 20))
        plan.first = 1 + pick_number(d, PLAIN_MAX_NUMBER - 1);
    if (dice_chance(d, 30))
        dice_fill(d, plan.session, sizeof plan.session);
    plan.varied = (unsigned)dice_below(d, 30);
    return plan;
}

size_t session_room(const struct session_plan *plan)
{
    return 1024 + plan->instruments * (size_t)(3 + PLAIN_MESSAGE_BYTES + 19 + 19) +
           plan->packets * (size_t)PLAIN_PACKET_BYTES;
}

static void start_message(struct dice *d, struct market *k,
                          enum plain_kind kind, struct plain_message *m)
{
    k->time += dice_below(d, 2000000);
    if (k->time > PLAIN_MAX_TIME)
        k->time = PLAIN_MAX_TIME;
    memset(m, 0, sizeof *m);
    m->kind = kind;
    m->time = k->time;
    m->tracking = (uint16_t)dice_below(d, 4096);
}

static void say_event(struct dice *d, struct market *k, struct bytes *s,
                      uint8_t code)
{
    struct plain_message m;
    start_message(d, k, PLAIN_SYSTEM_EVENT, &m);
    m.code = code;
    put_message(s, &m);
}

static bool id_taken(const struct market *k, uint32_t id)
{
    for (size_t i = 0; i < k->count; i++)
        if (k->list[i].directory.id == id)
            return true;
    return false;
}

/* Lists one more instrument, with the look of a real option. */
static void say_newcomer(struct dice *d, struct market *k, struct bytes *s)
{
    const char *root = pick_root(d);
    struct plain_message *m;
    if (k->count == PLAIN_MAX_ROWS)
        return;
    m = &k->list[k->count].directory;
    start_message(d, k, PLAIN_DIRECTORY, m);
    do
        m->id = (uint32_t)dice_between(d, 1, 900000);
    while (id_taken(k, m->id));
    set_text(m->symbol, sizeof m->symbol, root);
    set_text(m->underlying, sizeof m->underlying, root);
    set_text(m->reserved, sizeof m->reserved, "");
    m->directory.strike = (uint32_t)dice_between(d, 2, 400) * 25000;
    m->directory.year = (uint8_t)dice_between(d, 25, 27);
    m->directory.month = (uint8_t)dice_between(d, 1, 12);
    m->directory.day = (uint8_t)dice_between(d, 15, 21);
    m->directory.type = pick(d, "CP");
    m->directory.closing = pick(d, "NNNL");
    m->directory.tradable = 'Y';
    m->directory.variation = pick(d, variations);
    k->list[k->count].price = (uint32_t)dice_between(d, 50, 60000) * 100;
    k->list[k->count].state = 0;
    k->count++;
    put_message(s, m);
}

/* Says a directory again: what may change changes, now and then tradable. */
static void say_directory(struct dice *d, struct market *k, struct bytes *s)
{
    struct plain_message *m = &k->list[dice_below(d, k->count)].directory;
    struct plain_message fresh;
    start_message(d, k, PLAIN_DIRECTORY, &fresh);
    m->time = fresh.time;
    m->tracking = fresh.tracking;
    m->directory.variation = pick(d, variations);
    m->directory.closing = pick(d, closings);
    m->directory.tradable = pick(d, "YYYN");
    put_message(s, m);
}

static void say_state(struct dice *d, struct market *k, struct bytes *s,
                      struct instrument *i, uint8_t state)
{
    struct plain_message m;
    start_message(d, k, PLAIN_STATE, &m);
    m.id = i->directory.id;
    m.state = i->state = state;
    put_message(s, &m);
}

static struct plain_long_side real_side(struct dice *d, uint32_t price)
{
    struct plain_long_side s;
    s.market = (uint32_t)(dice_chance(d, 5) ? dice_below(d, 20) : 0);
    s.price = price;
    s.size = (uint32_t)dice_between(d, 1, dice_chance(d, 5) ? 90000 : 800);
    s.customer = (uint32_t)dice_below(d, s.size + 1);
    s.professional = (uint32_t)dice_below(d, s.size - s.customer + 1);
    return s;
}

static bool side_is_short(const struct plain_long_side *s)
{
    return s->market <= UINT16_MAX && s->price % 100 == 0 &&
           s->price / 100 <= UINT16_MAX && s->size <= UINT16_MAX;
}

static struct plain_short_side narrow(const struct plain_long_side *s)
{
    struct plain_short_side n;
    n.market = (uint16_t)s->market;
    n.price = (uint16_t)(s->price / 100);
    n.size = (uint16_t)s->size;
    n.customer = (uint16_t)s->customer;
    n.professional = (uint16_t)s->professional;
    return n;
}

static void set_both(struct plain_message *m, uint8_t condition,
                     const struct plain_long_side *bid,
                     const struct plain_long_side *ask, bool is_short)
{
    if (is_short) {
        m->kind = PLAIN_BOTH_SHORT;
        m->both_short.condition = condition;
        m->both_short.bid = narrow(bid);
        m->both_short.ask = narrow(ask);
    } else {
        m->kind = PLAIN_BOTH_LONG;
        m->both_long.condition = condition;
        m->both_long.bid = *bid;
        m->both_long.ask = *ask;
    }
}

static void set_one(struct plain_message *m, uint8_t condition,
                    enum plain_which which, const struct plain_long_side *side,
                    bool is_short)
{
    if (is_short) {
        m->kind = PLAIN_ONE_SHORT;
        m->one_short.condition = condition;
        m->one_short.which = which;
        m->one_short.side = narrow(side);
    } else {
        m->kind = PLAIN_ONE_LONG;
        m->one_long.condition = condition;
        m->one_long.which = which;
        m->one_long.side = *side;
    }
}

/* A quote near the instrument's price, in the short form where it fits and
 * mostly so. A plan that varies no prices draws nothing for them. */
static void say_quote(struct dice *d, const struct session_plan *p,
                      struct market *k, struct bytes *s, struct instrument *i)
{
    uint8_t condition = dice_chance(d, 95) ? ' ' : pick(d, conditions);
    uint32_t half = (uint32_t)dice_between(d, 1, 20) * 100;
    struct plain_long_side bid, ask;
    struct plain_message m;
    bool is_short;
    i->price += (uint32_t)dice_below(d, 11) * 100;
    i->price -= i->price > 3000 ? (uint32_t)dice_below(d, 11) * 100 : 0;
    bid = real_side(d, i->price > half ? i->price - half : 0);
    ask = real_side(d, i->price + half);
    start_message(d, k, PLAIN_BOTH_SHORT, &m);
    m.id = i->directory.id;
    is_short = side_is_short(&bid) && side_is_short(&ask) && !dice_chance(d, 10);
    if (dice_chance(d, 40))
        set_both(&m, condition, &bid, &ask, is_short);
    else if (dice_chance(d, 50))
        set_one(&m, condition, PLAIN_BID, &bid, is_short);
    else
        set_one(&m, condition, PLAIN_ASK, &ask, is_short);
    if (p->varied != 0 && dice_chance(d, p->varied))
        vary_prices(d, &m);
    put_message(s, &m);
}

static bool quotable(const struct instrument *i)
{
    return memchr(quoting_states, i->state, sizeof quoting_states - 1) != NULL &&
           i->directory.directory.tradable == 'Y';
}

/* The first instrument from a random place on that can be quoted. */
static struct instrument *pick_quotable(struct dice *d, struct market *k)
{
    size_t from = dice_below(d, k->count);
    for (size_t i = 0; i < k->count; i++) {
        struct instrument *here = &k->list[(from + i) % k->count];
        if (quotable(here))
            return here;
    }
    return NULL;
}

static void say_skipped(struct dice *d, struct bytes *s)
{
    uint8_t body[255];
    size_t n = dice_below(d, dice_chance(d, 10) ? 256 : 40);
    dice_fill(d, body, n);
    put_packet(s, pick(d, "+U"), body, n);
}

/* One packet of the kind that the weights draw. */
static void say_any(struct dice *d, const struct session_plan *p,
                    struct market *k, struct bytes *s)
{
    struct instrument *i = pick_quotable(d, k);
    uint64_t draw = dice_below(d, (uint64_t)p->quotes + p->states +
                                      p->directories + p->newcomers +
                                      p->events + p->heartbeats + p->skipped);
    if (draw < p->quotes) {
        if (i)
            say_quote(d, p, k, s, i);
        else
            put_packet(s, 'H', NULL, 0);
    } else if ((draw -= p->quotes) < p->states) {
        uint8_t state = dice_chance(d, 60) ? 'T' : pick(d, states);
        say_state(d, k, s, &k->list[dice_below(d, k->count)], state);
    } else if ((draw -= p->states) < p->directories) {
        say_directory(d, k, s);
    } else if ((draw -= p->directories) < p->newcomers) {
        say_newcomer(d, k, s);
    } else if ((draw -= p->newcomers) < p->events) {
        say_event(d, k, s, pick(d, event_codes));
    } else if (draw - p->events < p->heartbeats) {
        put_packet(s, 'H', NULL, 0);
    } else {
        say_skipped(d, s);
    }
}

/* The day's opening: directories, then pre-open, then trading. */
static void say_opening(struct dice *d, const struct session_plan *plan,
                        struct market *k, struct bytes *s)
{
    k->time = UINT64_C(1800000000000);
    say_event(d, k, s, 'O');
    for (unsigned i = 0; i < plan->instruments; i++)
        say_newcomer(d, k, s);
    say_event(d, k, s, 'S');
    for (size_t i = 0; i < k->count; i++)
        say_state(d, k, s, &k->list[i], 'I');
    k->time = UINT64_C(34200000000000);
    say_event(d, k, s, 'Q');
    for (size_t i = 0; i < k->count; i++)
        if (dice_chance(d, 90))
            say_state(d, k, s, &k->list[i], 'T');
}

void make_session(struct dice *d, const struct session_plan *plan,
                  struct bytes *s)
{
    struct market market;
    struct plain_message m;
    market.count = 0;
    s->n = 0;
    put_login(s, plan->session, plan->first);
    say_opening(d, plan, &market, s);
    for (unsigned i = 0; i < plan->packets; i++)
        say_any(d, plan, &market, s);
    if (plan->replay_end) {
        make_message(d, PLAIN_REPLAY_END, &m);
        put_message(s, &m);
        put_packet(s, 'H', NULL, 0);
    }
    if (plan->end)
        put_packet(s, 'Z', NULL, 0);
}

struct plain_reader reader_for_plan(const struct session_plan *plan)
{
    struct plain_reader r;
    memset(&r, 0, sizeof r);
    memset(r.session, ' ', sizeof r.session);
    r.next = plan->first;
    r.known = plan->first != 1;
    if (r.known)
        memcpy(r.session, plan->session, sizeof r.session);
    return r;
}

size_t make_piece_size(struct dice *d, size_t left)
{
    if (left == 0)
        return 0;
    switch (dice_below(d, 4)) {
    case 0:
        return left;
    case 1:
        return dice_below(d, left < 4 ? left + 1 : 4);
    case 2:
        return dice_below(d, left < 80 ? left + 1 : 80);
    default:
        return dice_below(d, left < 600 ? left + 1 : 600);
    }
}
