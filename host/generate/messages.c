#include "parts.h"

#include <string.h>

/* Texts. */

static const char *const roots[] = {
    "AAPL", "ABNB", "ADBE", "AMD",  "AMZN", "AVGO", "BA",   "BABA", "BAC",
    "C",    "COIN", "DIS",  "F",    "GE",   "GLD",  "GOOG", "GOOGL", "INTC",
    "IWM",  "JPM",  "KO",   "META", "MSFT", "MU",   "NDX",  "NDXP", "NFLX",
    "NVDA", "ORCL", "PFE",  "PLTR", "QCOM", "QQQ",  "SLV",  "SMCI", "SOFI",
    "SPY",  "T",    "TLT",  "TSLA", "UBER", "V",    "WMT",  "XLF",  "XOM",
};

const char *pick_root(struct dice *d)
{
    return roots[dice_below(d, sizeof roots / sizeof *roots)];
}

void set_text(uint8_t *out, size_t n, const char *text)
{
    size_t k = strlen(text);
    memset(out, ' ', n);
    memcpy(out, text, k < n ? k : n);
}

/* A ticker, or any text that keeps the rules. */
static void make_text(struct dice *d, uint8_t *out, size_t n)
{
    size_t k = dice_between(d, 1, n);
    if (dice_chance(d, 70)) {
        set_text(out, n, pick_root(d));
        return;
    }
    memset(out, ' ', n);
    for (size_t i = 0; i < k; i++)
        out[i] = (uint8_t)dice_between(d, '!', '~');
}

void break_text(struct dice *d, uint8_t *text, size_t n)
{
    size_t place = dice_below(d, n);
    switch (dice_below(d, 5)) {
    case 0:
        text[0] = ' ';
        break;
    case 1: /* a word after a space */
        place = dice_between(d, 1, n - 1);
        text[place - 1] = ' ';
        text[place] = (uint8_t)dice_between(d, '!', '~');
        break;
    case 2:
        text[place] = (uint8_t)dice_below(d, ' ');
        break;
    case 3:
        text[place] = (uint8_t)dice_between(d, 0x7F, 0xFF);
        break;
    default:
        text[place] = pick(d, "\x1F\x7F\x80\xFF\xA0\t");
        break;
    }
}

/* Message records. */

static struct plain_short_side make_short_side(struct dice *d)
{
    struct plain_short_side s;
    s.market = (uint16_t)pick_number(d, UINT16_MAX);
    s.price = (uint16_t)pick_number(d, UINT16_MAX);
    s.size = (uint16_t)pick_number(d, UINT16_MAX);
    s.customer = (uint16_t)pick_number(d, UINT16_MAX);
    s.professional = (uint16_t)pick_number(d, UINT16_MAX);
    return s;
}

static struct plain_long_side make_long_side(struct dice *d)
{
    struct plain_long_side s;
    s.market = (uint32_t)pick_number(d, UINT32_MAX);
    s.price = (uint32_t)pick_number(d, INT32_MAX);
    s.size = (uint32_t)pick_number(d, UINT32_MAX);
    s.customer = (uint32_t)pick_number(d, UINT32_MAX);
    s.professional = (uint32_t)pick_number(d, UINT32_MAX);
    return s;
}

static void make_directory(struct dice *d, struct plain_message *m)
{
    make_text(d, m->symbol, sizeof m->symbol);
    make_text(d, m->underlying, sizeof m->underlying);
    if (dice_chance(d, 50))
        memset(m->reserved, ' ', sizeof m->reserved);
    else
        dice_fill(d, m->reserved, sizeof m->reserved);
    m->directory.strike = (uint32_t)pick_number(d, INT32_MAX);
    m->directory.year = (uint8_t)pick_number(d, 99);
    m->directory.month = (uint8_t)dice_between(d, 1, 12);
    m->directory.day = (uint8_t)dice_between(d, 1, 31);
    m->directory.type = pick(d, types);
    m->directory.closing = pick(d, closings);
    m->directory.tradable = pick(d, tradables);
    m->directory.variation = pick(d, variations);
}

static void make_quote(struct dice *d, struct plain_message *m)
{
    uint8_t condition = pick(d, conditions);
    enum plain_which which = dice_chance(d, 50) ? PLAIN_BID : PLAIN_ASK;
    switch (m->kind) {
    case PLAIN_BOTH_SHORT:
        m->both_short.condition = condition;
        m->both_short.bid = make_short_side(d);
        m->both_short.ask = make_short_side(d);
        break;
    case PLAIN_BOTH_LONG:
        m->both_long.condition = condition;
        m->both_long.bid = make_long_side(d);
        m->both_long.ask = make_long_side(d);
        break;
    case PLAIN_ONE_SHORT:
        m->one_short.condition = condition;
        m->one_short.which = which;
        m->one_short.side = make_short_side(d);
        break;
    default:
        m->one_long.condition = condition;
        m->one_long.which = which;
        m->one_long.side = make_long_side(d);
        break;
    }
}

void make_message(struct dice *d, enum plain_kind kind, struct plain_message *m)
{
    memset(m, 0, sizeof *m);
    m->kind = kind;
    if (kind == PLAIN_REPLAY_END) {
        m->number = 1 + pick_number(d, PLAIN_MAX_NUMBER - 1);
        return;
    }
    m->tracking = (uint16_t)pick_number(d, UINT16_MAX);
    m->time = pick_number(d, PLAIN_MAX_TIME);
    if (kind == PLAIN_SYSTEM_EVENT) {
        m->code = pick(d, event_codes);
        return;
    }
    m->id = (uint32_t)pick_number(d, UINT32_MAX);
    if (kind == PLAIN_DIRECTORY)
        make_directory(d, m);
    else if (kind == PLAIN_STATE)
        m->state = pick(d, states);
    else
        make_quote(d, m);
}

void make_any_message(struct dice *d, struct plain_message *m)
{
    make_message(d, (enum plain_kind)dice_below(d, PLAIN_REPLAY_END + 1), m);
}

static uint32_t over_price(struct dice *d)
{
    return UINT32_C(0x80000000) | (uint32_t)pick_number(d, INT32_MAX);
}

static void break_directory(struct dice *d, struct plain_message *m)
{
    switch (dice_below(d, 10)) {
    case 0:
        break_text(d, m->symbol, sizeof m->symbol);
        break;
    case 1:
        break_text(d, m->underlying, sizeof m->underlying);
        break;
    case 2:
        m->directory.year = (uint8_t)dice_between(d, 100, 255);
        break;
    case 3:
        m->directory.month = (uint8_t)(dice_chance(d, 30) ? 0 : dice_between(d, 13, 255));
        break;
    case 4:
        m->directory.day = (uint8_t)(dice_chance(d, 30) ? 0 : dice_between(d, 32, 255));
        break;
    case 5:
        m->directory.strike = over_price(d);
        break;
    case 6:
        m->directory.type = pick_outside(d, types);
        break;
    case 7:
        m->directory.closing = pick_outside(d, closings);
        break;
    case 8:
        m->directory.tradable = pick_outside(d, tradables);
        break;
    default:
        m->directory.variation = pick_outside(d, variations);
        break;
    }
}

/* A short form's only rules are its condition and its time. */
static void break_quote(struct dice *d, struct plain_message *m)
{
    uint8_t condition = pick_outside(d, conditions);
    bool price = dice_chance(d, 60);
    switch (m->kind) {
    case PLAIN_BOTH_SHORT:
        m->both_short.condition = condition;
        break;
    case PLAIN_ONE_SHORT:
        m->one_short.condition = condition;
        break;
    case PLAIN_BOTH_LONG:
        if (!price)
            m->both_long.condition = condition;
        else if (dice_chance(d, 50))
            m->both_long.bid.price = over_price(d);
        else
            m->both_long.ask.price = over_price(d);
        break;
    default:
        if (price)
            m->one_long.side.price = over_price(d);
        else
            m->one_long.condition = condition;
        break;
    }
}

void break_message(struct dice *d, struct plain_message *m)
{
    if (m->kind == PLAIN_REPLAY_END) {
        m->number = dice_chance(d, 30) ? 0 : PLAIN_MAX_NUMBER + 1 +
                    pick_number(d, UINT64_MAX - PLAIN_MAX_NUMBER - 1);
    } else if (dice_chance(d, 25)) {
        m->time = PLAIN_MAX_TIME + 1 +
                  pick_number(d, UINT64_MAX - PLAIN_MAX_TIME - 1);
    } else if (m->kind == PLAIN_SYSTEM_EVENT) {
        m->code = pick_outside(d, event_codes);
    } else if (m->kind == PLAIN_DIRECTORY) {
        break_directory(d, m);
    } else if (m->kind == PLAIN_STATE) {
        m->state = pick_outside(d, states);
    } else {
        break_quote(d, m);
    }
}

static uint32_t vary_price(struct dice *d, uint32_t price, uint32_t highest)
{
    const uint32_t prices[] = {0, 1, highest, price};
    return prices[dice_below(d, 4)];
}

static void vary_short(struct dice *d, struct plain_short_side *s)
{
    s->price = (uint16_t)vary_price(d, s->price, UINT16_MAX);
}

static void vary_long(struct dice *d, struct plain_long_side *s)
{
    s->price = vary_price(d, s->price, INT32_MAX);
}

void vary_prices(struct dice *d, struct plain_message *m)
{
    switch (m->kind) {
    case PLAIN_BOTH_SHORT:
        vary_short(d, &m->both_short.bid);
        vary_short(d, &m->both_short.ask);
        break;
    case PLAIN_BOTH_LONG:
        vary_long(d, &m->both_long.bid);
        vary_long(d, &m->both_long.ask);
        break;
    case PLAIN_ONE_SHORT:
        vary_short(d, &m->one_short.side);
        break;
    case PLAIN_ONE_LONG:
        vary_long(d, &m->one_long.side);
        break;
    default:
        break;
    }
}

size_t make_message_bytes(struct dice *d, uint8_t *out, size_t room)
{
    struct plain_message m;
    size_t n;
    make_any_message(d, &m);
    if (plain_write(&m, out, room, &n) != 0)
        return 0;
    switch (dice_below(d, 8)) {
    case 0:
        set_any(d, &out[dice_below(d, n)]);
        break;
    case 1:
        flip_bit(d, &out[dice_below(d, n)]);
        break;
    case 2:
        n = dice_below(d, n + 1);
        break;
    case 3:
        if (n < room)
            out[n++] = dice_byte(d);
        break;
    case 4:
        out[0] = dice_byte(d);
        break;
    default:
        break;
    }
    return n;
}
