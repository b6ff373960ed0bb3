/* Tests of single messages: their fields, read and written. */
#include "parts.h"
#include "plaintest.h"

/* Which numbers of twenty characters a login and an end of replay take. */
static void login_number_case(const char *text, uint64_t value)
{
    uint8_t packet[] = LOGIN;
    struct bench b;
    struct plain_answer a;
    EQUAL(strlen(text), 20, "the case's own length");
    memcpy(packet + 13, text, 20);
    start(&b);
    if (value != 0)
        b.r.next = value;
    a = step(&b, packet, 33);
    EQUAL(a.refusal, value == 0 ? 4 : 0, text);
}

static void replay_number_case(const char *text, uint64_t value)
{
    uint8_t bytes[] = "M12345678901234567890";
    struct plain_message m;
    EQUAL(strlen(text), 20, "the case's own length");
    memcpy(bytes + 1, text, 20);
    EQUAL(plain_read(bytes, 21, &m), value == 0 ? 12 : 0, text);
    if (value == 0)
        return;
    EQUAL(m.kind, PLAIN_REPLAY_END, "kind");
    EQUAL(m.number, value, text);
}

static void numbers(void)
{
    login_number_case("                   1", 1);
    login_number_case("                   9", 9);
    login_number_case("       1000000000000", 1000000000000);
    login_number_case("        999999999999", 999999999999);
    login_number_case("       1000000000001", 0);
    login_number_case("      10000000000000", 0);
    login_number_case("      01000000000000", 0);
    login_number_case("18446744073709551617", 0);
    login_number_case("00000000000000000001", 0);
    login_number_case("                    ", 0);
    login_number_case("                  1 ", 0);
    login_number_case("1                   ", 0);
    login_number_case("                 1 2", 0);
    login_number_case("1                  1", 0);
    login_number_case("X                  1", 0);
    login_number_case("\t                  1", 0);
    login_number_case("                  +1", 0);
    login_number_case("                  1:", 0);
    login_number_case("                  1/", 0);
    login_number_case("                  01", 0);
    replay_number_case("1                   ", 1);
    replay_number_case("42                  ", 42);
    replay_number_case("1000000000000       ", 1000000000000);
    replay_number_case("1000000000001       ", 0);
    replay_number_case("01                  ", 0);
    replay_number_case("0                   ", 0);
    replay_number_case("                    ", 0);
    replay_number_case(" 1                  ", 0);
    replay_number_case("                   1", 0);
    replay_number_case("1 1                 ", 0);
    replay_number_case("12345678901234567890", 0);
    replay_number_case("10000000000000      ", 0);
    replay_number_case("1:                  ", 0);
}

/* One true message of each letter. */
static const struct {
    const char *bytes;
    size_t n;
} true_messages[] = {
    {"S" "\x00\x09" TIME "O", 12},
    {"m" "\x00\x01" TIME ID7 FIXED UNDERLYING "NYP" SPACES16, 63},
    {"H" "\x00\x02" TIME ID7 "T", 16},
    {"q" "\x00\x03" TIME ID7 " " SHORT_BID SHORT_ASK, 36},
    {"Q" "\x00\x04" TIME ID7 "X" LONG_BID LONG_ASK, 56},
    {"b" "\x00\x05" TIME ID7 " " SHORT_BID, 26},
    {"a" "\x00\x06" TIME ID7 "Y" SHORT_ASK, 26},
    {"B" "\x00\x07" TIME ID7 "X" LONG_BID, 36},
    {"A" "\x00\x08" TIME ID7 " " LONG_ASK, 36},
    {"M" "123456" "              ", 21},
};

/* Whether a byte may stand at a place of a true message, the rest as it is.
 * Texts, times and numbers have cases of their own. */
static bool may_stand(char letter, size_t at, unsigned b)
{
    const char *list = NULL;
    if (letter == 'm' && at == 23)
        return b <= 99;
    if (letter == 'm' && at == 24)
        return b >= 1 && b <= 12;
    if (letter == 'm' && at == 25)
        return b >= 1 && b <= 31;
    if ((letter == 'm' && at == 26) || (strchr("QBA", letter) && at == 20) ||
        (letter == 'Q' && at == 40))
        return b <= 127;
    if (letter == 'S' && at == 11)
        list = "OSQNLECW";
    if (letter == 'm' && at == 30)
        list = "CPN";
    if (letter == 'm' && at == 44)
        list = "NLW";
    if (letter == 'm' && at == 45)
        list = "YN";
    if (letter == 'm' && at == 46)
        list = "ESP";
    if (letter == 'H' && at == 15)
        list = "BSHTIORX";
    if (strchr("qQbaBA", letter) && at == 15)
        list = " XY";
    return list == NULL || (b != 0 && strchr(list, (int)b) != NULL);
}

static void every_byte(void)
{
    for (size_t k = 0; k < sizeof true_messages / sizeof *true_messages - 1; k++) {
        const char *true_bytes = true_messages[k].bytes;
        for (size_t at = 1; at < true_messages[k].n; at++) {
            bool text = true_bytes[0] == 'm' && ((at >= 15 && at < 23) || (at >= 31 && at < 44));
            if (text || (at >= 3 && at < 11))
                continue;
            for (unsigned v = 0; v < 256; v++) {
                uint8_t bytes[63];
                struct plain_message m;
                memcpy(bytes, true_bytes, true_messages[k].n);
                bytes[at] = (uint8_t)v;
                EQUAL(plain_read(bytes, true_messages[k].n, &m),
                      may_stand(true_bytes[0], at, v) ? 0 : 12, "a byte in its place");
            }
        }
    }
}

static void letters_and_lengths(void)
{
    static const char letters[] = "SmHqQbaBAM";
    static const size_t lengths[] = {12, 63, 16, 36, 56, 26, 26, 36, 36, 21};
    uint8_t bytes[300];
    struct plain_message m;
    EQUAL(plain_read(NULL, 0, &m), 10, "an empty message");
    for (unsigned letter = 0; letter < 256; letter++) {
        const char *place = letter ? strchr(letters, (int)letter) : NULL;
        for (size_t n = 1; n < sizeof bytes; n++) {
            memset(bytes, 0xFF, sizeof bytes);
            bytes[0] = (uint8_t)letter;
            EQUAL(plain_read(bytes, n, &m),
                  !place ? 10 : n != lengths[place - letters] ? 11 : 12,
                  "letter and length");
        }
    }
}

static void text_case(const char *symbol, const char *underlying, int refusal)
{
    uint8_t bytes[63], row_packet[66] = "\x00\x40" "S";
    struct plain_message m;
    struct bench b;
    EXPECT(strlen(symbol) == 8 && strlen(underlying) == 13, "the case's own length");
    memcpy(bytes, true_messages[1].bytes, 63);
    memcpy(bytes + 15, symbol, 8);
    memcpy(bytes + 31, underlying, 13);
    EQUAL(plain_read(bytes, 63, &m), refusal, symbol);
    memcpy(row_packet + 3, bytes, 63);
    start(&b);
    feed(&b, LITERAL(LOGIN));
    EQUAL(step(&b, row_packet, 66).refusal, refusal, "the text in a packet");
}

static void texts(void)
{
    text_case("A       ", "B            ", 0);
    text_case("ABCDEFGH", "ABCDEFGHIJKLM", 0);
    text_case("!~!~    ", "~~~~~~~~~~~~~", 0);
    text_case("        ", "B            ", 12);
    text_case("A       ", "             ", 12);
    text_case(" A      ", "B            ", 12);
    text_case("A      B", "B            ", 12);
    text_case("A B     ", "B            ", 12);
    text_case("A       ", "B           C", 12);
    text_case("A       ", " BBBBBBBBBBBB", 12);
    text_case("A\x7F      ", "B            ", 12);
    text_case("A\x1F      ", "B            ", 12);
    text_case("A\x80      ", "B            ", 12);
    text_case("A\t      ", "B            ", 12);
    text_case("A       ", "BBBBBBBBBBBB\xFF", 12);
    text_case("A      \x01", "B            ", 12);
}

static void times(void)
{
    for (size_t k = 0; k + 1 < sizeof true_messages / sizeof *true_messages; k++) {
        uint8_t bytes[63];
        struct plain_message m;
        memcpy(bytes, true_messages[k].bytes, true_messages[k].n);
        memcpy(bytes + 3, "\x00\x00\x4E\x94\x91\x4E\xFF\xFF", 8);
        EQUAL(plain_read(bytes, true_messages[k].n, &m), 0, "the last time");
        EQUAL(m.time, 86399999999999u, "the last time");
        memcpy(bytes + 3, "\x00\x00\x4E\x94\x91\x4F\x00\x00", 8);
        EQUAL(plain_read(bytes, true_messages[k].n, &m), 12, "a day");
        memcpy(bytes + 3, "\xFF\xFF\xFF\xFF\xFF\xFF\xFF\xFF", 8);
        EQUAL(plain_read(bytes, true_messages[k].n, &m), 12, "the largest number");
        memcpy(bytes + 3, "\x80\x00\x00\x00\x00\x00\x00\x00", 8);
        EQUAL(plain_read(bytes, true_messages[k].n, &m), 12, "the top bit");
        memset(bytes + 3, 0, 8);
        EQUAL(plain_read(bytes, true_messages[k].n, &m), 0, "midnight");
    }
}

/* Every field of the records, each with its own value. */
static void records(void)
{
    static const uint8_t no_text[16];
    struct plain_message m;
    EQUAL(plain_read((const uint8_t *)true_messages[1].bytes, 63, &m), 0, "m");
    EXPECT(m.kind == PLAIN_DIRECTORY && m.tracking == 1 && m.time == 34200123456789 &&
               m.id == 7 && m.directory.year == 25 && m.directory.month == 6 &&
               m.directory.day == 20 && m.directory.strike == 1750000 &&
               m.directory.type == 'C' && m.directory.closing == 'N' &&
               m.directory.tradable == 'Y' && m.directory.variation == 'P', "m's fields");
    EXPECT(memcmp(m.symbol, "AAPL    ", 8) == 0 && memcmp(m.underlying, UNDERLYING, 13) == 0 &&
               memcmp(m.reserved, SPACES16, 16) == 0, "m's texts");
    EQUAL(plain_read((const uint8_t *)true_messages[3].bytes, 36, &m), 0, "q");
    EXPECT(m.kind == PLAIN_BOTH_SHORT && m.both_short.condition == ' ' &&
               m.both_short.bid.market == 0 && m.both_short.bid.price == 125 &&
               m.both_short.bid.size == 10 && m.both_short.bid.customer == 4 &&
               m.both_short.bid.professional == 1 && m.both_short.ask.market == 3 &&
               m.both_short.ask.price == 65535 && m.both_short.ask.size == 65534 &&
               m.both_short.ask.customer == 256 && m.both_short.ask.professional == 2, "q's fields");
    EXPECT(memcmp(m.symbol, no_text, 8) == 0 && memcmp(m.underlying, no_text, 13) == 0 &&
               memcmp(m.reserved, no_text, 16) == 0, "no texts beside a quote");
    EQUAL(plain_read((const uint8_t *)true_messages[8].bytes, 36, &m), 0, "A");
    EXPECT(m.kind == PLAIN_ONE_LONG && m.one_long.which == PLAIN_ASK &&
               m.one_long.condition == ' ' && m.one_long.side.market == 6 &&
               m.one_long.side.price == 12501 && m.one_long.side.size == 11 &&
               m.one_long.side.customer == 12 && m.one_long.side.professional == 13, "A's fields");
    EQUAL(plain_read((const uint8_t *)true_messages[5].bytes, 26, &m), 0, "b");
    EXPECT(m.kind == PLAIN_ONE_SHORT && m.one_short.which == PLAIN_BID &&
               m.one_short.side.price == 125, "b's fields");
    EQUAL(plain_read((const uint8_t *)true_messages[2].bytes, 16, &m), 0, "H");
    EXPECT(m.kind == PLAIN_STATE && m.state == 'T' && m.id == 7 && m.tracking == 2, "H's fields");
}

/* A price as its record has it, none as 0; both sides of a quote have the same. */
static uint32_t price_in(const struct plain_message *m)
{
    switch (m->kind) {
    case PLAIN_BOTH_SHORT:
        EQUAL(m->both_short.bid.price, m->both_short.ask.price, "both prices");
        return m->both_short.bid.price;
    case PLAIN_BOTH_LONG:
        EQUAL(m->both_long.bid.price, m->both_long.ask.price, "both prices");
        return m->both_long.bid.price;
    case PLAIN_ONE_SHORT:
        return m->one_short.side.price;
    default:
        return m->one_long.side.price;
    }
}

/* A quote with one price on each of its sides: read, and written back the same. */
static void price_case(size_t k, uint32_t price)
{
    uint8_t bytes[56], out[56];
    struct plain_message m;
    size_t n = true_messages[k].n, written;
    char letter = true_messages[k].bytes[0];
    size_t width = strchr("qba", letter) ? 2 : 4;
    memcpy(bytes, true_messages[k].bytes, n);
    set_number(bytes + 16 + width, width, price);
    if (letter == 'q' || letter == 'Q')
        set_number(bytes + 16 + 6 * width, width, price);
    EQUAL(plain_read(bytes, n, &m), 0, "a price read");
    EQUAL(price_in(&m), price, "a price");
    EQUAL(plain_write(&m, out, sizeof out, &written), 0, "a price written");
    EXPECT(written == n && memcmp(bytes, out, n) == 0, "the same bytes");
}

/* None, 1 and the highest of the form, in each letter; and a strike of 0. */
static void prices(void)
{
    uint8_t bytes[63];
    struct plain_message m;
    for (size_t k = 3; k <= 8; k++) {
        price_case(k, 0);
        price_case(k, 1);
        price_case(k, strchr("qba", true_messages[k].bytes[0]) ? 0xFFFF : 0x7FFFFFFF);
    }
    memcpy(bytes, true_messages[1].bytes, 63);
    memset(bytes + 26, 0, 4);
    EQUAL(plain_read(bytes, 63, &m), 0, "a strike of 0");
    EQUAL(m.directory.strike, 0, "a strike of 0 is a number");
}

/* Writing gives back the bytes; 26 comes before 25; neither writes. */
static void writing(void)
{
    for (size_t k = 0; k < sizeof true_messages / sizeof *true_messages; k++) {
        struct plain_message m;
        uint8_t out[64];
        size_t n = true_messages[k].n, written;
        memset(&m, 0x55, sizeof m);
        EQUAL(plain_read((const uint8_t *)true_messages[k].bytes, n, &m), 0, "read");
        memset(out, 0x44, sizeof out);
        EQUAL(plain_write(&m, out, n - 1, &written), 25, "too short");
        EXPECT(written == 0 && out[0] == 0x44, "nothing written");
        EQUAL(plain_write(&m, out, n, &written), 0, "write");
        EQUAL(written, n, "length written");
        EXPECT(memcmp(out, true_messages[k].bytes, n) == 0, "the same bytes");
        EQUAL(out[n], 0x44, "nothing past the message");
        if (m.kind != PLAIN_DIRECTORY) {
            memset(m.symbol, 0xFF, sizeof m.symbol);
            EQUAL(plain_write(&m, out, n, &written), 0, "texts beside another kind");
        }
        if (m.kind == PLAIN_REPLAY_END)
            m.number = PLAIN_MAX_NUMBER + 1;
        else
            m.time = PLAIN_MAX_TIME + 1;
        memset(out, 0x44, sizeof out);
        EQUAL(plain_write(&m, out, 0, &written), 26, "26 before 25");
        EQUAL(plain_write(&m, out, sizeof out, &written), 26, "26");
        EXPECT(written == 0 && out[0] == 0x44, "nothing written");
    }
}

static void write_refused(struct plain_message m, const char *what)
{
    uint8_t out[64];
    size_t written;
    EQUAL(plain_write(&m, out, sizeof out, &written), 26, what);
}

static void records_broken(void)
{
    struct plain_message m, c;
    plain_read((const uint8_t *)true_messages[1].bytes, 63, &m);
    c = m, c.symbol[0] = ' ', write_refused(c, "symbol");
    c = m, c.underlying[12] = 'x', write_refused(c, "underlying");
    c = m, c.directory.year = 100, write_refused(c, "year");
    c = m, c.directory.month = 0, write_refused(c, "month 0");
    c = m, c.directory.month = 13, write_refused(c, "month 13");
    c = m, c.directory.day = 0, write_refused(c, "day 0");
    c = m, c.directory.day = 32, write_refused(c, "day 32");
    c = m, c.directory.strike = 0x80000000, write_refused(c, "strike");
    c = m, c.directory.type = 0, write_refused(c, "type");
    c = m, c.directory.closing = 'Y', write_refused(c, "closing");
    c = m, c.directory.tradable = ' ', write_refused(c, "tradable");
    c = m, c.directory.variation = 'N', write_refused(c, "variation");
    plain_read((const uint8_t *)true_messages[4].bytes, 56, &m);
    c = m, c.both_long.condition = 'Z', write_refused(c, "condition");
    c = m, c.both_long.bid.price = 0x80000000, write_refused(c, "bid");
    c = m, c.both_long.ask.price = 0xFFFFFFFF, write_refused(c, "ask");
    plain_read((const uint8_t *)true_messages[7].bytes, 36, &m);
    c = m, c.one_long.side.price = 0x80000000, write_refused(c, "one side's price");
    c = m, c.one_long.which = (enum plain_which)2, write_refused(c, "no such side");
    c = m, c.kind = (enum plain_kind)8, write_refused(c, "no such kind");
    plain_read((const uint8_t *)true_messages[9].bytes, 21, &m);
    c = m, c.number = 0, write_refused(c, "number 0");
}

void test_messages(void)
{
    numbers();
    every_byte();
    letters_and_lengths();
    texts();
    times();
    records();
    prices();
    writing();
    records_broken();
}
