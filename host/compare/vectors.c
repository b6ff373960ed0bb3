/* Runs the cases of vectors.txt, by the library and by the plain reader, and
 * prints each that did not come as it is written there. The text says what a
 * line is; here each command is a function that tells what came in words. */
#include "calls.h"
#include "generate.h"
#include "nelqubat.h"

#include <ctype.h>
#include <stdarg.h>
#include <stdbool.h>
#include <stdio.h>
#include <stdlib.h>
#include <string.h>

enum {
    ROOM = 1 << 16,       /* of a memory and a line's words */
    TEXT_ROOM = 1 << 19,
    LOG_ROOM = 1 << 20,
    PACKETS = 64,
    NAME_ROOM = 32,
    RING = 256            /* of numbers, where the text names no other */
};

_Static_assert(ROOM > NELQUBAT_IMAGE_BYTES + NELQUBAT_BLOCK_BYTES, "an image that is too long has room");

struct memory {
    size_t n;
    uint8_t bytes[ROOM];
};

/* The memories that a text can name, those of a reader first, and those beside them. */
enum place { HANDLE, TABLE, INDEX, READER, EVENT = READER, RECORD, IMAGE, OUT, SPARE, NAMED, GIVEN = NAMED, PLACES };

static const char *const memory_names[NAMED] = {
    "handle", "table", "index", "event", "record", "image", "out", "spare"};

/* What the header says that they have; 0 where a case says it. */
static const size_t memory_sizes[NAMED] = {
    [HANDLE] = NELQUBAT_HANDLE_BYTES, [TABLE] = NELQUBAT_TABLE_BYTES, [INDEX] = NELQUBAT_INDEX_BYTES,
    [EVENT] = NELQUBAT_RECORD_BYTES, [RECORD] = NELQUBAT_RECORD_BYTES};

static const struct calls *calls;
static struct memory memories[PLACES];
static struct memory kept[READER];  /* handle, table and index that a case starts from */
static struct memory begun[READER]; /* the same, without what the case sets */
static struct memory whole[READER]; /* those that a run in one piece left */
static uint8_t tape[LOG_ROOM], whole_tape[LOG_ROOM];
static size_t tape_n, whole_tape_n, events;

static struct packet {
    char name[NAME_ROOM];
    struct memory bytes;
} packets[PACKETS];
static size_t packet_count;

static char came[ROOM]; /* what came of a line, in words */
static size_t came_n;
static bool broken;     /* the line cannot be run */
static bool checked;    /* the bytes given had the item `checked` */
static size_t base;     /* where the packet or memory that was named last begins */
static size_t full;     /* what the memory has that the bytes are for, or 0 */

/* ---- words */

static void add(const char *format, ...)
{
    va_list list;
    va_start(list, format);
    int n = vsnprintf(came + came_n, sizeof came - came_n, format, list);
    va_end(list);
    if (n < 0 || (size_t)n >= sizeof came - came_n)
        broken = true;
    else
        came_n += (size_t)n;
}

/* A comma, unless nothing came so far or it goes on after a space. */
static void tell(const char *words)
{
    if (came_n != 0 && came[came_n - 1] != ' ')
        add(", ");
    add("%s", words);
}

static void fault(const char *words)
{
    broken = true;
    tell(words);
}

static void tell_left(const char *what, bool is_left)
{
    tell(what);
    add(is_left ? " left" : " CHANGED");
}

static void tell_same(bool is_same)
{
    tell(is_same ? "the same" : "DIFFERENT");
}

static void tell_count(size_t n, const char *words)
{
    tell("");
    add("%zu %s", n, words);
}

/* ---- memories */

static bool same(const struct memory *a, const struct memory *b)
{
    return a->n == b->n && memcmp(a->bytes, b->bytes, a->n) == 0;
}

static void fill_memory(struct memory *m, size_t n, uint8_t byte)
{
    if (n > ROOM) {
        fault("? room");
        return;
    }
    m->n = n;
    memset(m->bytes, byte, n);
}

static void append(const uint8_t *bytes, size_t n)
{
    struct memory *given = &memories[GIVEN];
    if (n > ROOM - given->n) {
        fault("? room");
        return;
    }
    memcpy(given->bytes + given->n, bytes, n);
    given->n += n;
}

static uint64_t number_at(const struct memory *m, size_t at)
{
    if (at + 8 > m->n)
        fault("? place");
    return nelqubat_get(m->bytes + at, 8);
}

/* The check of a block, put right. */
static void put_check(uint8_t *block)
{
    struct bytes one = {block, NELQUBAT_BLOCK_BYTES, NELQUBAT_BLOCK_BYTES};
    seal_image(&one);
}

/* ---- bytes as the text writes them */

/* The next word of a line, cut off in place; "" at its end. A text in quotes
 * is one word with what stands before it. */
static char *next_word(char **line)
{
    char *s = *line + strspn(*line, " ");
    char *end = s + strcspn(s, " \"");
    if (*end == '"') {
        char *close = strchr(end + 1, '"');
        end = close ? close + 1 : end + strlen(end);
    }
    *line = end + (*end != 0);
    *end = 0;
    return s;
}

static bool is_number(const char *s, size_t *n)
{
    char *end;
    if (!isdigit((unsigned char)*s))
        return false;
    *n = strtoul(s, &end, 10);
    return *end == 0 && *n < ROOM;
}

static size_t next_number(char **line)
{
    size_t n = 0;
    if (!is_number(next_word(line), &n))
        fault("? number");
    return n;
}

/* A run's ceiling, which may be any number of 32 bits. */
static uint32_t next_ceiling(char **line)
{
    char *word = next_word(line), *end;
    unsigned long long n = strtoull(word, &end, 10);
    if (!isdigit((unsigned char)*word) || *end != 0 || n > UINT32_MAX)
        fault("? ceiling");
    return (uint32_t)n;
}

static bool is_pair(const char *s, uint8_t *byte)
{
    char two[3] = {s[0], s[0] ? s[1] : 0, 0};
    if (!isxdigit((unsigned char)two[0]) || !isxdigit((unsigned char)two[1]))
        return false;
    *byte = (uint8_t)strtoul(two, 0, 16);
    return true;
}

/* Hex pairs, a text, or a pair so many times. */
static bool lay_plain(const char *s)
{
    uint8_t byte = 0;
    size_t n = strlen(s);
    if (*s == '"' && n >= 2 && s[n - 1] == '"') {
        append((const uint8_t *)s + 1, n - 2);
        return true;
    }
    if (n > 3 && s[2] == '*' && is_pair(s, &byte) && is_number(s + 3, &n)) {
        while (n-- > 0)
            append(&byte, 1);
        return true;
    }
    if (n % 2 != 0)
        return false;
    for (; *s; s += 2) {
        if (!is_pair(s, &byte))
            return false;
        append(&byte, 1);
    }
    return true;
}

/* A pair and a star: as often as the memory has room for it. */
static bool lay_rest(const char *s)
{
    uint8_t byte = 0;
    if (strlen(s) != 3 || !is_pair(s, &byte) || full == 0)
        return false;
    while (memories[GIVEN].n < full)
        append(&byte, 1);
    return true;
}

/* Nothing, or %R for a ring of R numbers. */
static bool is_ring(const char *s, size_t *ring)
{
    *ring = RING;
    return *s == 0 || (*s == '%' && is_number(s + 1, ring) && *ring != 0);
}

/* FROM+STEP*N: so many numbers of two bytes, in a ring. */
static bool lay_ring(const char *s)
{
    size_t number, step, count, ring;
    int end = 0;
    if (sscanf(s, "%zu+%zu*%zu%n", &number, &step, &count, &end) != 3 || !is_ring(s + end, &ring))
        return false;
    for (; count > 0; count--, number += step) {
        uint8_t two[2];
        nelqubat_set(two, 2, number % ring);
        append(two, 2);
    }
    return true;
}

/* PLACE:BYTES puts bytes in, counted from the base; PLACE::BYTES into each block. */
static bool lay_edit(char *s)
{
    struct memory *given = &memories[GIVEN];
    size_t at, n = given->n;
    char *colon = strchr(s, ':');
    bool is_each = colon[1] == ':';
    *colon = 0;
    if (!is_number(s, &at) || !lay_plain(colon + (is_each ? 2 : 1)))
        return false;
    size_t more = given->n - n;
    given->n = n;
    at += base;
    do {
        if (at + more > n)
            return false;
        memcpy(given->bytes + at, given->bytes + n, more);
        at += NELQUBAT_BLOCK_BYTES;
    } while (is_each && at < n);
    return true;
}

/* N- drops the first N bytes of all that is given, -N the last. */
static bool lay_drop(char *s)
{
    struct memory *given = &memories[GIVEN];
    size_t less;
    bool is_last = *s == '-';
    if (is_last)
        s++;
    else
        s[strlen(s) - 1] = 0;
    if (!is_number(s, &less) || less > given->n)
        return false;
    given->n -= less;
    if (!is_last)
        memmove(given->bytes, given->bytes + less, given->n);
    return true;
}

static bool find_memory(const char *name, enum place *place)
{
    for (size_t i = 0; i < NAMED; i++)
        if (strcmp(name, memory_names[i]) == 0) {
            *place = (enum place)i;
            return true;
        }
    return false;
}

static struct packet *find_packet(const char *name)
{
    for (size_t i = 0; i < packet_count; i++)
        if (strcmp(name, packets[i].name) == 0)
            return &packets[i];
    return 0;
}

static bool lay_named(const char *s)
{
    enum place place;
    const struct packet *packet = find_packet(s);
    if (!packet && !find_memory(s, &place))
        return lay_plain(s);
    const struct memory *m = packet ? &packet->bytes : &memories[place];
    base = memories[GIVEN].n;
    append(m->bytes, m->n);
    return true;
}

static bool lay_checked(void)
{
    struct memory *given = &memories[GIVEN];
    checked = true;
    for (size_t at = 0; at + 512 <= given->n; at += 512)
        put_check(given->bytes + at);
    return true;
}

static bool lay_item(char *s)
{
    if (*s == '"')
        return lay_plain(s);
    if (strchr(s, ':'))
        return lay_edit(s);
    if (*s == '-' || s[strlen(s) - 1] == '-')
        return lay_drop(s);
    if (strchr(s, '+'))
        return lay_ring(s);
    if (s[strlen(s) - 1] == '*')
        return lay_rest(s);
    if (strcmp(s, "checked") == 0)
        return lay_checked();
    return lay_named(s);
}

/* All items of the rest of a command, laid one behind the other. */
static void lay(char *line)
{
    memories[GIVEN].n = 0;
    base = 0;
    checked = false;
    for (char *s = next_word(&line); *s; s = next_word(&line))
        if (!lay_item(s))
            fault("? bytes");
}

/* The same, for a memory with a size of its own. */
static void lay_for(enum place place, char *line)
{
    full = memory_sizes[place];
    lay(line);
    full = 0;
}

/* ---- calls */

static unsigned kind_of(uint32_t answer)
{
    return answer / 256 % 256;
}

static uint32_t call_step(const uint8_t *piece, size_t n)
{
    struct memory *handle = &memories[HANDLE], *table = &memories[TABLE], *index = &memories[INDEX];
    struct memory *event = &memories[EVENT];
    return calls->step(handle->bytes, handle->n, table->bytes, table->n, index->bytes, index->n, piece, n,
                       event->bytes, event->n);
}

static uint64_t call_run(const uint8_t *piece, size_t n, uint32_t ceiling)
{
    struct memory *handle = &memories[HANDLE], *table = &memories[TABLE], *index = &memories[INDEX];
    return calls->run(handle->bytes, handle->n, table->bytes, table->n, index->bytes, index->n, piece, n, ceiling);
}

static uint32_t call_start(void)
{
    tape_n = events = 0;
    return calls->start(memories[HANDLE].bytes, memories[HANDLE].n, memories[TABLE].bytes, memories[TABLE].n,
                        memories[INDEX].bytes, memories[INDEX].n);
}

static uint32_t call_restore(const uint8_t *image, size_t n)
{
    return calls->restore(memories[HANDLE].bytes, memories[HANDLE].n, memories[TABLE].bytes, memories[TABLE].n,
                          memories[INDEX].bytes, memories[INDEX].n, image, n);
}

static uint32_t call_save(void)
{
    return calls->save(memories[HANDLE].bytes, memories[HANDLE].n, memories[TABLE].bytes, memories[TABLE].n,
                       memories[OUT].bytes, memories[OUT].n);
}

/* A move of an image that is given, to out. */
static uint32_t call_move(bool is_forward, const uint8_t *image, size_t n)
{
    struct memory *out = &memories[OUT];
    return (is_forward ? calls->forward : calls->back)(image, n, out->bytes, out->n);
}

/* Kind, refusal and event memory, so that two runs that tell the same have the same tape. */
static void note(uint32_t answer)
{
    struct memory *event = &memories[EVENT];
    if (tape_n + 2 + event->n > LOG_ROOM) {
        fault("? tape");
        return;
    }
    nelqubat_set(tape + tape_n, 2, answer % 65536);
    memcpy(tape + tape_n + 2, event->bytes, event->n);
    tape_n += 2 + event->n;
    events += kind_of(answer) < NELQUBAT_ENDED;
}

/* Steps through bytes in pieces of one size, until the reader takes no more. */
static void feed(const uint8_t *bytes, size_t n, size_t size)
{
    for (size_t at = 0, end = 0; at < n;) {
        if (at >= end)
            end = size < n - at ? at + size : n;
        memset(memories[EVENT].bytes, 0, memories[EVENT].n);
        uint32_t answer = call_step(bytes + at, end - at);
        at += nelqubat_taken(answer);
        if (kind_of(answer) != NELQUBAT_MORE)
            note(answer);
        if (kind_of(answer) >= NELQUBAT_ENDED)
            return;
    }
}

static void feed_given(size_t size)
{
    feed(memories[GIVEN].bytes, memories[GIVEN].n, size);
}

/* ---- what is told of an answer */

static void tell_step(uint32_t answer)
{
    static const char *const kinds[] = {
        "more wanted", "login ", "rejected ", 0, "heartbeat", "end", "skipped", "ended", "refused "};
    static const char *const messages[] = {
        "Ssystem event", "mdirectory", "Htrading action", "qshort quote", "Qlong quote",
        "bshort side", "ashort side", "Blong side", "Along side", "Mend of replay"};
    unsigned kind = kind_of(answer);
    const char *words = kind <= NELQUBAT_REFUSED && kinds[kind] ? kinds[kind] : "no such kind";
    if (kind == NELQUBAT_MESSAGE)
        for (size_t i = 0; i < sizeof messages / sizeof *messages; i++)
            if (messages[i][0] == (char)memories[EVENT].bytes[0])
                words = messages[i] + 1;
    tell(words);
    if (kind == NELQUBAT_LOGIN)
        add("%llu", (unsigned long long)nelqubat_get(memories[EVENT].bytes, 8));
    if (kind == NELQUBAT_REJECTED)
        add("%u", memories[EVENT].bytes[0]);
    if (kind == NELQUBAT_REFUSED)
        add("%u", answer % 256);
    tell_count(answer / 65536, "taken");
}

static void tell_run(uint64_t answer)
{
    static const char *const whys[] = {
        [NELQUBAT_MORE] = "more wanted", [NELQUBAT_ENDED] = "ended", [NELQUBAT_REFUSED] = "refused ",
        [NELQUBAT_CEILING] = "ceiling"};
    unsigned why = nelqubat_run_why(answer), refusal = nelqubat_run_refusal(answer);
    tell(why <= NELQUBAT_CEILING && whys[why] ? whys[why] : "no such reason");
    if (why == NELQUBAT_REFUSED || refusal != 0)
        add("%u", refusal);
    tell_count(nelqubat_run_finished(answer), "finished");
    tell_count(nelqubat_run_taken(answer), "taken");
}

static void tell_refusal(uint32_t answer, const char *words)
{
    tell(answer % 256 == 0 ? words : "refused ");
    if (answer % 256 != 0)
        add("%u", answer % 256);
}

/* What was written to bytes ee, and are those behind it left? The memory then has what was written. */
static void tell_output(uint32_t answer)
{
    struct memory *out = &memories[OUT];
    size_t n = answer / 256;
    bool is_left = n <= out->n;
    for (size_t i = n; i < out->n; i++)
        is_left &= out->bytes[i] == 0xee;
    if (answer % 256 == 0)
        tell_count(n, "written");
    else
        tell_refusal(answer, "");
    tell_left("rest", is_left);
    out->n = n < out->n ? n : out->n;
}

/* ---- handles, compared */

/* All but the standing refusal and what is held; and nothing is held. */
static bool handle_left(void)
{
    const uint8_t *a = memories[HANDLE].bytes, *b = kept[HANDLE].bytes;
    return memcmp(a, b, 24) == 0 && memcmp(a + 32, b + 32, 13) == 0 && a[46] == b[46] && number_at(&memories[HANDLE], 24) == 0;
}

/* Places past the held bytes don't count. */
static bool same_reader(const struct memory *a, const struct memory *b)
{
    uint64_t held = number_at(a, 24);
    return held > 258 ? same(a, b) : a->n == b->n && memcmp(a->bytes, b->bytes, 47 + (size_t)held) == 0;
}

static bool as_whole(void)
{
    return same_reader(&memories[HANDLE], &whole[HANDLE]) && same(&memories[TABLE], &whole[TABLE]) &&
           same(&memories[INDEX], &whole[INDEX]) &&
           tape_n == whole_tape_n && memcmp(tape, whole_tape, tape_n) == 0;
}

static void keep(void)
{
    memcpy(kept, memories, sizeof kept);
}

static void go_back(void)
{
    memcpy(memories, kept, sizeof kept);
}

/* ---- commands that make the state that cases start from */

static void check_taken(void)
{
    if (memories[HANDLE].bytes[45] != 0 || number_at(&memories[HANDLE], 24) != 0)
        fault("? refused or unfinished");
}

static void do_begin(char *line)
{
    lay(line);
    fill_memory(&memories[HANDLE], NELQUBAT_HANDLE_BYTES, 0);
    fill_memory(&memories[TABLE], NELQUBAT_TABLE_BYTES, 0);
    fill_memory(&memories[INDEX], NELQUBAT_INDEX_BYTES, 0);
    call_start();
    feed_given(ROOM);
    check_taken();
}

static enum place next_memory(char **line)
{
    enum place place = SPARE;
    if (!find_memory(next_word(line), &place))
        fault("? memory");
    return place;
}

static void do_set(char *line)
{
    enum place place = next_memory(&line);
    lay_for(place, line);
    memories[place] = memories[GIVEN];
    if (place < READER)
        kept[place] = memories[GIVEN];
}

/* So many packets of one kind, each with its own number in it. */
struct series {
    size_t count, at, number, step, ring;
};

static struct series next_series(char **line)
{
    struct series s = {.ring = RING};
    s.count = next_number(line);
    s.at = next_number(line);
    s.number = next_number(line);
    char *word = next_word(line), *sign = word + strcspn(word, "%");
    if (!is_ring(sign, &s.ring)) {
        fault("? ring");
        s.ring = RING;
    }
    *sign = 0;
    if (!is_number(word, &s.step))
        fault("? number");
    lay(*line);
    if (s.at + 4 > memories[GIVEN].n) {
        fault("? place");
        s.count = 0;
    }
    return s;
}

/* The next number into the packet that is given; false when there were so many. */
static bool next_packet(struct series *s)
{
    if (s->count == 0)
        return false;
    nelqubat_set(memories[GIVEN].bytes + s->at, 4, s->number % s->ring);
    s->count--;
    s->number += s->step;
    return true;
}

static void do_fill(char *line)
{
    struct series s = next_series(&line);
    while (next_packet(&s))
        feed_given(ROOM);
    check_taken();
}

static void do_copies(char *line)
{
    struct series s = next_series(&line);
    struct memory *spare = &memories[SPARE];
    const struct memory *given = &memories[GIVEN];
    spare->n = 0;
    while (next_packet(&s)) {
        if (given->n > ROOM - spare->n) {
            fault("? room");
            return;
        }
        memcpy(spare->bytes + spare->n, given->bytes, given->n);
        spare->n += given->n;
    }
}

static void do_packet(char *line)
{
    char *name = next_word(&line);
    if (packet_count == PACKETS || find_packet(name) || !isupper((unsigned char)*name) || strlen(name) >= NAME_ROOM) {
        fault("? name");
        return;
    }
    lay(line);
    strcpy(packets[packet_count].name, name);
    packets[packet_count++].bytes = memories[GIVEN];
}

/* ---- commands that call */

static void do_start(char *line)
{
    lay(line);
    tell_refusal(call_start(), "started");
}

static void do_step(char *line)
{
    lay(line);
    tell_step(call_step(memories[GIVEN].bytes, memories[GIVEN].n));
}

static void do_run(char *line)
{
    uint32_t ceiling = next_ceiling(&line);
    lay(line);
    tell_run(call_run(memories[GIVEN].bytes, memories[GIVEN].n, ceiling));
}

static void do_feed(char *line)
{
    lay(line);
    tape_n = events = 0;
    feed_given(ROOM);
    tell_count(events, "events");
}

static void do_restore(char *line)
{
    lay(line);
    tell_refusal(call_restore(memories[GIVEN].bytes, memories[GIVEN].n), "accepted");
}

static void do_read(char *line)
{
    lay(line);
    tell_refusal(calls->read(memories[GIVEN].bytes, memories[GIVEN].n, memories[RECORD].bytes, memories[RECORD].n), "read");
}

static void do_write(char *line)
{
    size_t n = next_number(&line);
    lay(line);
    fill_memory(&memories[OUT], n, 0xee);
    tell_output(calls->write(memories[GIVEN].bytes, memories[GIVEN].n, memories[OUT].bytes, n));
}

static void do_save(char *line)
{
    size_t n = next_number(&line);
    lay(line);
    fill_memory(&memories[OUT], n, 0xee);
    tell_output(call_save());
}

static void move(char *line, bool is_forward)
{
    size_t n = next_number(&line);
    lay(line);
    fill_memory(&memories[OUT], n, 0xee);
    tell_output(call_move(is_forward, memories[GIVEN].bytes, memories[GIVEN].n));
}

static void do_forward(char *line)
{
    move(line, true);
}

static void do_back(char *line)
{
    move(line, false);
}

/* ---- commands that look */

static void do_left(char *line)
{
    enum place place = next_memory(&line);
    if (place >= READER)
        fault("? memory");
    else
        tell_left(memory_names[place], same(&memories[place], &kept[place]));
}

static void do_same(char *line)
{
    enum place place = next_memory(&line);
    lay_for(place, line);
    tell_same(same(&memories[place], &memories[GIVEN]));
}

static void do_show(char *line)
{
    const struct memory *m = &memories[next_memory(&line)];
    size_t at = next_number(&line), n = next_number(&line);
    if (at + n > m->n) {
        fault("? place");
        return;
    }
    tell("");
    for (size_t i = 0; i < n; i++)
        add("%02x", m->bytes[at + i]);
}

static void do_number(char *line)
{
    const struct memory *m = &memories[next_memory(&line)];
    uint64_t v = number_at(m, next_number(&line));
    tell("");
    add("%llu", (unsigned long long)v);
}

/* A line of the listing without its line feed; false past the last. */
static bool tell_line(size_t k)
{
    char line[NELQUBAT_LINE_BYTES + 1] = {0};
    uint32_t answer = calls->line(memories[HANDLE].bytes, memories[HANDLE].n, memories[TABLE].bytes, memories[TABLE].n,
                                  k, (uint8_t *)line, NELQUBAT_LINE_BYTES);
    if (answer == 0)
        return false;
    line[strcspn(line, "\n")] = 0;
    if (answer % 256 == 0)
        tell(line);
    else
        tell_refusal(answer, "");
    return answer % 256 == 0;
}

static void do_line(char *line)
{
    tell_line(next_number(&line));
}

static void do_list(char *line)
{
    (void)line;
    for (size_t k = 0; tell_line(k); k++)
        continue;
}

static void do_find(char *line)
{
    const struct memory *given = &memories[GIVEN];
    lay(line);
    if (given->n != 4) {
        fault("? id");
        return;
    }
    uint32_t answer = calls->find(memories[HANDLE].bytes, memories[HANDLE].n, memories[TABLE].bytes, memories[TABLE].n,
                                  memories[INDEX].bytes, memories[INDEX].n, (uint32_t)nelqubat_get(given->bytes, 4));
    tell_refusal(answer, answer == 0 ? "no row" : "place ");
    if (nelqubat_found(answer))
        add("%u", (unsigned)(answer / 256));
}

/* ---- commands that do more */

static void do_try(char *line)
{
    lay(line);
    const struct memory *given = &memories[GIVEN];
    tell_step(call_step(given->bytes, given->n));
    tell_left("handle", handle_left());
    tell_left("table", same(&memories[TABLE], &kept[TABLE]));
    tell_left("index", same(&memories[INDEX], &kept[INDEX]));
    tell_count(memories[HANDLE].bytes[45], "stands");
    whole[HANDLE] = memories[HANDLE];
    tell("again ");
    tell_step(call_step(given->bytes, given->n));
    go_back();
    feed_given(1);
    tell("byte by byte ");
    tell_same(same_reader(&memories[HANDLE], &whole[HANDLE]) && same(&memories[TABLE], &kept[TABLE]) &&
              same(&memories[INDEX], &kept[INDEX]));
}

static void do_values(char *line)
{
    size_t at = next_number(&line), taken = 0, refused = 0;
    lay(line);
    if (at >= memories[GIVEN].n) {
        fault("? place");
        return;
    }
    for (unsigned v = 0; v < 256; v++) {
        memories[GIVEN].bytes[at] = (uint8_t)v;
        uint32_t answer = calls->read(memories[GIVEN].bytes, memories[GIVEN].n, memories[RECORD].bytes, memories[RECORD].n);
        taken += answer == 0;
        refused += answer == NELQUBAT_REFUSED_FIELD;
    }
    tell_count(taken, "taken");
    tell_count(refused, "refused 12");
}

static void do_standing(char *line)
{
    size_t unfit = 0, again = 0, open = 0;
    lay(line);
    for (unsigned n = 0; n < 256; n++) {
        go_back();
        memories[HANDLE].bytes[45] = (uint8_t)n;
        unsigned found = call_step(memories[GIVEN].bytes, memories[GIVEN].n) % 256;
        unfit += found == 20;
        again += found == n && n != 0 && n != 20;
        open += found == 0 && n == 0;
    }
    tell_count(unfit, "refused 20");
    tell_count(again, "given again");
    tell_count(open, "open");
}

/* Whether an image is of version 1 or 2, from which a move goes forward. */
static bool is_old(const struct memory *image)
{
    return image->n >= 6 && nelqubat_get(image->bytes + 4, 2) < 3;
}

/* An image that was refused left all; one that was accepted is saved again the same, an old one as its move forward. */
static bool in_order(const struct memory *fresh, const struct memory *image, unsigned found)
{
    static struct memory saved;
    if (found != 0)
        return same(&memories[HANDLE], fresh) && same(&memories[TABLE], &kept[TABLE]) &&
               same(&memories[INDEX], &kept[INDEX]);
    fill_memory(&memories[OUT], image->n, 0xee);
    call_save();
    if (!is_old(image))
        return same(&memories[OUT], image);
    saved = memories[OUT];
    fill_memory(&memories[OUT], image->n, 0xee);
    call_move(true, image->bytes, image->n);
    return same(&memories[OUT], &saved);
}

static void do_damaged(char *line)
{
    static struct memory fresh, image;
    size_t wanted = next_number(&line), found = 0, good = 0;
    lay(line);
    call_start();
    fresh = memories[HANDLE];
    for (size_t i = 0; i < memories[GIVEN].n; i++) {
        image = memories[GIVEN];
        image.bytes[i]++;
        if (checked)
            put_check(image.bytes + i / 512 * 512);
        memories[TABLE] = kept[TABLE];
        memories[INDEX] = kept[INDEX];
        unsigned number = call_restore(image.bytes, image.n) % 256;
        found += number == wanted;
        good += number == wanted && in_order(&fresh, &image, number);
    }
    tell_count(found, "found");
    tell_count(good, "in order");
}

/* The image moved the way that it can be, to out, which has a byte more. */
static unsigned move_once(const struct memory *image)
{
    fill_memory(&memories[OUT], image->n + 1, 0xee);
    return call_move(is_old(image), image->bytes, image->n) % 256;
}

/* A refused move has written nothing; forward then back gives the bytes of the old one of the two. */
static bool move_in_order(const struct memory *image, unsigned found)
{
    static struct memory old, rest;
    fill_memory(&rest, image->n + 1, 0xee);
    if (found != 0)
        return same(&memories[OUT], &rest);
    if (memories[OUT].bytes[image->n] != 0xee)
        return false;
    old = is_old(image) ? *image : memories[OUT];
    old.n = image->n;
    move_once(&old);
    rest = memories[OUT];
    rest.n = image->n;
    move_once(&rest);
    memories[OUT].n = image->n;
    return same(&memories[OUT], &old);
}

static void do_moved(char *line)
{
    static struct memory image;
    size_t wanted = next_number(&line), found = 0, good = 0;
    lay(line);
    for (size_t i = 0; i < memories[GIVEN].n; i++) {
        image = memories[GIVEN];
        image.bytes[i]++;
        if (checked)
            put_check(image.bytes + i / 512 * 512);
        unsigned number = move_once(&image);
        found += number == wanted;
        good += number == wanted && move_in_order(&image, number);
    }
    tell_count(found, "found");
    tell_count(good, "in order");
}

/* The bytes as one piece, which the other ways are held to. */
static void run_whole(void)
{
    call_start();
    feed_given(ROOM);
    memcpy(whole, memories, sizeof whole);
    memcpy(whole_tape, tape, tape_n);
    whole_tape_n = tape_n;
}

static void do_cuts(char *line)
{
    const struct memory *given = &memories[GIVEN];
    size_t agreed = 0;
    lay(line);
    run_whole();
    for (size_t at = 0; at < given->n; at++) {
        call_start();
        feed(given->bytes, at, ROOM);
        feed(given->bytes + at, given->n - at, ROOM);
        agreed += as_whole();
    }
    tell_count(given->n, "tried");
    tell_count(agreed, "agreed");
}

static void do_sizes(char *line)
{
    const struct memory *given = &memories[GIVEN];
    size_t agreed = 0;
    lay(line);
    run_whole();
    for (size_t size = 1; size <= given->n; size++) {
        call_start();
        feed_given(size);
        agreed += as_whole();
    }
    tell_count(given->n, "tried");
    tell_count(agreed, "agreed");
}

/* How far a way through the bytes came. */
struct reached {
    size_t finished, taken;
};

/* Steps, until so many packets are finished or a step tells no event. */
static struct reached by_steps(size_t most)
{
    const struct memory *given = &memories[GIVEN];
    struct reached r = {0, 0};
    while (r.finished < most) {
        uint32_t answer = call_step(given->bytes + r.taken, given->n - r.taken);
        r.taken += nelqubat_taken(answer);
        if (!nelqubat_is_event(answer))
            break;
        r.finished++;
    }
    return r;
}

/* One run, or runs until one stops for another reason than its ceiling. */
static struct reached by_runs(uint32_t ceiling, bool is_one)
{
    const struct memory *given = &memories[GIVEN];
    struct reached r = {0, 0};
    uint64_t answer;
    do {
        answer = call_run(given->bytes + r.taken, given->n - r.taken, ceiling);
        r.finished += nelqubat_run_finished(answer);
        r.taken += nelqubat_run_taken(answer);
    } while (!is_one && nelqubat_run_why(answer) == NELQUBAT_CEILING);
    return r;
}

/* Do both ways come as far, and leave every byte of handle, table and index the same? */
static bool run_as_steps(uint32_t ceiling, bool is_one)
{
    go_back();
    struct reached steps = by_steps(is_one ? ceiling : ROOM);
    memcpy(whole, memories, sizeof whole);
    go_back();
    struct reached runs = by_runs(ceiling, is_one);
    return steps.finished == runs.finished && steps.taken == runs.taken &&
           same(&memories[HANDLE], &whole[HANDLE]) && same(&memories[TABLE], &whole[TABLE]) &&
           same(&memories[INDEX], &whole[INDEX]);
}

static void do_runs(char *line)
{
    enum { HIGHEST = 8 };
    size_t one = 0, all = 0;
    lay(line);
    for (uint32_t ceiling = 0; ceiling <= HIGHEST; ceiling++) {
        one += run_as_steps(ceiling, true);
        all += run_as_steps(ceiling, ceiling == 0);
    }
    tell_count(HIGHEST + 1, "tried");
    tell_count(one, "agreed");
    tell_count(all, "agreed to the end");
}

/* Saved, restored over other bytes, and logged in again where a session is known. */
static void resume(void)
{
    uint8_t login[33];
    struct bytes packet = {login, 0, sizeof login};
    fill_memory(&memories[OUT], NELQUBAT_IMAGE_BYTES, 0xee);
    size_t n = call_save() / 256;
    fill_memory(&memories[HANDLE], NELQUBAT_HANDLE_BYTES, 0x11);
    fill_memory(&memories[TABLE], NELQUBAT_TABLE_BYTES, 0x11);
    fill_memory(&memories[INDEX], NELQUBAT_INDEX_BYTES, 0x11);
    call_restore(memories[OUT].bytes, n);
    if (memories[HANDLE].bytes[42] != 1)
        return;
    put_login(&packet, memories[HANDLE].bytes + 32, number_at(&memories[HANDLE], 0));
    call_step(packet.at, packet.n);
}

static void do_resumed(char *line)
{
    const struct memory *given = &memories[GIVEN];
    size_t tried = 0, agreed = 0;
    lay(line);
    run_whole();
    for (size_t at = 0; at + 2 <= given->n; at += 2 + (size_t)nelqubat_get(given->bytes + at, 2)) {
        call_start();
        feed(given->bytes, at, ROOM);
        resume();
        feed(given->bytes + at, given->n - at, ROOM);
        tried++;
        agreed += as_whole();
    }
    tell_count(tried, "tried");
    tell_count(agreed, "agreed");
}

/* ---- a line */

static const struct command {
    const char *word;
    void (*run)(char *line);
} commands[] = {
    {"packet", do_packet}, {"begin", do_begin}, {"set", do_set}, {"fill", do_fill}, {"copies", do_copies},
    {"start", do_start}, {"step", do_step}, {"run", do_run}, {"feed", do_feed}, {"restore", do_restore},
    {"read", do_read}, {"write", do_write}, {"save", do_save}, {"forward", do_forward}, {"back", do_back},
    {"left", do_left}, {"same", do_same}, {"show", do_show}, {"number", do_number},
    {"line", do_line}, {"list", do_list}, {"find", do_find},
    {"try", do_try}, {"values", do_values}, {"standing", do_standing}, {"damaged", do_damaged},
    {"moved", do_moved}, {"cuts", do_cuts}, {"sizes", do_sizes}, {"runs", do_runs}, {"resumed", do_resumed}};

static void run_command(char *line)
{
    char *word = next_word(&line);
    for (size_t i = 0; i < sizeof commands / sizeof *commands; i++)
        if (strcmp(word, commands[i].word) == 0) {
            commands[i].run(line);
            return;
        }
    fault("? command");
}

/* Commands with a semicolon between them. */
static void run_commands(char *line)
{
    for (char *next = line; next; line = next) {
        next = strchr(line, ';');
        if (next)
            *next++ = 0;
        run_command(line);
    }
}

static void trim(char *s)
{
    size_t n = strlen(s);
    while (n > 0 && s[n - 1] == ' ')
        s[--n] = 0;
}

struct tally {
    size_t line, cases, right, broken;
};

static void differs(const struct tally *t, const char *written)
{
    printf("vectors: %s: line %zu: came: %s; written: %s\n", calls->name, t->line, came, written);
}

/* A case: what came is held to what is written behind the sign. */
static void run_case(char *s, char *sign, struct tally *t)
{
    bool must_not = strncmp(sign, "=/>", 3) == 0;
    char *written = sign + (must_not ? 3 : 2);
    bool is_then = strncmp(s, "then ", 5) == 0;
    if (!must_not && strncmp(sign, "=>", 2) != 0)
        fault("? answer");
    *sign = 0;
    trim(s);
    memcpy(begun, kept, sizeof begun);
    run_commands(is_then ? s + 5 : s);
    if (is_then)
        keep();
    else
        memcpy(kept, begun, sizeof kept);
    written += strspn(written, " ");
    trim(written);
    t->cases++;
    if (!broken && *written && (strcmp(came, written) == 0) != must_not)
        t->right++;
    else
        differs(t, written);
}

static void run_line(char *s, struct tally *t)
{
    char *sign = strchr(s, '=');
    go_back();
    came_n = 0;
    came[0] = 0;
    broken = false;
    if (sign) {
        run_case(s, sign, t);
        return;
    }
    trim(s);
    run_commands(s);
    if (came_n == 0 && !broken) {
        keep();
        return;
    }
    t->broken++;
    differs(t, "nothing");
}

/* All lines of the text; its last one says how many cases it has. */
static bool run_text(const char *text, const struct calls *which)
{
    static char line[ROOM];
    struct tally t = {0};
    size_t said = 0;
    calls = which;
    packet_count = 0;
    memset(memories, 0, sizeof memories);
    fill_memory(&memories[HANDLE], NELQUBAT_HANDLE_BYTES, 0);
    fill_memory(&memories[TABLE], NELQUBAT_TABLE_BYTES, 0);
    fill_memory(&memories[INDEX], NELQUBAT_INDEX_BYTES, 0);
    fill_memory(&memories[EVENT], NELQUBAT_RECORD_BYTES, 0);
    fill_memory(&memories[RECORD], NELQUBAT_RECORD_BYTES, 0);
    keep();
    while (*text) {
        size_t n = strcspn(text, "\n");
        memcpy(line, text, n);
        line[n] = 0;
        text += n + (text[n] != 0);
        t.line++;
        line[strcspn(line, "#")] = 0;
        char *s = line + strspn(line, " ");
        if (sscanf(s, "cases %zu", &said) == 1 || strncmp(s, "section ", 8) == 0 || *s == 0)
            continue;
        run_line(s, &t);
    }
    printf("vectors: %s: %zu of %zu cases as written\n", which->name, t.right, t.cases);
    if (said != t.cases)
        printf("vectors: the text says that it has %zu cases\n", said);
    return t.right == t.cases && t.broken == 0 && said == t.cases;
}

int main(int argc, char **argv)
{
    static char text[TEXT_ROOM];
    if (argc != 2) {
        fprintf(stderr, "usage: vectors CASES\n");
        return 2;
    }
    FILE *file = fopen(argv[1], "rb");
    size_t n = file ? fread(text, 1, sizeof text, file) : 0;
    if (!file || ferror(file) || n == sizeof text) {
        fprintf(stderr, "vectors: %s cannot be read, or is longer than %d bytes\n", argv[1], TEXT_ROOM - 1);
        return 2;
    }
    fclose(file);
    bool library = run_text(text, &library_calls), plain = run_text(text, &plain_calls);
    return !(library && plain);
}
