#include "met.h"

#include "met_image.h"
#include "met_index.h"
#include "met_times.h"
#include "oracle.h"

#include <stdio.h>
#include <string.h>

static const char letters[] = "SmHqQbaBAM";

static const char *const kind_names[MET_KINDS] = {
    "more", "login", "rejected", "message", "heartbeat", "end", "skipped", "ended", "refused", "ceiling"};

/* Which of these a step answers, and for which a run stops. */
static const bool step_kinds[MET_KINDS] = {1, 1, 1, 1, 1, 1, 1, 1, 1, 0};
static const bool run_kinds[MET_KINDS] = {1, 0, 0, 0, 0, 0, 0, 1, 1, 1};

/* None at ceiling 0; none, some, or as many as a ceiling above it; as many and
 * ended by the last of them; and as many as there can be. */
static const char *const finish_names[MET_FINISHES] = {"zero", "none", "some", "all", "all-ended", "1000"};

static const char *const start_names[MET_STARTS] = {"nothing", "held", "held-done", "ended"};

static const char *const ceiling_names[MET_CEILINGS] = {"0", "1", "2-999", "1000", "1001", "over"};

static const char *const line_names[MET_LINES] = {"first", "row", "last", "past"};

static const char *const find_names[MET_FINDS] = {"found", "several", "none", "unused"};

/* The refusals that document 01 gives each call, and 0 for done. What a step
 * refuses in a packet stands from then on, and is given again. */
static const struct {
    const char *name;
    size_t count;
    uint8_t refusals[16];
} rows[MET_ROWS] = {
    [MET_START] = {"start", 2, {0, 20}},
    [MET_STEP] = {"step", 15, {0, 1, 2, 3, 4, 5, 6, 10, 11, 12, 13, 14, 15, 16, 20}},
    [MET_AGAIN] = {"step again", 13, {1, 2, 3, 4, 5, 6, 10, 11, 12, 13, 14, 15, 16}},
    [MET_RUN] = {"run", 16, {0, 1, 2, 3, 4, 5, 6, 10, 11, 12, 13, 14, 15, 16, 20, 27}},
    [MET_RUN_AGAIN] = {"run again", 13, {1, 2, 3, 4, 5, 6, 10, 11, 12, 13, 14, 15, 16}},
    [MET_SAVE] = {"save", 4, {0, 20, 24, 25}},
    [MET_RESTORE] = {"restore", 6, {0, 20, 21, 22, 23, 24}},
    [MET_FORWARD] = {"forward", 6, {0, 21, 22, 23, 24, 25}},
    [MET_BACK] = {"back", 6, {0, 21, 22, 23, 24, 25}},
    [MET_READ] = {"read", 5, {0, 10, 11, 12, 20}},
    [MET_WRITE] = {"write", 4, {0, 20, 25, 26}},
    [MET_LINE] = {"line", 3, {0, 20, 25}},
    [MET_FIND] = {"find", 2, {0, 20}},
};

static const char *const index_names[MET_INDEXES] = {"true", "past", "zeros", "twice", "order", "unused"};

/* With the most rows no place is out of use. */
static const struct {
    const char *name;
    bool can[MET_INDEXES];
} searches[MET_SEARCHES] = {
    [MET_NEW] = {"m new", {1, 1, 1, 1, 1, 1}},
    [MET_KNOWN] = {"m known", {1, 1, 1, 1, 1, 1}},
    [MET_ACTION] = {"H", {1, 1, 1, 1, 1, 1}},
    [MET_QUOTE] = {"quote", {1, 1, 1, 1, 1, 1}},
    [MET_NO_ROW] = {"13", {1, 1, 1, 1, 1, 1}},
    [MET_NOT_TRADING] = {"14", {1, 1, 1, 1, 1, 1}},
    [MET_FIXED_FIELD] = {"15", {1, 1, 1, 1, 1, 1}},
    [MET_FULL] = {"16", {1, 1, 1, 1, 1, 0}},
    [MET_FOUND] = {"find row", {1, 1, 1, 1, 1, 1}},
    [MET_NOT_FOUND] = {"find none", {1, 1, 1, 1, 1, 1}},
};

static const char *const astray_names[MET_ASTRAYS] = {
    "m", "H", "quote", "held", "run", "run-held", "run-later", "find"};

static const char *const entry_names[MET_ENTRIES] = {"alone", "first", "between", "last", "257th", "last-row"};

/* The calls that are lent an index. */
static const char *const lent_names[MET_LENT] = {
    "start index", "step index", "run index", "restore index", "find index"};

static const char *const length_names[MET_LENGTHS] = {"empty", "short", "long"};

static const char *const built_names[MET_BUILT] = {"over-zeros", "over-others"};

/* A call with names for what it may meet, and whether it can. */
struct cells {
    const char *name;
    bool can[16];
};

static const char *const image_names[MET_IMAGES] = {
    "version-1", "version-2", "version-3", "256-rows", "257-rows", "most-rows"};

static const struct cells image_calls[MET_IMAGE_CALLS] = {
    [MET_SAVED] = {"saved", {0, 0, 1, 1, 1, 1}},
    [MET_RESTORED] = {"restored", {1, 1, 1, 1, 1, 1}},
    [MET_FORWARDED] = {"forward from", {1, 1, 0, 1, 1, 1}},
    [MET_BACKED] = {"back to", {1, 1, 0, 1, 1, 1}},
};

static const char *const version_names[MET_VERSIONS] = {"0", "1", "2", "3", "other"};

static const char *const versions_in_names[MET_VERSIONS_IN] = {"all-blocks", "some-blocks"};

static const char *const named_names[MET_NAMED] = {"23", "24", "24-over", "24-in-3"};

static const char *const wrong_names[MET_WRONGS] = {
    "0", "1", "2", "3", "other", "1-misfit", "2-misfit", "several", "else-done", "else-24"};

/* Versions that are right to restore are wrong for one of the moves. */
static const struct cells wrong_calls[MET_MOVES] = {
    {"forward 23", {1, 0, 0, 1, 1, 1, 1, 1, 1, 1}}, {"back 23", {1, 1, 1, 0, 1, 1, 1, 1, 1, 1}}};

static const char *const output_names[MET_OUTPUTS] = {"none", "one-short", "short", "exact", "longer"};

static const char *const output_calls[MET_MOVES] = {"forward room", "back room"};

static const char *const round_names[MET_ROUNDS] = {"same-1", "same-2", "same-3", "lost-3"};

static const char *const time_names[MET_TIMES] = {"unseen", "zero", "known", "latest", "unknown"};

/* When the sides were set in images that are saved, restored, come out of a move
 * forward, or are moved back. */
static const struct cells time_calls[MET_IMAGE_CALLS] = {
    [MET_SAVED] = {"saved", {1, 1, 1, 1, 1}},
    [MET_RESTORED] = {"restored", {1, 1, 1, 1, 1}},
    [MET_FORWARDED] = {"forward", {1, 0, 0, 0, 1}},
    [MET_BACKED] = {"back", {1, 1, 1, 1, 1}},
};

/* A message has a time. */
static const bool time_set[MET_TIMES] = {0, 1, 1, 1, 0};

static const bool any_time[MET_TIMES] = {1, 1, 1, 1, 1};

static const char *const untimely_names[MET_UNTIMELY] = {
    "past", "nearly", "unseen", "122", "123", "old-seen", "old-unseen", "old-122", "old-123"};

static const struct cells untimely_calls[MET_IMAGE_CALLS] = {
    [MET_SAVED] = {"save 24", {1, 1, 1, 1, 1, 0, 0, 0, 0}},
    [MET_RESTORED] = {"restore 24", {1, 1, 1, 1, 1, 1, 1, 1, 1}},
    [MET_FORWARDED] = {"forward 24", {0, 0, 0, 0, 0, 1, 1, 1, 1}},
    [MET_BACKED] = {"back 24", {1, 1, 1, 1, 1, 0, 0, 0, 0}},
};

static const char *const block_names[MET_BLOCKS] = {"65", "66", "most", "21-over"};

static const char *const full_names[MET_FULLS] = {"step", "run"};

static const char *const state_names[MET_STATES] = {
    "none", "B", "S", "H", "T", "I", "O", "R", "X", "other"};

/* Whether a quote can be taken, and refused with 14, in each of these states. */
static const struct {
    const char *name;
    bool can[MET_STATES];
} quotes[MET_QUOTES] = {
    [MET_TAKEN] = {"quote", {0, 1, 1, 0, 1, 0, 0, 0, 0, 0}},
    [MET_STATE_WRONG] = {"quote 14 Y", {1, 0, 0, 1, 0, 1, 1, 1, 1, 1}},
    [MET_UNTRADABLE] = {"quote 14 N", {1, 1, 1, 1, 1, 1, 1, 1, 1, 1}},
};

/* The calls that tell, read or write a message. */
static const char *const letter_calls[MET_LETTER_CALLS] = {"step", "read", "write"};

static const char *const price_names[MET_PRICES] = {"none", "1", "highest", "other"};

/* What a row's line says of its bid, and of its ask. */
static const char *const bid_names[MET_WORDS] = {"bid unseen", "bid none", "bid price"};
static const char *const ask_names[MET_WORDS] = {"ask-unseen", "ask-none", "ask-price"};

const struct met_side met_sides[MET_SIDES] = {
    {"q-bid", 'q', NELQUBAT_RECORD_BID}, {"q-ask", 'q', NELQUBAT_RECORD_ASK},
    {"Q-bid", 'Q', NELQUBAT_RECORD_BID}, {"Q-ask", 'Q', NELQUBAT_RECORD_ASK},
    {"b", 'b', NELQUBAT_RECORD_BID},     {"a", 'a', NELQUBAT_RECORD_ASK},
    {"B", 'B', NELQUBAT_RECORD_BID},     {"A", 'A', NELQUBAT_RECORD_ASK},
};

/* A refusal of a packet that comes again, with nothing taken. */
static bool repeats(unsigned refusal, size_t taken)
{
    return refusal != NELQUBAT_DONE && refusal < NELQUBAT_REFUSED_MEMORY && taken == 0;
}

static enum met_row row_of(const struct call *c, uint64_t answer)
{
    static const enum met_row rows_of[OPERATIONS] = {
        [CALL_START] = MET_START, [CALL_STEP] = MET_STEP, [CALL_RUN] = MET_RUN,
        [CALL_SAVE] = MET_SAVE, [CALL_RESTORE] = MET_RESTORE, [CALL_FORWARD] = MET_FORWARD,
        [CALL_BACK] = MET_BACK, [CALL_READ] = MET_READ, [CALL_WRITE] = MET_WRITE,
        [CALL_LINE] = MET_LINE, [CALL_FIND] = MET_FIND};
    uint32_t low = (uint32_t)answer;
    if (c->op == CALL_STEP && repeats(nelqubat_refusal(low), nelqubat_taken(low)))
        return MET_AGAIN;
    if (c->op == CALL_RUN && repeats(nelqubat_run_refusal(answer), nelqubat_run_taken(answer)))
        return MET_RUN_AGAIN;
    return rows_of[c->op];
}

static void count_letter(unsigned long *counts, uint8_t letter)
{
    const char *place = memchr(letters, letter, MET_LETTERS);
    if (place != NULL)
        counts[place - letters]++;
}

/* The highest price that a letter's form holds, as on the wire. */
static uint32_t highest_in(uint8_t letter)
{
    return strchr("qba", letter) != NULL ? UINT16_MAX : INT32_MAX;
}

/* Where a record has the price of one of the sides. */
static size_t price_place(size_t side)
{
    return met_sides[side].place + 4;
}

static unsigned price_sort(uint32_t price, uint32_t highest)
{
    if (price < 2)
        return price;
    return price == highest ? 2 : 3;
}

/* Counts a quote by the price of each side that it sets. */
static void count_prices(unsigned long (*counts)[MET_SIDES], const uint8_t *record)
{
    uint8_t letter = nelqubat_record_letter(record);
    for (size_t i = 0; i < MET_SIDES; i++)
        if (met_sides[i].letter == letter)
            counts[price_sort((uint32_t)nelqubat_get(record + price_place(i), 4), highest_in(letter))][i]++;
}

static void count_record(struct met *m, unsigned call, const uint8_t *record)
{
    count_letter(m->letters[call], nelqubat_record_letter(record));
    count_prices(m->prices[call], record);
}

/* Whether a record is written once the price of a side is the highest in place of
 * one above it. */
static bool is_over(const uint8_t *record, size_t side)
{
    uint8_t mended[NELQUBAT_RECORD_BYTES], out[NELQUBAT_MESSAGE_BYTES];
    uint32_t highest = highest_in(met_sides[side].letter);
    if (nelqubat_get(record + price_place(side), 4) <= highest)
        return false;
    memcpy(mended, record, sizeof mended);
    nelqubat_set(mended + price_place(side), 4, highest);
    return nelqubat_refusal(oracle_write(mended, sizeof mended, out, sizeof out)) == NELQUBAT_DONE;
}

/* A record that was refused with 26, and so has its right length. */
static void count_broken(struct met *m, const uint8_t *record)
{
    for (size_t i = 0; i < MET_SIDES; i++)
        if (met_sides[i].letter == nelqubat_record_letter(record))
            m->over[i] += is_over(record, i);
}

/* Where the word begins that ends at a place of a line. */
static size_t word_start(const uint8_t *line, size_t end)
{
    while (end > 0 && line[end - 1] != ' ')
        end--;
    return end;
}

static unsigned word_sort(const uint8_t *word, size_t n)
{
    if (n == 1 && word[0] == '-')
        return 0;
    return n == 4 && memcmp(word, "none", n) == 0 ? 1 : 2;
}

/* Counts the line of a row by its last two words. */
static void count_words(struct met *m, const uint8_t *line, size_t n)
{
    size_t ask = word_start(line, n - 1), bid = word_start(line, ask - 1);
    m->words[word_sort(line + bid, ask - 1 - bid)][word_sort(line + ask, n - 1 - ask)]++;
}

static unsigned line_of(uint64_t k, uint64_t rows_used)
{
    return k == 0 ? 0 : k <= rows_used ? 1 : k == rows_used + 1 ? 2 : 3;
}

/* How many of the rows from one place to another have the id. */
static size_t rows_with(const uint8_t *table, size_t from, size_t to, uint32_t id)
{
    size_t count = 0;
    for (size_t k = from; k < to; k++)
        count += nelqubat_row_id(nelqubat_row(table, k)) == id;
    return count;
}

/* Whether the row found is the only one in use with the id, and where none is
 * found, whether a row out of use has it. */
static unsigned find_of(uint32_t id, uint32_t answer, const struct world *plain)
{
    const uint8_t *table = plain->table + GUARD_BYTES;
    size_t used = nelqubat_handle_rows(plain->handle + GUARD_BYTES);
    if (nelqubat_found(answer))
        return rows_with(table, 0, used, id) > 1;
    return rows_with(table, used, NELQUBAT_MAX_ROWS, id) > 0 ? 3 : 2;
}

/* The place of a row's state among the names. */
static unsigned state_of(const uint8_t *row)
{
    unsigned i = 1;
    if (nelqubat_row_state(row) == 0)
        return 0;
    while (i < MET_STATES - 1 && state_names[i][0] != nelqubat_row_state(row))
        i++;
    return i;
}

/* Counts a quote by its row, whose state and tradable it left as they were; one that was
 * taken has a letter. */
static void count_quote(struct met *m, uint32_t id, uint8_t letter, const struct world *plain)
{
    const uint8_t *handle = plain->handle + GUARD_BYTES, *table = plain->table + GUARD_BYTES;
    const uint8_t *row = nelqubat_found_row(
        table, oracle_find(handle, NELQUBAT_HANDLE_BYTES, table, NELQUBAT_TABLE_BYTES,
                           plain->index + GUARD_BYTES, NELQUBAT_INDEX_BYTES, id));
    enum met_quote quote = MET_TAKEN;
    if (row == NULL)
        return;
    if (letter == 0)
        quote = nelqubat_row_tradable(row) == 'Y' ? MET_STATE_WRONG : MET_UNTRADABLE;
    else
        met_count_set(m, letter, row);
    m->quotes[quote][state_of(row)]++;
}

/* A message that a step told. */
static void count_message(struct met *m, const struct world *plain)
{
    const uint8_t *record = plain->small + GUARD_BYTES;
    count_record(m, 0, record);
    if (strchr("qQbaBA", nelqubat_record_letter(record)) != NULL)
        count_quote(m, nelqubat_record_id(record), nelqubat_record_letter(record), plain);
}

/* A step that refused. A quote's id is read where its packet lay whole in the
 * piece: bytes were taken and none were held before. */
static void count_refused(struct met *m, uint32_t answer, const struct world *plain,
                          const uint8_t *piece, size_t held)
{
    enum { PACKET_ID = 14 };
    m->kinds[NELQUBAT_REFUSED]++;
    if (nelqubat_refusal(answer) == NELQUBAT_REFUSED_NOT_TRADING &&
        nelqubat_taken(answer) != 0 && held == 0)
        count_quote(m, (uint32_t)nelqubat_get(piece + PACKET_ID, 4), 0, plain);
}

static void count_line(struct met *m, uint64_t k, uint32_t answer, const struct world *plain)
{
    unsigned line = line_of(k, nelqubat_handle_rows(plain->handle + GUARD_BYTES));
    m->lines[line]++;
    if (line == 1)
        count_words(m, plain->small + GUARD_BYTES, nelqubat_written(answer));
}

/* 16 by a packet of this call, with a table that is full. */
static void count_full(struct met *m, enum met_row row, const struct world *plain)
{
    if (nelqubat_handle_rows(plain->handle + GUARD_BYTES) != NELQUBAT_MAX_ROWS)
        return;
    m->full[0] += row == MET_STEP;
    m->full[1] += row == MET_RUN;
}

/* What a call that is done answers: a kind, a letter, a sort of line or row. */
static void count_done(struct met *m, const struct call *c, uint32_t answer,
                       const struct world *plain, const uint8_t *input)
{
    const uint8_t *small = plain->small + GUARD_BYTES;
    if (c->op == CALL_STEP)
        m->kinds[nelqubat_kind(answer)]++;
    if (c->op == CALL_STEP && nelqubat_kind(answer) == NELQUBAT_MESSAGE)
        count_message(m, plain);
    if (c->op == CALL_READ)
        count_record(m, 1, small);
    if (c->op == CALL_WRITE)
        count_record(m, 2, input);
    if (c->op == CALL_LINE)
        count_line(m, c->k, answer, plain);
    if (c->op == CALL_FIND)
        m->finds[find_of((uint32_t)c->k, answer, plain)]++;
}

static unsigned finish_of(uint32_t ceiling, uint64_t answer)
{
    unsigned finished = nelqubat_run_finished(answer);
    if (ceiling == 0 || finished == 0)
        return ceiling != 0;
    if (finished < ceiling)
        return 2;
    if (nelqubat_run_why(answer) == NELQUBAT_ENDED)
        return 4;
    return finished == NELQUBAT_MAX_PACKETS ? 5 : 3;
}

static unsigned ceiling_of(uint32_t ceiling)
{
    if (ceiling < 2)
        return ceiling;
    if (ceiling < NELQUBAT_MAX_PACKETS)
        return 2;
    return ceiling - NELQUBAT_MAX_PACKETS < 2 ? ceiling - NELQUBAT_MAX_PACKETS + 3 : 5;
}

/* What the handle had. One that had ended finishes nothing and ends; where bytes
 * were held, their packet may have been finished. */
static unsigned start_of(uint64_t answer, size_t held)
{
    unsigned finished = nelqubat_run_finished(answer);
    if (nelqubat_run_why(answer) == NELQUBAT_ENDED && finished == 0)
        return 3;
    return held == 0 ? 0 : finished == 0 ? 1 : 2;
}

/* A run by a reader that it could judge: 20 and 27 are counted as refusals only. */
static void count_run(struct met *m, const struct call *c, uint64_t answer, size_t held)
{
    m->ceilings[ceiling_of((uint32_t)c->k)]++;
    m->whys[nelqubat_run_why(answer) % MET_KINDS]++;
    if (nelqubat_run_refusal(answer) >= NELQUBAT_REFUSED_MEMORY)
        return;
    m->finishes[finish_of((uint32_t)c->k, answer)]++;
    m->starts[start_of(answer, held)]++;
}

void met_count(struct met *m, const struct call *c, uint64_t answer,
               const struct world *plain, const uint8_t *input, const struct met_before *before)
{
    uint32_t low = (uint32_t)answer;
    unsigned refusal = nelqubat_refusal(low);
    met_count_index(m, c, answer, before, plain, input);
    if (refusal < MET_REFUSALS)
        m->refusals[row_of(c, answer)][refusal]++;
    if (refusal == NELQUBAT_REFUSED_FULL)
        count_full(m, row_of(c, answer), plain);
    met_count_image(m, c, low, plain, input);
    met_count_times(m, c, low, plain, input, before);
    if (c->op == CALL_RUN)
        count_run(m, c, answer, before->held);
    else if (refusal == 0)
        count_done(m, c, low, plain, input);
    else if (c->op == CALL_STEP)
        count_refused(m, low, plain, input, before->held);
    else if (c->op == CALL_WRITE && refusal == NELQUBAT_REFUSED_RECORD)
        count_broken(m, input);
}

/* One line of the table. A cell that cannot be met must be empty, and where
 * `all` is asked for, one that can be met must not be. */
struct line {
    const char *call;
    bool all, good;
};

static struct line begin_line(const char *call, bool all)
{
    printf("met: %-13s", call);
    return (struct line){call, all, true};
}

static void add_cell(struct line *l, const char *what, unsigned long count, bool can)
{
    if (count != 0)
        printf(" %s:%lu", what, count);
    if (count != 0 ? can : !(can && l->all))
        return;
    fprintf(stderr, "compare: %s: %s %s\n", l->call, what,
            can ? "was never met" : "was met, which the documents rule out");
    l->good = false;
}

static bool end_line(const struct line *l)
{
    putchar('\n');
    return l->good;
}

static bool can_refuse(enum met_row row, unsigned refusal)
{
    for (size_t i = 0; i < rows[row].count; i++)
        if (rows[row].refusals[i] == refusal)
            return true;
    return false;
}

static bool report_refusals(const struct met *m, enum met_row row, bool all)
{
    struct line l = begin_line(rows[row].name, all);
    for (unsigned n = 0; n < MET_REFUSALS; n++) {
        char name[16] = "done";
        if (n != 0)
            snprintf(name, sizeof name, "%u", n);
        add_cell(&l, name, m->refusals[row][n], can_refuse(row, n));
    }
    return end_line(&l);
}

static bool report_names(const char *call, const char *const *names,
                         const unsigned long *counts, size_t n, bool all)
{
    struct line l = begin_line(call, all);
    for (size_t i = 0; i < n; i++)
        add_cell(&l, names[i], counts[i], true);
    return end_line(&l);
}

/* The same, where not every name can be met. */
static bool report_some(const char *call, const char *const *names, const unsigned long *counts,
                        const bool *can, size_t n, bool all)
{
    struct line l = begin_line(call, all);
    for (size_t i = 0; i < n; i++)
        add_cell(&l, names[i], counts[i], can[i]);
    return end_line(&l);
}

static bool report_letters(const char *call, const unsigned long *counts, bool all)
{
    struct line l = begin_line(call, all);
    for (size_t i = 0; i < MET_LETTERS; i++) {
        char name[2] = {letters[i], 0};
        add_cell(&l, name, counts[i], true);
    }
    return end_line(&l);
}

static bool report_sides(const char *call, const char *what, const unsigned long *counts, bool all)
{
    char name[32];
    struct line l;
    snprintf(name, sizeof name, "%s %s", call, what);
    l = begin_line(name, all);
    for (size_t i = 0; i < MET_SIDES; i++)
        add_cell(&l, met_sides[i].name, counts[i], true);
    return end_line(&l);
}

/* Prices of quotes that a call told, read or wrote. */
static bool report_prices(const struct met *m, size_t call, bool all)
{
    bool good = true;
    for (size_t price = 0; price < MET_PRICES; price++)
        good &= report_sides(letter_calls[call], price_names[price], m->prices[call][price], all);
    return good;
}

static bool report_index(const struct met *m, bool all)
{
    bool good = true;
    for (unsigned search = 0; search < MET_SEARCHES; search++)
        good &= report_some(searches[search].name, index_names, m->searches[search], searches[search].can,
                            MET_INDEXES, all);
    for (size_t i = 0; i < MET_LENT; i++)
        good &= report_names(lent_names[i], length_names, m->lengths[i], MET_LENGTHS, all);
    good &= report_names("astray", astray_names, m->astray, MET_ASTRAYS, all);
    good &= report_names("entered", entry_names, m->entered, MET_ENTRIES, all);
    return report_names("built", built_names, m->built, MET_BUILT, all) && good;
}

static bool report_images(const struct met *m, bool all)
{
    bool good = report_names("blocks", block_names, m->blocks, MET_BLOCKS, all);
    for (size_t i = 0; i < MET_IMAGE_CALLS; i++)
        good &= report_some(image_calls[i].name, image_names, m->images[i], image_calls[i].can, MET_IMAGES, all);
    good &= report_names("23 version", version_names, m->versions, MET_VERSIONS, all);
    good &= report_names("23 version in", versions_in_names, m->versions_in, MET_VERSIONS_IN, all);
    good &= report_names("rows named", named_names, m->named, MET_NAMED, all);
    return report_names("full", full_names, m->full, MET_FULLS, all) && good;
}

static bool report_moves(const struct met *m, bool all)
{
    bool good = true;
    for (size_t i = 0; i < MET_MOVES; i++) {
        good &= report_some(wrong_calls[i].name, wrong_names, m->wrong[i], wrong_calls[i].can, MET_WRONGS, all);
        good &= report_names(output_calls[i], output_names, m->outputs[i], MET_OUTPUTS, all);
    }
    return report_names("round", round_names, m->rounds, MET_ROUNDS, all) && good;
}

/* When a side was set, and what was done then. */
static bool report_time(const char *call, const char *side, const unsigned long *counts, const bool *can, bool all)
{
    char name[32];
    snprintf(name, sizeof name, "%s %s", call, side);
    return report_some(name, time_names, counts, can, MET_TIMES, all);
}

static bool report_times(const struct met *m, bool all)
{
    bool good = true;
    for (size_t i = 0; i < MET_IMAGE_CALLS; i++) {
        good &= report_time(time_calls[i].name, "bid", m->bids[i], time_calls[i].can, all);
        good &= report_time(time_calls[i].name, "ask", m->asks[i], time_calls[i].can, all);
        good &= report_some(untimely_calls[i].name, untimely_names, m->untimely[i], untimely_calls[i].can,
                            MET_UNTIMELY, all);
    }
    for (size_t i = 0; i < MET_SIDES; i++)
        good &= report_time("set by", met_sides[i].name, m->set[i], time_set, all);
    good &= report_time("kept", "bid", m->kept[PLAIN_BID], any_time, all);
    good &= report_time("kept", "ask", m->kept[PLAIN_ASK], any_time, all);
    good &= report_time("purged", "bid", m->purged[PLAIN_BID], any_time, all);
    return report_time("purged", "ask", m->purged[PLAIN_ASK], any_time, all) && good;
}

bool met_report(const struct met *m, bool all)
{
    bool good = true;
    for (unsigned row = 0; row < MET_ROWS; row++)
        good &= report_refusals(m, (enum met_row)row, all);
    good &= report_some("step", kind_names, m->kinds, step_kinds, MET_KINDS, all);
    good &= report_some("run", kind_names, m->whys, run_kinds, MET_KINDS, all);
    good &= report_names("finished", finish_names, m->finishes, MET_FINISHES, all);
    good &= report_names("run from", start_names, m->starts, MET_STARTS, all);
    good &= report_names("run up to", ceiling_names, m->ceilings, MET_CEILINGS, all);
    for (size_t i = 0; i < MET_LETTER_CALLS; i++)
        good &= report_letters(letter_calls[i], m->letters[i], all);
    for (unsigned quote = 0; quote < MET_QUOTES; quote++)
        good &= report_some(quotes[quote].name, state_names, m->quotes[quote], quotes[quote].can,
                            MET_STATES, all);
    for (size_t i = 0; i < MET_LETTER_CALLS; i++)
        good &= report_prices(m, i, all);
    good &= report_sides("write", "26 over", m->over, all);
    good &= report_names("line", line_names, m->lines, MET_LINES, all);
    for (size_t bid = 0; bid < MET_WORDS; bid++)
        good &= report_names(bid_names[bid], ask_names, m->words[bid], MET_WORDS, all);
    good &= report_names("find", find_names, m->finds, MET_FINDS, all);
    good &= report_index(m, all);
    good &= report_images(m, all);
    good &= report_moves(m, all);
    return report_times(m, all) && good;
}
