/* Reads a session on standard input and prints a row whenever a message
 * changes it: the message's number and letter, and then what the row says, with the
 * age of each side. With --from it goes on from a saved table.
 *
 *   rows [--from FILE] [ID...] < SESSION      all rows, or those of these instruments */
#include "nelqubat.h"

#include <errno.h>
#include <inttypes.h>
#include <stdio.h>
#include <stdlib.h>
#include <string.h>

static uint8_t handle[NELQUBAT_HANDLE_BYTES], table[NELQUBAT_TABLE_BYTES];
static uint8_t id_index[NELQUBAT_INDEX_BYTES];

/* What a row says of one side. */
struct quoted {
    int is_seen, has_price, knows_time;
    struct nelqubat_side side;
    uint64_t time;
};

/* How old a side is at the time of the row's latest message, in seconds; below zero
 * where the feed's clock went back, and a question mark where the side was quoted
 * before its table was saved without times. */
static void print_age(const struct quoted *q, uint64_t now)
{
    uint64_t micros = (now < q->time ? q->time - now : now - q->time) / 1000;
    if (q->knows_time)
        printf("@%s%" PRIu64 ".%06" PRIu64, now < q->time ? "-" : "", micros / 1000000, micros % 1000000);
    else
        printf("@?");
}

/* A side as price, size and age; where it has no price as the listing does, `none` if
 * it was quoted so, which has an age too, and a dash if it never was. */
static void print_side(struct quoted q, uint64_t now)
{
    if (q.has_price)
        printf(" %" PRIu32 ".%04" PRIu32 "x%" PRIu32, q.side.price / 10000, q.side.price % 10000, q.side.size);
    else
        printf(q.is_seen ? " none" : " -");
    if (q.is_seen)
        print_age(&q, now);
}

static void print_row(const uint8_t *row)
{
    uint8_t state = nelqubat_row_state(row);
    struct quoted bid = {nelqubat_row_seen_bid(row), nelqubat_row_has_bid(row), nelqubat_row_knows_bid_time(row),
                         nelqubat_row_bid(row), nelqubat_row_bid_time(row)};
    struct quoted ask = {nelqubat_row_seen_ask(row), nelqubat_row_has_ask(row), nelqubat_row_knows_ask_time(row),
                         nelqubat_row_ask(row), nelqubat_row_ask_time(row)};
    printf("%" PRIu32 " %.8s %02u-%02u-%02u %c %" PRIu32 ".%04" PRIu32 " %c", nelqubat_row_id(row),
           (const char *)nelqubat_row_symbol(row), nelqubat_row_year(row), nelqubat_row_month(row),
           nelqubat_row_day(row), nelqubat_row_type(row), nelqubat_row_strike(row) / 10000,
           nelqubat_row_strike(row) % 10000, state == 0 ? '-' : state);
    print_side(bid, nelqubat_row_time(row));
    print_side(ask, nelqubat_row_time(row));
    putchar('\n');
}

static int is_wanted(uint32_t id, const uint32_t *ids, int count)
{
    for (int i = 0; i < count; i++)
        if (ids[i] == id)
            return 1;
    return count == 0;
}

/* A message changed its row before the step came back: S and M have none. */
static void show(const uint8_t *record, const uint32_t *ids, int count)
{
    uint8_t letter = nelqubat_record_letter(record);
    uint32_t id = nelqubat_record_id(record);
    const uint8_t *row;
    if (letter == 'S' || letter == 'M' || !is_wanted(id, ids, count))
        return;
    row = nelqubat_found_row(table, nelqubat_find(handle, sizeof handle, table, sizeof table,
                                                  id_index, sizeof id_index, id));
    if (row == NULL)
        return;
    printf("%" PRIu64 " %c ", nelqubat_handle_next(handle) - 1, letter);
    print_row(row);
}

/* Steps through one piece; 0 once the reader takes no more. */
static int feed(const uint8_t *piece, size_t n, const uint32_t *ids, int count)
{
    uint8_t event[NELQUBAT_RECORD_BYTES];
    uint32_t answer;
    do {
        answer = nelqubat_step(handle, sizeof handle, table, sizeof table, id_index, sizeof id_index,
                               piece, n, event, sizeof event);
        piece += nelqubat_taken(answer);
        n -= nelqubat_taken(answer);
        if (nelqubat_kind(answer) == NELQUBAT_MESSAGE)
            show(event, ids, count);
    } while (nelqubat_is_event(answer));
    return nelqubat_kind(answer) == NELQUBAT_MORE;
}

static int finish(void)
{
    unsigned refusal = nelqubat_handle_refusal(handle);
    if (ferror(stdin) || fflush(stdout) != 0 || ferror(stdout)) {
        perror("rows");
        return 1;
    }
    if (refusal != 0)
        fprintf(stderr, "rows: message %" PRIu64 ": %s\n", nelqubat_handle_next(handle),
                nelqubat_refusal_name(refusal));
    return refusal != 0;
}

/* The table of a file, one byte more than any has being too many. */
static int restore(const char *path)
{
    static uint8_t image[NELQUBAT_IMAGE_BYTES + 1];
    FILE *file = fopen(path, "rb");
    size_t n = file == NULL ? 0 : fread(image, 1, sizeof image, file);
    unsigned refusal;
    if (file == NULL || ferror(file)) {
        fprintf(stderr, "rows: %s: %s\n", path, strerror(errno));
        return 0;
    }
    fclose(file);
    refusal = nelqubat_restore(handle, sizeof handle, table, sizeof table, id_index, sizeof id_index,
                               image, n);
    if (refusal != 0)
        fprintf(stderr, "rows: %s: %s\n", path, nelqubat_refusal_name(refusal));
    return refusal == 0;
}

/* The ids that are asked for; 0 where a word is none. */
static int take_ids(char **words, int count, uint32_t *ids)
{
    for (int i = 0; i < count; i++) {
        char *end;
        unsigned long id = strtoul(words[i], &end, 10);
        if (i >= NELQUBAT_MAX_ROWS || words[i][0] < '0' || words[i][0] > '9' || *end != 0 || id > UINT32_MAX)
            return 0;
        ids[i] = (uint32_t)id;
    }
    return 1;
}

int main(int argc, char **argv)
{
    static uint8_t piece[4096];
    static uint32_t ids[NELQUBAT_MAX_ROWS];
    int has_file = argc > 2 && strcmp(argv[1], "--from") == 0;
    int first = has_file ? 3 : 1;
    size_t n;
    if (!take_ids(argv + first, argc - first, ids)) {
        fprintf(stderr, "usage: rows [--from FILE] [ID...] < SESSION\n");
        return 2;
    }
    if (!nelqubat_is_version()) {
        fprintf(stderr, "rows: header and library are not of one version\n");
        return 2;
    }
    nelqubat_start(handle, sizeof handle, table, sizeof table, id_index, sizeof id_index);
    if (has_file && !restore(argv[2]))
        return 1;
    do
        n = fread(piece, 1, sizeof piece, stdin);
    while (n != 0 && feed(piece, n, ids, argc - first));
    return finish();
}
