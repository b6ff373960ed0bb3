/* A fuzzing target over the C interface: any input is turned into calls, which
 * the library must answer as the plain reader does; a difference aborts.
 *
 * Byte 0 of the input says what is done, with 4 more by runs and steps in turn
 * and not by steps alone, and byte 1 how; the rest is used as
 *   0  a session, stepped through in pieces
 *   1  an image that is moved both ways and restored, and bytes to step through after it
 *   2  a handle, rows of a table, as many places of an index, and bytes to step through
 *   3  a message to read, and a record to write
 * With FUZZ_MAIN it has a main that runs every file which is named.
 */
#include "file.h"
#include "generate.h"
#include "pair.h"

#include <stdio.h>
#include <stdlib.h>
#include <string.h>

int LLVMFuzzerTestOneInput(const uint8_t *data, size_t size);

static struct pair pair;
static bool by_runs;

/* What is left of the input. */
struct rest {
    const uint8_t *at;
    size_t n;
};

static struct rest take(struct rest *from, size_t n)
{
    struct rest part = {from->at, n < from->n ? n : from->n};
    from->at += part.n;
    from->n -= part.n;
    return part;
}

static void call(struct call c, struct rest input)
{
    c.input_n = (uint32_t)input.n;
    if (pair_call(&pair, &c, input.at))
        return;
    fprintf(stderr, "fuzz: %s\n", pair.difference);
    abort();
}

static void call_usual(enum operation op, struct rest input)
{
    call(usual_call(op), input);
}

/* A run's ceiling for a piece, by its last byte: mostly a low one. */
static uint32_t ceiling_for(struct rest piece)
{
    static const uint32_t edges[] = {0, 1, 999, 1000, 1001, 65537, UINT32_C(1) << 31, UINT32_MAX};
    uint8_t last = piece.n > 0 ? piece.at[piece.n - 1] : 0;
    return last < 248 ? last % 12 : edges[last - 248];
}

static void feed_piece(struct rest piece)
{
    struct call c = usual_call(by_runs ? CALL_TURNS : CALL_FEED);
    if (by_runs)
        c.k = ceiling_for(piece);
    call(c, piece);
}

/* Reads the rest: whole, in single bytes, as the network cuts, or in pieces
 * whose sizes the input gives. */
static void feed(struct rest input, unsigned how)
{
    size_t size = how % 4 == 0 ? input.n : how % 4 == 1 ? 1 : 1460;
    while (input.n > 0) {
        if (how % 4 == 3)
            size = 1 + input.at[0] % 64;
        feed_piece(take(&input, size));
    }
    feed_piece(input);
}

/* Lists, looks for rows, saves and, if so asked, goes on from what was saved. */
static void look(unsigned how)
{
    struct rest none = {(const uint8_t *)"", 0};
    struct call c = usual_call(CALL_LINE), find = usual_call(CALL_FIND);
    for (c.k = 0; c.k < 4; c.k++) {
        call(c, none);
        find.k = nelqubat_row_id(nelqubat_row(pair.plain.table + GUARD_BYTES, c.k));
        call(find, none);
    }
    c.k = nelqubat_get(pair.plain.handle + GUARD_BYTES + NELQUBAT_HANDLE_ROWS, 8);
    call(c, none);
    c.k++;
    c.memory_n = how;
    call(c, none);
    call_usual(how & 4 ? CALL_RESUME : CALL_SAVE, none);
}

static void do_session(struct rest input, unsigned how)
{
    struct rest first = take(&input, how & 8 ? input.n / 2 : input.n);
    struct rest none = {input.at, 0};
    call_usual(CALL_START, none);
    feed(first, how);
    look(how);
    feed(input, how >> 4);
}

/* Moves an image both ways, into room of its length or one byte less, and then there
 * and back. */
static void move_image(struct rest image, unsigned how)
{
    struct call c = usual_call(CALL_FORWARD);
    size_t room = image.n - (how & 64 && image.n > 0 ? 1 : 0);
    c.memory_n = (uint32_t)(room < IMAGE_ROOM ? room : IMAGE_ROOM);
    call(c, image);
    c.op = CALL_BACK;
    call(c, image);
    c = usual_call(CALL_ROUND);
    c.k = how & 128 ? 1 : 0;
    call(c, image);
}

/* The image's checks are made right, where asked, so that more than the
 * checks is met. */
static void do_image(struct rest input, unsigned how)
{
    static uint8_t image[NELQUBAT_IMAGE_BYTES + 2 * NELQUBAT_BLOCK_BYTES];
    size_t blocks = input.n > 4 ? input.at[3] + 256u * input.at[2] : 0;
    struct rest part = take(&input, blocks % (NELQUBAT_MAX_BLOCKS + 2) * NELQUBAT_BLOCK_BYTES + (how & 16 ? 1 : 0));
    struct bytes sealed = {image, part.n, sizeof image};
    memcpy(image, part.at, part.n);
    if (how & 32)
        seal_image(&sealed);
    part.at = image;
    move_image(part, how);
    call_usual(CALL_RESTORE, part);
    look(how);
    feed(input, how);
}

static void do_handle(struct rest input, unsigned how)
{
    struct rest handle = take(&input, NELQUBAT_HANDLE_BYTES);
    struct rest rows = take(&input, NELQUBAT_ROW_BYTES * (size_t)(how >> 2));
    struct rest places = take(&input, 2 * (size_t)(how >> 2));
    static uint8_t first_handle[HANDLE_ROOM], first_table[TABLE_ROOM], first_index[INDEX_ROOM];
    memset(first_handle, 0, sizeof first_handle);
    memset(first_table, 0, sizeof first_table);
    memset(first_index, 0, sizeof first_index);
    memcpy(first_handle, handle.at, handle.n);
    memcpy(first_table, rows.at, rows.n);
    memcpy(first_index, places.at, places.n);
    pair_fill(&pair, first_handle, first_table, first_index, true);
    call_usual(CALL_SAVE, (struct rest){input.at, 0});
    call_usual(CALL_STEP, input);
    feed(input, how);
    look(how);
}

static void do_message(struct rest input, unsigned how)
{
    struct rest record = input;
    struct call c = usual_call(CALL_READ);
    call(c, input);
    c.memory_n = how;
    call(c, input);
    c.op = CALL_WRITE;
    call(c, input);
    call_usual(CALL_WRITE, take(&record, NELQUBAT_RECORD_BYTES));
}

int LLVMFuzzerTestOneInput(const uint8_t *data, size_t size)
{
    static const uint8_t handle[HANDLE_ROOM] = {0}, table[TABLE_ROOM] = {1, 2, 3}, index[INDEX_ROOM] = {4, 5, 6};
    struct rest input = {data, size};
    unsigned how;
    if (size < 2 || size > INPUT_ROOM)
        return 0;
    take(&input, 2);
    how = data[1];
    pair.thorough = size < 4096;
    pair_fill(&pair, handle, table, index, true);
    by_runs = data[0] / 4 % 2 == 1;
    switch (data[0] % 4) {
    case 0:
        do_session(input, how);
        break;
    case 1:
        do_image(input, how);
        break;
    case 2:
        do_handle(input, how);
        break;
    default:
        do_message(input, how);
        break;
    }
    if (pair_same(&pair))
        return 0;
    fprintf(stderr, "fuzz: %s\n", pair.difference);
    abort();
}

#ifdef FUZZ_MAIN
static bool run_file(const char *path)
{
    static uint8_t data[INPUT_ROOM];
    long n = read_file("fuzz", path, data, sizeof data);
    if (n >= 0)
        LLVMFuzzerTestOneInput(data, (size_t)n);
    return n >= 0;
}

int main(int argc, char **argv)
{
    for (int i = 1; i < argc; i++)
        if (!run_file(argv[i]))
            return 2;
    printf("fuzz: %d files, %lu packets, %lu calls: no difference\n", argc - 1,
           pair.packets, pair.calls);
    return 0;
}
#endif
