/* Measures how much stack each call of the library needs: the call is made on
 * a stack that was painted before, and what it left unpainted is counted. The
 * most over many inputs is printed; the header says no less than that. */
#define _XOPEN_SOURCE 700

#include "edges.h"
#include "generate.h"
#include "nelqubat.h"
#include "oracle.h"

#include <stdio.h>
#include <string.h>
#include <ucontext.h>

enum { STACK = 1 << 14, PAINT = 0x5A, ROUNDS = 200 };

/* Room for the opening of a full table, in packets of a directory and two states for
 * each instrument, for so many packets after it, and for a damage. */
enum {
    PACKETS = 40,
    SESSION_ROOM = 1024 + NELQUBAT_MAX_ROWS * 128 + PACKETS * NELQUBAT_PACKET_BYTES + DAMAGE_ROOM
};

enum call { NONE, START, STEP, RUN, SAVE, RESTORE, FORWARD, BACK, READ, WRITE, LINE, FIND, CALLS };

static const char *const names[CALLS] = {
    "nothing", "start", "step", "run", "save", "restore", "forward", "back", "read", "write", "line", "find"};

static uint8_t handle[NELQUBAT_HANDLE_BYTES], table[NELQUBAT_TABLE_BYTES], id_index[NELQUBAT_INDEX_BYTES];
static uint8_t event[NELQUBAT_RECORD_BYTES], record[NELQUBAT_RECORD_BYTES];
static uint8_t image[NELQUBAT_IMAGE_BYTES + NELQUBAT_BLOCK_BYTES], moved[NELQUBAT_IMAGE_BYTES];
static uint8_t stack[STACK];
static size_t most[CALLS];

/* The call to make, its input, a run's ceiling, and the answer. */
static struct {
    enum call call;
    const uint8_t *input;
    size_t n;
    uint32_t ceiling;
    uint64_t answer;
} work;

/* The calls that need no reader. */
static uint64_t call_alone(const uint8_t *in, size_t n)
{
    switch (work.call) {
    case FORWARD:
        return nelqubat_forward(in, n, moved, sizeof moved);
    case BACK:
        return nelqubat_back(in, n, moved, sizeof moved);
    case READ:
        return nelqubat_read(in, n, record, sizeof record);
    default:
        return nelqubat_write(in, n, image, NELQUBAT_MESSAGE_BYTES);
    }
}

static uint64_t call_one(const uint8_t *in, size_t n)
{
    switch (work.call) {
    case NONE:
        return 0;
    case START:
        return nelqubat_start(handle, sizeof handle, table, sizeof table, id_index, sizeof id_index);
    case STEP:
        return nelqubat_step(handle, sizeof handle, table, sizeof table, id_index, sizeof id_index, in, n, event,
                             sizeof event);
    case RUN:
        return nelqubat_run(handle, sizeof handle, table, sizeof table, id_index, sizeof id_index, in, n,
                            work.ceiling);
    case SAVE:
        return nelqubat_save(handle, sizeof handle, table, sizeof table, image, NELQUBAT_IMAGE_BYTES);
    case RESTORE:
        return nelqubat_restore(handle, sizeof handle, table, sizeof table, id_index, sizeof id_index, in, n);
    case LINE:
        return nelqubat_line(handle, sizeof handle, table, sizeof table, n, image, NELQUBAT_LINE_BYTES);
    case FIND:
        return nelqubat_find(handle, sizeof handle, table, sizeof table, id_index, sizeof id_index, (uint32_t)n);
    default:
        return call_alone(in, n);
    }
}

static void make_call(void)
{
    work.answer = call_one(work.input, work.n);
}

/* Makes the call on the painted stack; what is touched of it counts from its
 * lowest byte that changed. */
static uint64_t measure(enum call call, const uint8_t *input, size_t n)
{
    static ucontext_t here, there;
    size_t left = 0;
    memset(stack, PAINT, sizeof stack);
    work.call = call;
    work.input = input;
    work.n = n;
    getcontext(&there);
    there.uc_stack.ss_sp = stack;
    there.uc_stack.ss_size = sizeof stack;
    there.uc_link = &here;
    makecontext(&there, make_call, 0);
    swapcontext(&here, &there);
    while (left < sizeof stack && stack[left] == PAINT)
        left++;
    if (sizeof stack - left > most[call])
        most[call] = sizeof stack - left;
    return work.answer;
}

static void measure_steps(struct dice *d, const struct bytes *s)
{
    uint32_t answer;
    measure(START, NULL, 0);
    for (size_t at = 0; at < s->n; at += nelqubat_taken(answer)) {
        answer = (uint32_t)measure(STEP, s->at + at, 1 + make_piece_size(d, s->n - at - 1));
        if (nelqubat_kind(answer) >= NELQUBAT_ENDED)
            break;
    }
}

/* Runs of a few packets, as many as there may be, or too many. */
static void measure_runs(struct dice *d, const struct bytes *s)
{
    uint64_t answer;
    measure(START, NULL, 0);
    for (size_t at = 0; at < s->n; at += nelqubat_run_taken(answer)) {
        work.ceiling = (uint32_t)(dice_chance(d, 80) ? dice_below(d, 9) : dice_between(d, 999, 1001));
        answer = measure(RUN, s->at + at, 1 + make_piece_size(d, s->n - at - 1));
        if (nelqubat_run_why(answer) == NELQUBAT_ENDED || nelqubat_handle_refusal(handle) != 0)
            break;
    }
}

/* Some with a full table, where a search is longest. */
static void measure_session(struct dice *d, bool damaged)
{
    static uint8_t space[SESSION_ROOM];
    struct bytes s = {space, 0, sizeof space - DAMAGE_ROOM};
    struct session_plan plan = random_plan(d);
    plan.first = 1;
    plan.packets %= PACKETS;
    plan.instruments = dice_chance(d, 10) ? NELQUBAT_MAX_ROWS : 1 + plan.instruments % 16;
    make_session(d, &plan, &s);
    s.room = sizeof space;
    if (damaged)
        damage_session(d, (enum session_damage)dice_below(d, SESSION_DAMAGES), &s);
    measure_runs(d, &s);
    measure_steps(d, &s);
    measure(SAVE, NULL, 0);
    for (size_t k = 0; k < 4; k++) {
        measure(LINE, NULL, k);
        measure(FIND, NULL, nelqubat_row_id(nelqubat_row(table, k)));
    }
    measure(FIND, NULL, UINT32_MAX);
    measure(LINE, NULL, nelqubat_handle_rows(handle) + 1);
}

static void measure_image(struct dice *d, bool damaged)
{
    struct bytes s = {image, 0, sizeof image};
    make_image(d, &s);
    if (damaged)
        damage_image(d, (enum image_damage)dice_below(d, IMAGE_DAMAGES), &s);
    measure(FORWARD, s.at, s.n);
    measure(BACK, s.at, s.n);
    measure(RESTORE, s.at, s.n);
    measure(SAVE, NULL, 0);
}

static void measure_message(struct dice *d, bool damaged)
{
    uint8_t bytes[80], packed[NELQUBAT_RECORD_BYTES];
    struct plain_message m;
    measure(READ, bytes, make_message_bytes(d, bytes, sizeof bytes));
    make_any_message(d, &m);
    oracle_pack_record(&m, packed);
    if (damaged)
        edge_record(d, packed);
    measure(WRITE, packed, sizeof packed);
}

int main(void)
{
    size_t greatest = 0;
    measure(NONE, NULL, 0);
    for (uint64_t seed = 0; seed < ROUNDS; seed++) {
        struct dice d = dice_seeded(seed);
        measure_session(&d, seed % 2 == 1);
        measure_image(&d, seed % 2 == 1);
        for (unsigned i = 0; i < 20; i++)
            measure_message(&d, i % 2 == 1);
    }
    printf("stack:");
    for (unsigned c = START; c < CALLS; c++) {
        size_t n = most[c] - most[NONE];
        printf(" %s %zu", names[c], n);
        greatest = n > greatest ? n : greatest;
    }
    printf(" bytes; the header says %d\n", NELQUBAT_STACK_BYTES);
    if (greatest > NELQUBAT_STACK_BYTES)
        fprintf(stderr, "stack: a call needs more than the header says\n");
    return greatest > NELQUBAT_STACK_BYTES;
}
