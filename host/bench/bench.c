/* Times the library against the plain reader on the same bytes, in turns.
 *
 *   bench                              all cases, the medians of eleven turns
 *   bench cases                        the cases' names and units in one small turn
 *   bench once CASE lib|plain|none TURNS
 *                                      small turns of one side, for a counter of
 *                                      instructions; none only prepares; no output
 */
#define _POSIX_C_SOURCE 200809L

#include "generate.h"
#include "nelqubat.h"
#include "oracle.h"

#include <stdio.h>
#include <stdlib.h>
#include <string.h>
#include <time.h>

enum { TURNS = 11, MESSAGES = 1000 };

/* Instruments of a case. The first number stays, so that its lines in
 * docs/PERFORMANCE.md can be compared; the cases wide, save500, restore500, forward500
 * and back500 have the second. */
enum { USUAL = 256, WIDE = 500 };

_Static_assert((int)WIDE <= (int)NELQUBAT_MAX_ROWS, "a wide session fits the table");

/* What a case works on; made once, before the turns. */
static struct {
    struct bytes session;
    size_t piece; /* bytes in a piece */
    size_t units; /* messages or tables in one turn */
    size_t times; /* how often a turn of newcomers reads the session */
    uint8_t image[NELQUBAT_IMAGE_BYTES];
    size_t image_n;
    struct plain_message message[MESSAGES];
    uint8_t bytes[MESSAGES][NELQUBAT_MESSAGE_BYTES], record[MESSAGES][NELQUBAT_RECORD_BYTES];
    size_t bytes_n[MESSAGES];
} work;

/* Each side's own reader. */
static uint8_t handle[NELQUBAT_HANDLE_BYTES], table[NELQUBAT_TABLE_BYTES];
static uint8_t id_index[NELQUBAT_INDEX_BYTES];
static struct plain_reader reader;
static uint8_t plain_table[PLAIN_TABLE_BYTES], plain_index[PLAIN_INDEX_BYTES];

/* Making the work. `scale` is how much of it there is. */

static void make_room(size_t room)
{
    work.session.room = room;
    work.session.at = malloc(room);
    if (work.session.at != NULL)
        return;
    fprintf(stderr, "bench: no memory\n");
    exit(2);
}

static void make_work_session(struct session_plan plan, size_t scale, size_t piece)
{
    struct dice d = dice_seeded(7);
    plan.packets = (unsigned)scale;
    plan.replay_end = plan.end = false;
    make_room(session_room(&plan));
    make_session(&d, &plan, &work.session);
    work.piece = piece == 0 ? work.session.n : piece;
}

/* Mostly b, a and q, some B, A and Q, some H. */
static struct session_plan quotes(unsigned instruments)
{
    struct session_plan plan = usual_plan();
    plan.instruments = instruments;
    plan.quotes = 970;
    plan.states = 30;
    plan.directories = plan.newcomers = plan.events = plan.heartbeats = plan.skipped = 0;
    return plan;
}

static void make_quotes(size_t scale)
{
    make_work_session(quotes(USUAL), scale, 0);
}

static void make_quotes_wide(size_t scale)
{
    make_work_session(quotes(WIDE), scale, 0);
}

static void make_quotes_cut(size_t scale)
{
    make_work_session(quotes(USUAL), scale, 1460);
}

/* No state after the opening, so that every packet is a quote. */
static void make_quotes_one(size_t scale)
{
    struct session_plan plan = quotes(1);
    plan.states = 0;
    make_work_session(plan, scale, 0);
}

static void make_directories(size_t scale)
{
    struct session_plan plan = quotes(USUAL);
    plan.directories = 1;
    plan.quotes = plan.states = 0;
    make_work_session(plan, scale, 0);
}

/* New ids in mixed order: the steps of this odd number, which is near the golden
 * section of 2^32, never meet one twice. */
static void make_newcomers(size_t scale)
{
    struct dice d = dice_seeded(7);
    struct plain_message m;
    make_room(NELQUBAT_PACKET_BYTES * (USUAL + 1));
    put_login(&work.session, (const uint8_t *)"NEWCOMERS ", 1);
    for (uint32_t k = 0; k < USUAL; k++) {
        make_message(&d, PLAIN_DIRECTORY, &m);
        m.id = k * UINT32_C(2654435769);
        put_message(&work.session, &m);
    }
    work.piece = work.session.n;
    work.times = scale / USUAL;
}

static void make_starts(size_t scale)
{
    work.units = scale / 50;
}

static void read_plain_session(void);

/* A table of rows with quotes, in both readers' memory and as an image. */
static void make_rows(unsigned rows, size_t scale)
{
    make_work_session(quotes(rows), 2000, 0);
    read_plain_session();
    plain_save(&reader, plain_table, sizeof plain_table, work.image, sizeof work.image,
               &work.image_n);
    nelqubat_restore(handle, sizeof handle, table, sizeof table, id_index, sizeof id_index,
                     work.image, work.image_n);
    work.units = scale / 50;
}

static void make_table(size_t scale)
{
    make_rows(USUAL, scale);
}

static void make_wide_table(size_t scale)
{
    make_rows(WIDE, scale);
}

/* The same image without the times of its sides. */
static void age_work(void)
{
    struct bytes image = {work.image, work.image_n, sizeof work.image};
    age_image(&image);
}

static void make_old(size_t scale)
{
    make_table(scale);
    age_work();
}

static void make_wide_old(size_t scale)
{
    make_wide_table(scale);
    age_work();
}

/* The usual image with its last check wrong: every block's check is made, and
 * nothing else is done. A unit is one block. */
static void make_bad_check(size_t scale)
{
    make_table(scale);
    work.image[work.image_n - 1] ^= 1;
    work.units *= work.image_n / NELQUBAT_BLOCK_BYTES;
}

static void make_messages(size_t scale)
{
    struct dice d = dice_seeded(7);
    for (size_t i = 0; i < MESSAGES; i++) {
        make_any_message(&d, &work.message[i]);
        plain_write(&work.message[i], work.bytes[i], sizeof work.bytes[i], &work.bytes_n[i]);
        oracle_pack_record(&work.message[i], work.record[i]);
    }
    work.units = scale;
}

/* The turns. */

/* A reader that stops early has less to do, so that its count says nothing. */
static void need_whole(const char *reader_name, size_t at)
{
    if (at == work.session.n)
        return;
    fprintf(stderr, "bench: %s stops at byte %zu of %zu of its session\n", reader_name, at,
            work.session.n);
    exit(2);
}

static void read_library_session(void)
{
    uint8_t event[NELQUBAT_RECORD_BYTES];
    size_t at = 0;
    nelqubat_start(handle, sizeof handle, table, sizeof table, id_index, sizeof id_index);
    while (at < work.session.n) {
        size_t end = at + work.piece < work.session.n ? at + work.piece : work.session.n;
        uint32_t a;
        do {
            a = nelqubat_step(handle, sizeof handle, table, sizeof table, id_index, sizeof id_index,
                              work.session.at + at, end - at, event, sizeof event);
            at += nelqubat_taken(a);
        } while (nelqubat_is_event(a));
        if (nelqubat_kind(a) != NELQUBAT_MORE)
            break;
    }
    need_whole("the library", at);
    work.units = (size_t)nelqubat_handle_next(handle) - 1;
}

static void read_plain_session(void)
{
    struct plain_answer a;
    size_t at = 0;
    plain_start(&reader, plain_table, sizeof plain_table, plain_index, sizeof plain_index);
    while (at < work.session.n) {
        size_t end = at + work.piece < work.session.n ? at + work.piece : work.session.n;
        do {
            plain_step(&reader, plain_table, sizeof plain_table, plain_index, sizeof plain_index,
                       work.session.at + at, end - at, &a);
            at += a.taken;
        } while (a.kind == PLAIN_EVENT);
        if (a.kind != PLAIN_MORE)
            break;
    }
    need_whole("the plain reader", at);
    work.units = (size_t)reader.next - 1;
}

/* A start clears the memories; every session begins with one, and its instructions
 * are counted with those of the messages. */
static void start_library(void)
{
    for (size_t i = 0; i < work.units; i++)
        nelqubat_start(handle, sizeof handle, table, sizeof table, id_index, sizeof id_index);
}

static void start_plain(void)
{
    for (size_t i = 0; i < work.units; i++)
        plain_start(&reader, plain_table, sizeof plain_table, plain_index, sizeof plain_index);
}

/* The same session by runs, with no events told. */
static void run_library_session(void)
{
    size_t at = 0;
    uint64_t a;
    nelqubat_start(handle, sizeof handle, table, sizeof table, id_index, sizeof id_index);
    do {
        a = nelqubat_run(handle, sizeof handle, table, sizeof table, id_index, sizeof id_index,
                         work.session.at + at, work.session.n - at, NELQUBAT_MAX_PACKETS);
        at += nelqubat_run_taken(a);
    } while (nelqubat_run_why(a) == NELQUBAT_CEILING);
    need_whole("the library", at);
    work.units = (size_t)nelqubat_handle_next(handle) - 1;
}

static void run_plain_session(void)
{
    struct plain_ran ran;
    size_t at = 0;
    plain_start(&reader, plain_table, sizeof plain_table, plain_index, sizeof plain_index);
    do {
        ran = plain_run(&reader, plain_table, sizeof plain_table, plain_index, sizeof plain_index,
                        work.session.at + at, work.session.n - at, PLAIN_MAX_PACKETS);
        at += ran.taken;
    } while (ran.why == PLAIN_RAN_CEILING);
    need_whole("the plain reader", at);
    work.units = (size_t)reader.next - 1;
}

/* A fresh start and all newcomers, again and again. */
static void list_by(void (*read_session)(void))
{
    for (size_t i = 0; i < work.times; i++)
        read_session();
    work.units *= work.times;
}

static void list_library(void)
{
    list_by(read_library_session);
}

static void list_plain(void)
{
    list_by(read_plain_session);
}

static void save_library(void)
{
    static uint8_t out[NELQUBAT_IMAGE_BYTES];
    for (size_t i = 0; i < work.units; i++)
        nelqubat_save(handle, sizeof handle, table, sizeof table, out, sizeof out);
}

static void save_plain(void)
{
    static uint8_t out[PLAIN_IMAGE_BYTES];
    size_t n;
    for (size_t i = 0; i < work.units; i++)
        plain_save(&reader, plain_table, sizeof plain_table, out, sizeof out, &n);
}

static void restore_library(void)
{
    for (size_t i = 0; i < work.units; i++)
        nelqubat_restore(handle, sizeof handle, table, sizeof table, id_index, sizeof id_index,
                         work.image, work.image_n);
}

static void restore_plain(void)
{
    for (size_t i = 0; i < work.units; i++)
        plain_restore(&reader, plain_table, sizeof plain_table, plain_index, sizeof plain_index,
                      work.image, work.image_n);
}

/* A move that is refused has less to do. */
static void need_moved(const char *reader_name, unsigned refusal)
{
    if (refusal == NELQUBAT_DONE)
        return;
    fprintf(stderr, "bench: %s answers %u to a move\n", reader_name, refusal);
    exit(2);
}

static void move_library(uint32_t (*move)(const uint8_t *, size_t, uint8_t *, size_t))
{
    static uint8_t out[NELQUBAT_IMAGE_BYTES];
    for (size_t i = 0; i < work.units; i++)
        need_moved("the library", nelqubat_refusal(move(work.image, work.image_n, out, sizeof out)));
}

static void move_plain(int (*move)(const uint8_t *, size_t, uint8_t *, size_t, size_t *))
{
    static uint8_t out[PLAIN_IMAGE_BYTES];
    size_t n;
    for (size_t i = 0; i < work.units; i++)
        need_moved("the plain reader", (unsigned)move(work.image, work.image_n, out, sizeof out, &n));
}

static void forward_library(void)
{
    move_library(nelqubat_forward);
}

static void forward_plain(void)
{
    move_plain(plain_forward);
}

static void back_library(void)
{
    move_library(nelqubat_back);
}

static void back_plain(void)
{
    move_plain(plain_back);
}

static void need_bad_check(const char *reader_name, unsigned refusal)
{
    if (refusal == NELQUBAT_REFUSED_CHECK)
        return;
    fprintf(stderr, "bench: %s answers %u to a wrong check\n", reader_name, refusal);
    exit(2);
}

static void check_library(void)
{
    for (size_t i = 0; i < work.units; i += work.image_n / NELQUBAT_BLOCK_BYTES)
        need_bad_check("the library",
                       nelqubat_refusal(nelqubat_restore(handle, sizeof handle, table, sizeof table, id_index,
                                                         sizeof id_index, work.image, work.image_n)));
}

static void check_plain(void)
{
    for (size_t i = 0; i < work.units; i += work.image_n / NELQUBAT_BLOCK_BYTES)
        need_bad_check("the plain reader",
                       (unsigned)plain_restore(&reader, plain_table, sizeof plain_table, plain_index,
                                               sizeof plain_index, work.image, work.image_n));
}

static void read_library(void)
{
    uint8_t record[NELQUBAT_RECORD_BYTES];
    for (size_t i = 0; i < work.units; i++)
        nelqubat_read(work.bytes[i % MESSAGES], work.bytes_n[i % MESSAGES], record, sizeof record);
}

static void read_plain(void)
{
    struct plain_message m;
    for (size_t i = 0; i < work.units; i++)
        plain_read(work.bytes[i % MESSAGES], work.bytes_n[i % MESSAGES], &m);
}

static void write_library(void)
{
    uint8_t out[NELQUBAT_MESSAGE_BYTES];
    for (size_t i = 0; i < work.units; i++)
        nelqubat_write(work.record[i % MESSAGES], NELQUBAT_RECORD_BYTES, out, sizeof out);
}

static void write_plain(void)
{
    uint8_t out[PLAIN_MESSAGE_BYTES];
    size_t n;
    for (size_t i = 0; i < work.units; i++)
        plain_write(&work.message[i % MESSAGES], out, sizeof out, &n);
}

static const struct task {
    const char *name, *what, *unit;
    void (*make)(size_t scale);
    void (*library)(void);
    void (*plain)(void);
} tasks[] = {
    {"start", "starting, with memories for 500 instruments", "starts", make_starts, start_library, start_plain},
    {"quotes", "quotes, 256 instruments, whole piece", "messages", make_quotes,
     read_library_session, read_plain_session},
    {"run", "quotes, 256 instruments, whole piece, by runs of 1,000 packets", "messages", make_quotes,
     run_library_session, run_plain_session},
    {"cut", "quotes, 256 instruments, pieces of 1,460 bytes", "messages", make_quotes_cut,
     read_library_session, read_plain_session},
    {"one", "quotes, one instrument, whole piece", "messages", make_quotes_one,
     read_library_session, read_plain_session},
    {"directories", "directories, 256 instruments, whole piece", "messages", make_directories,
     read_library_session, read_plain_session},
    {"newcomers", "directories for 256 new ids in mixed order, from a start", "messages", make_newcomers,
     list_library, list_plain},
    {"save", "saving 256 rows", "tables", make_table, save_library, save_plain},
    {"restore", "restoring 256 rows", "tables", make_table, restore_library, restore_plain},
    {"forward", "moving 256 rows forward", "images", make_old, forward_library, forward_plain},
    {"back", "moving 256 rows back", "images", make_table, back_library, back_plain},
    {"wide", "quotes, 500 instruments, whole piece", "messages", make_quotes_wide,
     read_library_session, read_plain_session},
    {"save500", "saving 500 rows", "tables", make_wide_table, save_library, save_plain},
    {"restore500", "restoring 500 rows", "tables", make_wide_table, restore_library, restore_plain},
    {"forward500", "moving 500 rows forward", "images", make_wide_old, forward_library, forward_plain},
    {"back500", "moving 500 rows back", "images", make_wide_table, back_library, back_plain},
    {"check", "the checks of 65 blocks, the last one wrong", "blocks", make_bad_check, check_library,
     check_plain},
    {"read", "reading messages of every letter", "messages", make_messages, read_library, read_plain},
    {"write", "writing messages of every letter", "messages", make_messages, write_library, write_plain},
};

enum { TASKS = sizeof tasks / sizeof *tasks, SCALE = 30000, SMALL_SCALE = 1000 };

static void make_work(const struct task *t, size_t scale)
{
    free(work.session.at);
    memset(&work.session, 0, sizeof work.session);
    t->make(scale);
}

/* The processor's time, so that other work on the machine counts little. */
static double seconds(void (*run)(void))
{
    struct timespec from, to;
    clock_gettime(CLOCK_PROCESS_CPUTIME_ID, &from);
    run();
    clock_gettime(CLOCK_PROCESS_CPUTIME_ID, &to);
    return (double)(to.tv_sec - from.tv_sec) + 1e-9 * (double)(to.tv_nsec - from.tv_nsec);
}

static int by_size(const void *a, const void *b)
{
    double x = *(const double *)a, y = *(const double *)b;
    return (x > y) - (x < y);
}

/* Both sides in turn; which one is first changes. One turn before the first
 * is not counted; after it both must have come equally far. */
static bool time_task(const struct task *t)
{
    double library[TURNS], plain[TURNS];
    make_work(t, SCALE);
    t->library();
    t->plain();
    if (nelqubat_handle_next(handle) != reader.next) {
        fprintf(stderr, "bench: %s: the two readers do not agree\n", t->what);
        return false;
    }
    for (int i = 0; i < TURNS; i++) {
        if (i % 2 == 0)
            library[i] = seconds(t->library);
        plain[i] = seconds(t->plain);
        if (i % 2 != 0)
            library[i] = seconds(t->library);
    }
    qsort(library, TURNS, sizeof *library, by_size);
    qsort(plain, TURNS, sizeof *plain, by_size);
    printf("bench: %s: ratio of times %.2f (library %.0f %s a second, plain.c %.0f)\n",
           t->what, library[TURNS / 2] / plain[TURNS / 2],
           (double)work.units / library[TURNS / 2], t->unit,
           (double)work.units / plain[TURNS / 2]);
    return fflush(stdout) == 0;
}

static const struct task *find_task(const char *name)
{
    for (size_t i = 0; i < TASKS; i++)
        if (strcmp(tasks[i].name, name) == 0)
            return &tasks[i];
    return NULL;
}

static int once(const char *name, const char *side, const char *times)
{
    const struct task *t = find_task(name);
    char *end;
    unsigned long turns = strtoul(times, &end, 10);
    bool library = strcmp(side, "lib") == 0, plain = strcmp(side, "plain") == 0;
    if (t == NULL || *end != 0 || !(library || plain || strcmp(side, "none") == 0))
        return 2;
    make_work(t, SMALL_SCALE);
    for (unsigned long i = 0; i < turns; i++) {
        if (library)
            t->library();
        if (plain)
            t->plain();
    }
    return 0;
}

static void list_tasks(void)
{
    for (size_t i = 0; i < TASKS; i++) {
        make_work(&tasks[i], SMALL_SCALE);
        tasks[i].plain();
        printf("%s %zu\n", tasks[i].name, work.units);
    }
}

int main(int argc, char **argv)
{
    int status = 0;
    if (argc == 1)
        for (size_t i = 0; i < TASKS && status == 0; i++)
            status = time_task(&tasks[i]) ? 0 : 1;
    else if (argc == 2 && strcmp(argv[1], "cases") == 0)
        list_tasks();
    else if (argc == 5 && strcmp(argv[1], "once") == 0)
        status = once(argv[2], argv[3], argv[4]);
    else
        status = 2;
    if (status == 2)
        fprintf(stderr, "usage: bench | bench cases | bench once CASE lib|plain|none TURNS\n");
    return status;
}
