#include "pair.h"

#include "calls.h"
#include "generate.h"
#include "met.h"
#include "met_image.h"
#include "met_index.h"
#include "met_times.h"
#include "stepped.h"

#include <inttypes.h>
#include <stdio.h>
#include <string.h>

/* What is compared when. After every call: every bit of the answer, and every
 * byte of the handle's, index's, event's, record's and output's memory with the
 * guards around them. The table: whole, guards included, after every start, restore and
 * run, after every call of a thorough case (as are all replayed and shrunk
 * ones), and otherwise after every 64th step and at the end of each case; in
 * between, after each step, the first sixteen rows in use and the guards. A run
 * is also held to steps of the library over the memory that it was given. */
enum { WHOLE_EVERY = 64, ROWS_EACH_STEP = 16 };

enum { GUARD_FILL = 0xA5, MEMORY_FILL = 0xC3 };

static const char *const names[OPERATIONS] = {
    "start", "step", "feed", "run", "turns", "save", "restore", "resume", "forward", "back", "round",
    "read", "write", "line", "find", "spoil"};

const char *operation_name(enum operation op)
{
    return names[op];
}

/* The calls that write an image themselves. */
static bool is_image_call(enum operation op)
{
    return op == CALL_SAVE || op == CALL_FORWARD || op == CALL_BACK;
}

bool writes_image(enum operation op)
{
    return is_image_call(op) || op == CALL_RESUME || op == CALL_ROUND;
}

struct call usual_call(enum operation op)
{
    struct call c = {op, NELQUBAT_HANDLE_BYTES, NELQUBAT_TABLE_BYTES, NELQUBAT_INDEX_BYTES,
                     NELQUBAT_RECORD_BYTES, 0, 0};
    if (writes_image(op))
        c.memory_n = NELQUBAT_IMAGE_BYTES;
    return c;
}

bool call_fits(const struct call *c)
{
    return c->op < OPERATIONS && c->handle_n <= HANDLE_ROOM && c->table_n <= TABLE_ROOM &&
           c->index_n <= INDEX_ROOM &&
           c->memory_n <= (writes_image(c->op) ? IMAGE_ROOM : SMALL_ROOM) &&
           c->input_n <= INPUT_ROOM;
}

static void fill_memory(uint8_t *memory, size_t room, const uint8_t *bytes)
{
    memset(memory, GUARD_FILL, GUARD_BYTES);
    if (bytes != NULL)
        memcpy(memory + GUARD_BYTES, bytes, room);
    else
        memset(memory + GUARD_BYTES, MEMORY_FILL, room);
    memset(memory + GUARD_BYTES + room, GUARD_FILL, GUARD_BYTES);
}

static void fill_world(struct world *w, const uint8_t *handle, const uint8_t *table,
                       const uint8_t *index, bool image)
{
    fill_memory(w->handle, HANDLE_ROOM, handle);
    fill_memory(w->table, TABLE_ROOM, table);
    fill_memory(w->index, INDEX_ROOM, index);
    fill_memory(w->small, SMALL_ROOM, NULL);
    if (image)
        fill_memory(w->image, IMAGE_ROOM, NULL);
}

void pair_fill(struct pair *p, const uint8_t *handle, const uint8_t *table,
               const uint8_t *index, bool saves)
{
    bool image = saves || p->image_used;
    fill_world(&p->library, handle, table, index, image);
    fill_world(&p->plain, handle, table, index, image);
    p->image_used = saves;
    p->index_ours = false;
    p->since = 0;
    p->idle = 0;
    p->saved = 0;
    p->difference[0] = 0;
}

/* Says where two memories differ first. */
static bool differ_at(struct pair *p, const char *name, const uint8_t *library,
                      const uint8_t *plain, size_t n)
{
    size_t i = 0;
    while (i < n && library[i] == plain[i])
        i++;
    snprintf(p->difference, sizeof p->difference,
             "%s: %s byte %ld is %02X, should be %02X", operation_name(p->doing),
             name, (long)i - GUARD_BYTES, library[i], plain[i]);
    return false;
}

static bool same_memory(struct pair *p, const char *name, const uint8_t *library,
                        const uint8_t *plain, size_t n)
{
    if (memcmp(library, plain, n) == 0)
        return true;
    return differ_at(p, name, library, plain, n);
}

static bool same_whole_table(struct pair *p)
{
    p->since = 0;
    return same_memory(p, "table", p->library.table, p->plain.table,
                       sizeof p->plain.table);
}

/* The first rows in use, the guard before them and the spare bytes and guard
 * after the table. */
static bool same_rows(struct pair *p)
{
    uint64_t rows = nelqubat_get(p->plain.handle + GUARD_BYTES + NELQUBAT_HANDLE_ROWS, 8);
    size_t near = GUARD_BYTES + NELQUBAT_ROW_BYTES * (size_t)(rows < ROWS_EACH_STEP ? rows : ROWS_EACH_STEP);
    size_t far = GUARD_BYTES + NELQUBAT_TABLE_BYTES;
    if (memcmp(p->library.table + far, p->plain.table + far,
               sizeof p->plain.table - far) != 0)
        return same_whole_table(p);
    return same_memory(p, "table", p->library.table, p->plain.table, near);
}

static bool same_table(struct pair *p, enum operation op)
{
    if (p->thorough || op == CALL_START || op == CALL_RESTORE || op == CALL_RUN ||
        (op == CALL_STEP && ++p->since >= WHOLE_EVERY))
        return same_whole_table(p);
    return op != CALL_STEP || same_rows(p);
}

static bool same_small_memories(struct pair *p)
{
    return same_memory(p, "handle", p->library.handle, p->plain.handle,
                       sizeof p->plain.handle) &&
           same_memory(p, "index", p->library.index, p->plain.index,
                       sizeof p->plain.index) &&
           same_memory(p, "event, record or output", p->library.small, p->plain.small,
                       sizeof p->plain.small);
}

static bool same_image(struct pair *p)
{
    return same_memory(p, "image", p->library.image, p->plain.image,
                       sizeof p->plain.image);
}

bool pair_same(struct pair *p)
{
    return same_small_memories(p) && same_whole_table(p) && same_image(p);
}

static uint64_t make_call(const struct calls *f, struct world *w,
                          const struct call *c, const uint8_t *input, size_t n)
{
    uint8_t *handle = w->handle + GUARD_BYTES, *table = w->table + GUARD_BYTES;
    uint8_t *index = w->index + GUARD_BYTES;
    uint8_t *small = w->small + GUARD_BYTES, *image = w->image + GUARD_BYTES;
    switch (c->op) {
    case CALL_START:
        return f->start(handle, c->handle_n, table, c->table_n, index, c->index_n);
    case CALL_RUN:
        return f->run(handle, c->handle_n, table, c->table_n, index, c->index_n, input, n,
                      (uint32_t)c->k);
    case CALL_SAVE:
        return f->save(handle, c->handle_n, table, c->table_n, image, c->memory_n);
    case CALL_RESTORE:
        return f->restore(handle, c->handle_n, table, c->table_n, index, c->index_n, input, n);
    case CALL_FORWARD:
        return f->forward(input, n, image, c->memory_n);
    case CALL_BACK:
        return f->back(input, n, image, c->memory_n);
    case CALL_READ:
        return f->read(input, n, small, c->memory_n);
    case CALL_WRITE:
        return f->write(input, n, small, c->memory_n);
    case CALL_LINE:
        return f->line(handle, c->handle_n, table, c->table_n, (size_t)c->k, small,
                       c->memory_n);
    case CALL_FIND:
        return f->find(handle, c->handle_n, table, c->table_n, index, c->index_n,
                       (uint32_t)c->k);
    default:
        return f->step(handle, c->handle_n, table, c->table_n, index, c->index_n, input, n,
                       small, c->memory_n);
    }
}

static bool same_answer(struct pair *p, uint64_t got, uint64_t wanted)
{
    if (got == wanted)
        return true;
    snprintf(p->difference, sizeof p->difference,
             "%s: answer is %08" PRIX64 ", should be %08" PRIX64, operation_name(p->doing),
             got, wanted);
    return false;
}

/* How many packets came to their end in a step or a run, by acceptance or
 * refusal; a refused call leaves its packet. */
static unsigned packets_ended(enum operation op, uint64_t answer)
{
    bool refuses = nelqubat_run_why(answer) == NELQUBAT_REFUSED &&
                   nelqubat_run_refusal(answer) < NELQUBAT_REFUSED_MEMORY;
    if (op == CALL_STEP)
        return nelqubat_kind((uint32_t)answer) != NELQUBAT_MORE && nelqubat_taken((uint32_t)answer) != 0;
    if (op == CALL_RUN)
        return nelqubat_run_finished(answer) + (refuses && nelqubat_run_taken(answer) != 0);
    return 0;
}

static void copy_reader(struct world *to, const struct world *from)
{
    memcpy(to->handle, from->handle, sizeof to->handle);
    memcpy(to->table, from->table, sizeof to->table);
    memcpy(to->index, from->index, sizeof to->index);
}

/* The library's memory is what it was by the other way, which `stepped` keeps. */
static bool same_reader(struct pair *p)
{
    return same_memory(p, "handle, beside that by the other way,", p->library.handle, p->stepped.handle,
                       sizeof p->stepped.handle) &&
           same_memory(p, "index, beside that by the other way,", p->library.index, p->stepped.index,
                       sizeof p->stepped.index) &&
           same_memory(p, "table, beside that by the other way,", p->library.table, p->stepped.table,
                       sizeof p->stepped.table);
}

/* A run must answer and leave what the library's own steps do. */
static bool same_as_steps(struct pair *p, const struct call *c, const uint8_t *input, size_t n,
                          uint64_t got)
{
    uint64_t wanted = stepped_run(&library_calls, p->stepped.handle + GUARD_BYTES, c->handle_n,
                                  p->stepped.table + GUARD_BYTES, c->table_n,
                                  p->stepped.index + GUARD_BYTES, c->index_n, input, n,
                                  (uint32_t)c->k);
    return same_answer(p, got, wanted) && same_reader(p);
}

/* One call on both sides, each with its own input; all but the table is
 * compared here in full. */
static bool call_both(struct pair *p, const struct call *c, const uint8_t *library_input,
                      const uint8_t *plain_input, size_t n)
{
    struct met_before before = met_look(&p->plain, p->index_ours);
    bool makes_index = c->op == CALL_START || c->op == CALL_RESTORE;
    uint64_t got;
    met_look_times(&before, &p->plain, c, plain_input, n);
    p->doing = c->op;
    p->calls++;
    if (c->op == CALL_RUN)
        copy_reader(&p->stepped, &p->library);
    got = make_call(&library_calls, &p->library, c, library_input, n);
    p->answer = make_call(&plain_calls, &p->plain, c, plain_input, n);
    met_count(&p->met, c, p->answer, &p->plain, plain_input, &before);
    p->index_ours |= makes_index && nelqubat_refusal((uint32_t)p->answer) == NELQUBAT_DONE;
    p->packets += packets_ended(c->op, p->answer);
    if (c->op == CALL_SAVE)
        p->saved = nelqubat_written((uint32_t)p->answer);
    return same_answer(p, got, p->answer) && same_small_memories(p) &&
           same_table(p, c->op) && (!is_image_call(c->op) || same_image(p)) &&
           (c->op != CALL_RUN || same_as_steps(p, c, library_input, n, got));
}

static bool same_input(struct pair *p, const uint8_t *input, size_t n)
{
    if (n == 0 || memcmp(p->input, input, n) == 0)
        return true;
    snprintf(p->difference, sizeof p->difference, "%s: the input was written to",
             operation_name(p->doing));
    return false;
}

/* A call with its input, which the library must leave as it is. */
static bool call_once(struct pair *p, const struct call *c, const uint8_t *input)
{
    if (c->input_n != 0)
        memcpy(p->input, input, c->input_n);
    return call_both(p, c, p->input, input, c->input_n) &&
           same_input(p, input, c->input_n);
}

/* One step or run from a place of a piece on, which moves by what was taken. */
static bool advance(struct pair *p, enum operation op, const struct call *c, const uint8_t *input,
                    size_t *at)
{
    struct call one = *c;
    one.op = op;
    if (!call_both(p, &one, p->input + *at, input + *at, c->input_n - *at))
        return false;
    *at += op == CALL_RUN ? nelqubat_run_taken(p->answer) : nelqubat_taken((uint32_t)p->answer);
    return true;
}

/* The plain reader's rows in use, or 0 where no table has so many. */
static uint32_t rows_in_use(const struct pair *p)
{
    size_t rows = nelqubat_handle_rows(p->plain.handle + GUARD_BYTES);
    return rows <= NELQUBAT_MAX_ROWS ? (uint32_t)rows : 0;
}

static void spoil(struct pair *p, uint64_t how)
{
    struct dice d = dice_seeded(how);
    enum index_damage kind = (enum index_damage)dice_below(&d, INDEX_DAMAGES);
    damage_index(&d, kind, rows_in_use(p), p->plain.index + GUARD_BYTES);
    p->index_ours = false;
    memcpy(p->library.index, p->plain.index, sizeof p->library.index);
}

/* Makes both indexes true; false where they are so already. */
static bool mend(struct pair *p)
{
    uint8_t *index = p->plain.index + GUARD_BYTES, sorted[NELQUBAT_INDEX_BYTES];
    make_index(p->plain.table + GUARD_BYTES, rows_in_use(p), sorted);
    if (memcmp(index, sorted, sizeof sorted) == 0)
        return false;
    memcpy(index, sorted, sizeof sorted);
    memcpy(p->library.index, p->plain.index, sizeof p->library.index);
    return true;
}

/* Whether a step is to be followed by one more on the same piece: it told an event,
 * or was refused with 20 over an index that is mended now. */
static bool goes_on(struct pair *p)
{
    uint32_t answer = (uint32_t)p->answer;
    return nelqubat_is_event(answer) ||
           (nelqubat_refusal(answer) == NELQUBAT_REFUSED_MEMORY && mend(p));
}

/* Steps through a piece, or makes a run and a step in turn, until a step tells no
 * event. A reader that takes no more is asked twice more; later pieces are
 * passed over. */
static bool feed(struct pair *p, const struct call *c, const uint8_t *input)
{
    size_t at = 0;
    if (p->idle > 2)
        return true;
    if (c->input_n != 0)
        memcpy(p->input, input, c->input_n);
    do {
        if ((c->op == CALL_TURNS && !advance(p, CALL_RUN, c, input, &at)) ||
            !advance(p, CALL_STEP, c, input, &at))
            return false;
    } while (goes_on(p));
    if (nelqubat_kind((uint32_t)p->answer) != NELQUBAT_MORE)
        p->idle++;
    return same_input(p, input, c->input_n);
}

static bool restore_from(struct pair *p, const uint8_t *image, size_t n)
{
    struct call restore = usual_call(CALL_RESTORE);
    restore.input_n = (uint32_t)n;
    p->idle = 0;
    return call_once(p, &restore, image);
}

/* Saves, restores from what was saved, and logs in where the table stopped. */
static bool resume(struct pair *p, const struct call *c)
{
    static uint8_t image[IMAGE_ROOM];
    struct call save = *c, login = usual_call(CALL_FEED);
    uint8_t packet[33];
    struct bytes bytes = {packet, 0, sizeof packet};
    const uint8_t *handle = p->plain.handle + GUARD_BYTES;
    save.op = CALL_SAVE;
    if (!call_once(p, &save, NULL))
        return false;
    if (p->saved == 0)
        return true;
    memcpy(image, p->plain.image + GUARD_BYTES, p->saved);
    if (!restore_from(p, image, p->saved))
        return false;
    put_login(&bytes, nelqubat_handle_session(handle), nelqubat_handle_next(handle));
    login.input_n = (uint32_t)bytes.n;
    return feed(p, &login, packet);
}

/* One move of an image, of which what was written is copied: its length, or 0 where the
 * move was refused. */
static bool move_once(struct pair *p, const struct call *c, const uint8_t *image, uint8_t *moved, size_t *n)
{
    if (!call_once(p, c, image))
        return false;
    *n = nelqubat_written((uint32_t)p->answer);
    memcpy(moved, p->plain.image + GUARD_BYTES, *n);
    return true;
}

/* What was moved twice has the same bytes again, but where a time was known. */
static bool came_back(struct pair *p, bool is_back, const uint8_t *first, const uint8_t *last, size_t n)
{
    bool is_same = memcmp(first, last, n) == 0;
    met_count_round(&p->met, first, is_same);
    if (is_same == (!is_back || met_knows_no_time(first)))
        return true;
    snprintf(p->difference, sizeof p->difference, "round: %s gives %s bytes",
             is_back ? "back then forward" : "forward then back", is_same ? "the same" : "other");
    return false;
}

/* An old image and its move forward leave the same. */
static bool restored_alike(struct pair *p, const uint8_t *old, const uint8_t *moved, size_t n)
{
    if (!restore_from(p, old, n))
        return false;
    copy_reader(&p->stepped, &p->library);
    return restore_from(p, moved, n) && same_reader(p);
}

/* Moves an image one way and then the other. */
static bool go_round(struct pair *p, const struct call *c, const uint8_t *input)
{
    static uint8_t moved[IMAGE_ROOM], again[IMAGE_ROOM];
    bool is_back = c->k == 1;
    struct call first = *c, second = usual_call(is_back ? CALL_FORWARD : CALL_BACK);
    size_t n, again_n;
    first.op = is_back ? CALL_BACK : CALL_FORWARD;
    if (!move_once(p, &first, input, moved, &n))
        return false;
    if (n == 0)
        return true;
    second.input_n = (uint32_t)n;
    if (!move_once(p, &second, moved, again, &again_n) || !same_answer(p, again_n, n) ||
        !came_back(p, is_back, input, again, n))
        return false;
    return is_back ? restored_alike(p, moved, again, n) : restored_alike(p, input, moved, n);
}

bool pair_call(struct pair *p, const struct call *c, const uint8_t *input)
{
    if (c->op == CALL_FEED || c->op == CALL_TURNS)
        return feed(p, c, input);
    if (c->op == CALL_RESUME)
        return resume(p, c);
    if (c->op == CALL_ROUND)
        return go_round(p, c, input);
    if (c->op == CALL_SPOIL) {
        spoil(p, c->k);
        return true;
    }
    if (c->op == CALL_START || c->op == CALL_RESTORE)
        p->idle = 0;
    return call_once(p, c, input);
}

#ifndef CALLS_WITHOUT_LIBRARY
bool pair_sizes(struct pair *p)
{
    if (nelqubat_handle_size() == NELQUBAT_HANDLE_BYTES &&
        nelqubat_table_size() == NELQUBAT_TABLE_BYTES &&
        nelqubat_index_size() == NELQUBAT_INDEX_BYTES &&
        nelqubat_record_size() == NELQUBAT_RECORD_BYTES)
        return true;
    snprintf(p->difference, sizeof p->difference,
             "the library's sizes are %zu, %zu, %zu, %zu, should be %d, %d, %d, %d",
             nelqubat_handle_size(), nelqubat_table_size(), nelqubat_index_size(),
             nelqubat_record_size(), NELQUBAT_HANDLE_BYTES, NELQUBAT_TABLE_BYTES,
             NELQUBAT_INDEX_BYTES, NELQUBAT_RECORD_BYTES);
    return false;
}
#endif
