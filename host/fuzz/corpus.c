/* Makes inputs for the fuzzing target, from sessions that are named and from
 * small ones of its own: corpus FOLDER SESSION... */
#include "edges.h"
#include "file.h"
#include "generate.h"
#include "nelqubat.h"
#include "oracle.h"

#include <stdio.h>
#include <string.h>

/* What is added to an input's first byte, for runs and steps in turn. */
enum { BY_RUNS = 4 };

/* How an image is read: its checks are made right, and a table is resumed; and what is
 * added for output that is a byte short, and for a round that goes back first. */
enum { SEALED = 32 + 4, SHORT = 64, BACK_FIRST = 128 };

static uint8_t session[1 << 16];
static size_t session_n;
static uint8_t input[sizeof session + PLAIN_IMAGE_BYTES + PLAIN_BLOCK_BYTES];
static size_t input_n;
static const char *folder;
static unsigned files;

static void add(const uint8_t *bytes, size_t n)
{
    if (n > sizeof input - input_n)
        n = sizeof input - input_n;
    memcpy(input + input_n, bytes, n);
    input_n += n;
}

static void begin(uint8_t what, uint8_t how)
{
    input[0] = what;
    input[1] = how;
    input_n = 2;
}

static bool finish(void)
{
    char path[512];
    FILE *f;
    bool good;
    snprintf(path, sizeof path, "%s/%04u", folder, files++);
    f = fopen(path, "wb");
    if (f == NULL) {
        perror(path);
        return false;
    }
    good = fwrite(input, 1, input_n, f) == input_n;
    good = fclose(f) == 0 && good;
    if (!good)
        fprintf(stderr, "corpus: %s cannot be written\n", path);
    return good;
}

/* The session's start, short and whole, cut in each way, by steps and by runs. */
static bool add_sessions(void)
{
    static const size_t lengths[] = {40, 700, sizeof session};
    for (size_t i = 0; i < sizeof lengths / sizeof *lengths; i++)
        for (unsigned how = 0; how < 32; how++) {
            begin((uint8_t)(how / 16 * BY_RUNS), (uint8_t)(how % 16));
            add(session, session_n < lengths[i] ? session_n : lengths[i]);
            if (!finish())
                return false;
        }
    return true;
}

/* The handle, table and index, and the image after some packets, with the packets
 * that follow behind them; by runs for every second file. */
static bool add_tables(const struct plain_reader *r, const uint8_t *table, const uint8_t *index, size_t at)
{
    static uint8_t image[PLAIN_IMAGE_BYTES];
    uint8_t handle[NELQUBAT_HANDLE_BYTES];
    size_t n, left = session_n - at < 600 ? session_n - at : 600;
    size_t rows = r->rows < 63 ? r->rows : 63;
    oracle_pack_handle(r, handle);
    begin((uint8_t)(2 + files % 2 * BY_RUNS), (uint8_t)(rows << 2));
    add(handle, sizeof handle);
    add(table, rows * PLAIN_ROW_BYTES);
    add(index, rows * 2);
    add(session + at, left);
    if (!finish())
        return false;
    if (plain_save(r, table, PLAIN_TABLE_BYTES, image, sizeof image, &n) != 0)
        return true;
    begin((uint8_t)(1 + files % 2 * BY_RUNS), SEALED + BACK_FIRST);
    add(image, n);
    add(session + at, left);
    return finish();
}

/* The same record with a field at its limit. */
static bool add_edges(const uint8_t *record)
{
    struct dice d = dice_seeded(files);
    for (unsigned i = 0; i < 4; i++) {
        begin(3, 80);
        add(record, NELQUBAT_RECORD_BYTES);
        edge_record(&d, input + 2);
        if (!finish())
            return false;
    }
    return true;
}

static bool add_message(const struct plain_message *m)
{
    uint8_t record[NELQUBAT_RECORD_BYTES], bytes[PLAIN_MESSAGE_BYTES];
    size_t n;
    oracle_pack_record(m, record);
    begin(3, 40);
    add(record, sizeof record);
    if (!finish() || plain_write(m, bytes, sizeof bytes, &n) != 0)
        return false;
    begin(3, 112);
    add(bytes, n);
    return finish() && add_edges(record);
}

/* Steps through the session: a message of each kind, and the table now and
 * then. */
static bool add_steps(struct plain_reader r)
{
    static uint8_t table[PLAIN_TABLE_BYTES], index[PLAIN_INDEX_BYTES];
    struct plain_answer a;
    unsigned seen = 0;
    size_t at = 0;
    memset(table, 0, sizeof table);
    memset(index, 0, sizeof index);
    for (unsigned i = 0; at < session_n; i++) {
        plain_step(&r, table, sizeof table, index, sizeof index, session + at, session_n - at, &a);
        at += a.taken;
        if (a.kind != PLAIN_EVENT)
            return add_tables(&r, table, index, at);
        if ((i & (i - 1)) == 0 && !add_tables(&r, table, index, at))
            return false;
        if (a.event != PLAIN_MESSAGE || (seen >> a.message.kind & 1) != 0)
            continue;
        seen |= 1u << a.message.kind;
        if (!add_message(&a.message))
            return false;
    }
    return true;
}

/* Small sessions with every kind of message; some begin near the last number,
 * which a reader meets only with a handle or an image of that kind. */
static bool add_made(void)
{
    for (uint64_t seed = 0; seed < 12; seed++) {
        struct dice d = dice_seeded(seed);
        struct session_plan plan = random_plan(&d);
        struct bytes s = {session, 0, sizeof session};
        plan.instruments = 1 + (unsigned)seed % 4;
        plan.packets = 24;
        plan.first = seed % 3 == 2 ? PLAIN_MAX_NUMBER - 16 : 1;
        make_session(&d, &plan, &s);
        session_n = s.n;
        if (!add_sessions() || !add_steps(reader_for_plan(&plan)))
            return false;
    }
    return true;
}

/* A table of so many rows, saved. */
static void add_image(uint32_t rows)
{
    static uint8_t table[PLAIN_TABLE_BYTES];
    struct dice d = dice_seeded(rows);
    struct session_plan plan = usual_plan();
    struct plain_reader r;
    size_t n;
    plan.first = 2;
    r = reader_for_plan(&plan);
    r.rows = rows;
    for (uint32_t k = 0; k < rows; k++)
        make_row(&d, k, table + k * (size_t)PLAIN_ROW_BYTES);
    plain_save(&r, table, sizeof table, input + input_n, sizeof input - input_n, &n);
    input_n += n;
}

/* Damages an image, its version most often, or the time of a side. */
static void damage(unsigned seed, struct bytes *image)
{
    struct dice d = dice_seeded(seed);
    if (seed % 3 == 0)
        damage_image(&d, IMAGE_TIME, image);
    else
        damage_image(&d, (enum image_damage)dice_between(&d, IMAGE_VERSION, IMAGE_NAMED), image);
}

/* An image of so many rows, with times and without them, true and damaged, that is moved
 * in each way. */
static bool add_images_of(uint32_t rows)
{
    for (unsigned how = 0; how < 32; how++) {
        struct bytes image = {input + 2, 0, sizeof input - 2};
        bool aged = how / 2 % 2 == 1;
        begin((uint8_t)(1 + how % 2 * BY_RUNS), (uint8_t)(SEALED + (how / 4 % 2) * SHORT + (aged ? 0 : BACK_FIRST)));
        add_image(rows);
        image.n = input_n - 2;
        if (aged)
            age_image(&image);
        if (how >= 8)
            damage(how, &image);
        input_n = image.n + 2;
        if (!finish())
            return false;
    }
    return true;
}

/* Images of few rows, about a change of version, and of a full table. */
static bool add_images(void)
{
    static const uint32_t rows[] = {0, 1, 5, 9, PLAIN_ROWS_OF_VERSION_1, PLAIN_ROWS_OF_VERSION_1 + 1, PLAIN_MAX_ROWS};
    for (size_t i = 0; i < sizeof rows / sizeof *rows; i++)
        if (!add_images_of(rows[i]))
            return false;
    return true;
}

static bool read_session(const char *path)
{
    long n = read_file("corpus", path, session, sizeof session);
    session_n = n < 0 ? 0 : (size_t)n;
    return n >= 0;
}

int main(int argc, char **argv)
{
    struct session_plan fresh = usual_plan();
    if (argc < 3) {
        fprintf(stderr, "usage: corpus FOLDER SESSION...\n");
        return 2;
    }
    folder = argv[1];
    for (int i = 2; i < argc; i++)
        if (!read_session(argv[i]) || !add_sessions() || !add_steps(reader_for_plan(&fresh)))
            return 1;
    return add_made() && add_images() ? 0 : 1;
}
