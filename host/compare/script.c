#include "script.h"

#include <stdio.h>
#include <string.h>

void script_clear(struct script *s)
{
    memset(s->handle, 0, sizeof s->handle);
    memset(s->table, 0, sizeof s->table);
    memset(s->index, 0, sizeof s->index);
    s->calls_n = 0;
    s->input_n = 0;
    s->thorough = false;
}

void script_add(struct script *s, struct call c, const uint8_t *input, size_t n)
{
    c.input_n = (uint32_t)n;
    if (s->calls_n == MAX_CALLS || n > INPUT_ROOM - s->input_n)
        return;
    s->calls[s->calls_n++] = c;
    if (n != 0)
        memcpy(s->input + s->input_n, input, n);
    s->input_n += n;
}

static bool saves(const struct script *s)
{
    for (size_t i = 0; i < s->calls_n; i++)
        if (writes_image(s->calls[i].op))
            return true;
    return false;
}

bool script_run(const struct script *s, struct pair *p)
{
    const uint8_t *input = s->input;
    p->thorough = s->thorough;
    pair_fill(p, s->handle, s->table, s->index, saves(s));
    for (size_t i = 0; i < s->calls_n; i++) {
        if (!pair_call(p, &s->calls[i], input))
            return false;
        input += s->calls[i].input_n;
    }
    return pair_same(p);
}

/* Shrinking: a change is tried on a copy, and kept if that still differs. */

static void copy_script(struct script *to, const struct script *from)
{
    memcpy(to->handle, from->handle, sizeof to->handle);
    memcpy(to->table, from->table, sizeof to->table);
    memcpy(to->index, from->index, sizeof to->index);
    memcpy(to->calls, from->calls, from->calls_n * sizeof *from->calls);
    memcpy(to->input, from->input, from->input_n);
    to->calls_n = from->calls_n;
    to->input_n = from->input_n;
    to->thorough = from->thorough;
}

/* Keeps the changed copy if it still differs. */
static bool keep(struct script *s, const struct script *changed, struct pair *p)
{
    if (script_run(changed, p))
        return false;
    copy_script(s, changed);
    return true;
}

/* Takes the bytes from `from` to `to` out of the inputs; each call's input
 * gets shorter by what it loses. */
static void cut_bytes(struct script *s, size_t from, size_t to)
{
    size_t at = 0;
    for (size_t i = 0; i < s->calls_n; i++) {
        size_t end = at + s->calls[i].input_n;
        size_t low = from > at ? from : at, high = to < end ? to : end;
        if (low < high)
            s->calls[i].input_n -= (uint32_t)(high - low);
        at = end;
    }
    memmove(s->input + from, s->input + to, s->input_n - to);
    s->input_n -= to - from;
}

static size_t input_place(const struct script *s, size_t call)
{
    size_t at = 0;
    for (size_t i = 0; i < call; i++)
        at += s->calls[i].input_n;
    return at;
}

static void cut_calls(struct script *s, size_t from, size_t to)
{
    cut_bytes(s, input_place(s, from), input_place(s, to));
    memmove(s->calls + from, s->calls + to, (s->calls_n - to) * sizeof *s->calls);
    s->calls_n -= to - from;
}

/* Drops runs of calls, long runs first. */
static bool drop_calls(struct script *s, struct script *spare, struct pair *p)
{
    bool smaller = false;
    for (size_t run = s->calls_n; run > 0; run /= 2)
        for (size_t at = 0; at + run <= s->calls_n;) {
            copy_script(spare, s);
            cut_calls(spare, at, at + run);
            if (keep(s, spare, p))
                smaller = true;
            else
                at += run;
        }
    return smaller;
}

static bool joinable(const struct call *a, const struct call *b)
{
    return (a->op == CALL_FEED || a->op == CALL_TURNS) && a->op == b->op && a->k == b->k &&
           a->handle_n == b->handle_n && a->table_n == b->table_n && a->index_n == b->index_n &&
           a->memory_n == b->memory_n;
}

/* Joins every two pieces that follow each other. */
static bool join_pieces(struct script *s, struct script *spare, struct pair *p)
{
    bool smaller = false;
    for (size_t i = 0; i + 1 < s->calls_n;) {
        if (!joinable(&s->calls[i], &s->calls[i + 1])) {
            i++;
            continue;
        }
        copy_script(spare, s);
        spare->calls[i].input_n += spare->calls[i + 1].input_n;
        memmove(spare->calls + i + 1, spare->calls + i + 2,
                (spare->calls_n - i - 2) * sizeof *spare->calls);
        spare->calls_n--;
        if (keep(s, spare, p))
            smaller = true;
        else
            i++;
    }
    return smaller;
}

/* Joins all pieces that follow each other, in one change. */
static bool join_all(struct script *s, struct script *spare, struct pair *p)
{
    size_t n = 0;
    copy_script(spare, s);
    for (size_t i = 0; i < s->calls_n; i++) {
        if (n > 0 && joinable(&spare->calls[n - 1], &s->calls[i]))
            spare->calls[n - 1].input_n += s->calls[i].input_n;
        else
            spare->calls[n++] = s->calls[i];
    }
    if (n == s->calls_n)
        return false;
    spare->calls_n = n;
    return keep(s, spare, p);
}

/* Where the packet that begins at `at` ends, over all inputs. */
static size_t packet_end(const struct script *s, size_t at)
{
    size_t end = at + 2;
    if (end <= s->input_n)
        end += (size_t)s->input[at] * 256 + s->input[at + 1];
    return end < s->input_n ? end : s->input_n;
}

/* Drops runs of whole packets, long runs first. */
static bool drop_packets(struct script *s, struct script *spare, struct pair *p)
{
    bool smaller = false;
    for (size_t run = 256; run > 0; run /= 2)
        for (size_t at = 0; at < s->input_n;) {
            size_t end = at;
            for (size_t i = 0; i < run && end < s->input_n; i++)
                end = packet_end(s, end);
            copy_script(spare, s);
            cut_bytes(spare, at, end);
            if (keep(s, spare, p))
                smaller = true;
            else
                at = end;
        }
    return smaller;
}

/* Drops runs of bytes, long runs first. */
static bool drop_bytes(struct script *s, struct script *spare, struct pair *p)
{
    bool smaller = false;
    for (size_t run = s->input_n < 512 ? s->input_n : 512; run > 0; run /= 2)
        for (size_t at = 0; at + run <= s->input_n;) {
            copy_script(spare, s);
            cut_bytes(spare, at, at + run);
            if (keep(s, spare, p))
                smaller = true;
            else
                at += run;
        }
    return smaller;
}

/* Makes rows of the first table zero, many at a time and then singly. */
static bool clear_rows(struct script *s, struct script *spare, struct pair *p)
{
    bool smaller = false;
    for (size_t run = TABLE_ROOM; run >= NELQUBAT_ROW_BYTES; run /= 2)
        for (size_t at = 0; at < TABLE_ROOM; at += run) {
            size_t n = run < TABLE_ROOM - at ? run : TABLE_ROOM - at;
            copy_script(spare, s);
            memset(spare->table + at, 0, n);
            if (memcmp(spare->table + at, s->table + at, n) != 0 && keep(s, spare, p))
                smaller = true;
        }
    return smaller;
}

void script_shrink(struct script *s, struct script *spare, struct pair *p)
{
    bool smaller = true;
    copy_script(spare, s);
    spare->thorough = true;
    keep(s, spare, p);
    join_all(s, spare, p);
    for (unsigned turn = 0; smaller && turn < 8; turn++) {
        smaller = drop_calls(s, spare, p);
        smaller |= drop_packets(s, spare, p);
        smaller |= join_pieces(s, spare, p);
        if (s->input_n <= 4096)
            smaller |= drop_bytes(s, spare, p);
    }
    clear_rows(s, spare, p);
    script_run(s, p);
}

/* Files: a line for each part, bytes in hexadecimal, `-` for none. */

static const char title[] = "nelqubat case 3";

static void write_hex(FILE *f, const uint8_t *bytes, size_t n)
{
    if (n == 0)
        fputs(" -", f);
    else
        fputc(' ', f);
    for (size_t i = 0; i < n; i++)
        fprintf(f, "%02X", bytes[i]);
    fputc('\n', f);
}

static void write_table(FILE *f, const uint8_t *table)
{
    static const uint8_t zeros[NELQUBAT_ROW_BYTES];
    for (size_t at = 0; at < TABLE_ROOM; at += NELQUBAT_ROW_BYTES) {
        size_t n = TABLE_ROOM - at < sizeof zeros ? TABLE_ROOM - at : sizeof zeros;
        if (memcmp(table + at, zeros, n) == 0)
            continue;
        fprintf(f, "table %zu", at);
        write_hex(f, table + at, n);
    }
}

static void write_calls(FILE *f, const struct script *s)
{
    const uint8_t *input = s->input;
    for (size_t i = 0; i < s->calls_n; i++) {
        const struct call *c = &s->calls[i];
        fprintf(f, "%s %u %u %u %u %llu", operation_name(c->op), (unsigned)c->handle_n,
                (unsigned)c->table_n, (unsigned)c->index_n, (unsigned)c->memory_n,
                (unsigned long long)c->k);
        write_hex(f, input, c->input_n);
        input += c->input_n;
    }
}

bool script_write(const struct script *s, const char *path, const char *remark)
{
    char temporary[512];
    FILE *f;
    bool good;
    snprintf(temporary, sizeof temporary, "%s.new", path);
    f = fopen(temporary, "w");
    if (f == NULL)
        return false;
    fprintf(f, "%s\n# %s\n# CALL HANDLE-LENGTH TABLE-LENGTH INDEX-LENGTH MEMORY-LENGTH LINE-ID-CEILING-WAY-OR-HOW INPUT\nhandle",
            title, remark);
    write_hex(f, s->handle, sizeof s->handle);
    fputs("index", f);
    write_hex(f, s->index, sizeof s->index);
    write_table(f, s->table);
    write_calls(f, s);
    good = fflush(f) == 0 && !ferror(f);
    good = fclose(f) == 0 && good;
    return good && rename(temporary, path) == 0;
}

static int hex_value(int c)
{
    if (c >= '0' && c <= '9')
        return c - '0';
    return c >= 'A' && c <= 'F' ? c - 'A' + 10 : -1;
}

/* Reads bytes in hexadecimal to the end of the line; their count, or -1. */
static long read_hex(FILE *f, uint8_t *out, size_t room)
{
    size_t n = 0;
    int c = getc(f);
    while (c == ' ')
        c = getc(f);
    if (c == '-')
        return getc(f) == '\n' ? 0 : -1;
    for (; c != '\n'; c = getc(f)) {
        int high = hex_value(c), low = high < 0 ? -1 : hex_value(getc(f));
        if (low < 0 || n == room)
            return -1;
        out[n++] = (uint8_t)(high * 16 + low);
    }
    return (long)n;
}

static bool skip_line(FILE *f)
{
    int c;
    do
        c = getc(f);
    while (c != '\n' && c != EOF);
    return c == '\n';
}

static bool read_call(FILE *f, const char *word, struct script *s)
{
    struct call c;
    unsigned handle_n, table_n, index_n, memory_n, op = 0;
    unsigned long long k;
    long n;
    while (op < OPERATIONS && strcmp(word, operation_name((enum operation)op)) != 0)
        op++;
    if (op == OPERATIONS || s->calls_n == MAX_CALLS ||
        fscanf(f, "%u %u %u %u %llu", &handle_n, &table_n, &index_n, &memory_n, &k) != 5)
        return false;
    n = read_hex(f, s->input + s->input_n, INPUT_ROOM - s->input_n);
    if (n < 0)
        return false;
    c = (struct call){(enum operation)op, handle_n, table_n, index_n, memory_n, (uint32_t)n, k};
    s->input_n += (size_t)n;
    s->calls[s->calls_n++] = c;
    return call_fits(&c);
}

static bool read_line(FILE *f, const char *word, struct script *s)
{
    unsigned long at;
    if (word[0] == '#')
        return skip_line(f);
    if (strcmp(word, "handle") == 0)
        return read_hex(f, s->handle, sizeof s->handle) >= 0;
    if (strcmp(word, "index") == 0)
        return read_hex(f, s->index, sizeof s->index) >= 0;
    if (strcmp(word, "table") == 0)
        return fscanf(f, "%lu", &at) == 1 && at < TABLE_ROOM &&
               read_hex(f, s->table + at, TABLE_ROOM - at) >= 0;
    return read_call(f, word, s);
}

long script_read(struct script *s, const char *path)
{
    FILE *f = fopen(path, "r");
    char word[32];
    long line = 1;
    bool good;
    if (f == NULL)
        return -1;
    script_clear(s);
    s->thorough = true;
    good = fgets(word, sizeof word, f) != NULL &&
           strncmp(word, title, sizeof title - 1) == 0;
    while (good && fscanf(f, "%31s", word) == 1) {
        line++;
        good = read_line(f, word, s);
    }
    good = good && !ferror(f);
    fclose(f);
    return good ? 0 : line;
}
