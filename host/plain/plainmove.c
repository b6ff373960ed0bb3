/* Moves a saved table by the plain reader, or saves the table that a session leaves.
 *
 *   plainmove forward|back IMAGE NEW
 *   plainmove save SESSION NEW */
#include "file.h"
#include "plain.h"

#include <stdio.h>
#include <string.h>

static uint8_t input[1 << 20], output[PLAIN_IMAGE_BYTES];

/* Steps through the session until it runs out or the reader wants no more. */
static int save(const uint8_t *session, size_t n, uint8_t *out, size_t out_len, size_t *written)
{
    static uint8_t table[PLAIN_TABLE_BYTES], index[PLAIN_INDEX_BYTES];
    struct plain_reader r;
    struct plain_answer answer;
    size_t at = 0;
    plain_start(&r, table, sizeof table, index, sizeof index);
    do {
        plain_step(&r, table, sizeof table, index, sizeof index, session + at, n - at, &answer);
        at += answer.taken;
    } while (answer.kind == PLAIN_EVENT);
    return plain_save(&r, table, sizeof table, out, out_len, written);
}

static const struct {
    const char *name;
    int (*make)(const uint8_t *, size_t, uint8_t *, size_t, size_t *);
} verbs[] = {{"forward", plain_forward}, {"back", plain_back}, {"save", save}};

enum { VERBS = sizeof verbs / sizeof *verbs };

static bool write_file(const char *path, const uint8_t *bytes, size_t n)
{
    FILE *f = fopen(path, "wb");
    bool good = f != NULL && fwrite(bytes, 1, n, f) == n;
    if (f != NULL)
        good = fclose(f) == 0 && good;
    if (!good)
        fprintf(stderr, "plainmove: %s cannot be written\n", path);
    return good;
}

int main(int argc, char **argv)
{
    size_t verb = 0, n = 0;
    long length;
    int refusal;
    while (verb < VERBS && (argc != 4 || strcmp(argv[1], verbs[verb].name) != 0))
        verb++;
    if (verb == VERBS) {
        fprintf(stderr, "usage: plainmove forward|back IMAGE NEW | plainmove save SESSION NEW\n");
        return 2;
    }
    length = read_file("plainmove", argv[2], input, sizeof input);
    if (length < 0)
        return 2;
    refusal = verbs[verb].make(input, (size_t)length, output, sizeof output, &n);
    if (refusal != 0) {
        fprintf(stderr, "plainmove: %s: refused %d\n", argv[2], refusal);
        return 1;
    }
    return write_file(argv[3], output, n) ? 0 : 2;
}
