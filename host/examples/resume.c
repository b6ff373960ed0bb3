/* Reads a session on standard input, saves the table when so many messages are
 * in, stops, restores the table from the file, logs in again and goes on; then
 * it prints the listing, which is that of a run that never stopped.
 *
 *   resume FILE MESSAGES < SESSION */
#include "nelqubat.h"

#include <errno.h>
#include <inttypes.h>
#include <stdio.h>
#include <stdlib.h>
#include <string.h>

static uint8_t handle[NELQUBAT_HANDLE_BYTES], table[NELQUBAT_TABLE_BYTES];
static uint8_t id_index[NELQUBAT_INDEX_BYTES];
static uint8_t image[NELQUBAT_IMAGE_BYTES + 1];

static int complain(const char *what, const char *why)
{
    fprintf(stderr, "resume: %s: %s\n", what, why);
    return 0;
}

/* The file is made anew and renamed, so that it is replaced whole or not at all. */
static int save(const char *path)
{
    uint32_t answer = nelqubat_save(handle, sizeof handle, table, sizeof table, image, sizeof image);
    char fresh[4096];
    FILE *file;
    int good;
    if (nelqubat_refusal(answer) != 0)
        return complain("save", nelqubat_refusal_name(nelqubat_refusal(answer)));
    if (snprintf(fresh, sizeof fresh, "%s.new", path) >= (int)sizeof fresh)
        return complain(path, "name is too long");
    file = fopen(fresh, "wb");
    if (file == NULL)
        return complain(fresh, strerror(errno));
    good = fwrite(image, 1, nelqubat_written(answer), file) == nelqubat_written(answer);
    good = fclose(file) == 0 && good;
    return (good && rename(fresh, path) == 0) || complain(path, strerror(errno));
}

static int restore(const char *path)
{
    FILE *file = fopen(path, "rb");
    size_t n;
    unsigned refusal;
    if (file == NULL)
        return complain(path, strerror(errno));
    n = fread(image, 1, sizeof image, file);
    fclose(file);
    refusal = nelqubat_restore(handle, sizeof handle, table, sizeof table, id_index, sizeof id_index,
                               image, n);
    return refusal == 0 || complain(path, nelqubat_refusal_name(refusal));
}

/* The server's answer to a login request for the saved session and the saved
 * next number. A program with a line to the server sends the request and gets
 * this packet from it. */
static int log_in(void)
{
    uint8_t event[NELQUBAT_RECORD_BYTES], packet[34] = {0, 31, 'A'};
    uint32_t answer;
    if (!nelqubat_handle_known(handle))
        return 1;
    memcpy(packet + 3, nelqubat_handle_session(handle), NELQUBAT_SESSION_BYTES);
    snprintf((char *)packet + 13, 21, "%20" PRIu64, nelqubat_handle_next(handle));
    answer = nelqubat_step(handle, sizeof handle, table, sizeof table, id_index, sizeof id_index,
                           packet, 33, event, sizeof event);
    return nelqubat_kind(answer) == NELQUBAT_LOGIN ||
           complain("login", nelqubat_refusal_name(nelqubat_refusal(answer)));
}

/* What a program does that stops and is started again later. The index is not
 * saved: restoring makes it. */
static int stop_and_go_on(const char *path)
{
    if (!save(path))
        return 0;
    memset(handle, 0, sizeof handle);
    memset(table, 0, sizeof table);
    memset(id_index, 0, sizeof id_index);
    return restore(path) && log_in();
}

/* Steps through one piece, and stops once when the messages are in; 0 once the
 * reader takes no more. `path` is null after the stop. */
static int feed(const uint8_t *piece, size_t n, const char **path, uint64_t messages)
{
    uint8_t event[NELQUBAT_RECORD_BYTES];
    uint32_t answer;
    do {
        answer = nelqubat_step(handle, sizeof handle, table, sizeof table, id_index, sizeof id_index,
                               piece, n, event, sizeof event);
        piece += nelqubat_taken(answer);
        n -= nelqubat_taken(answer);
        if (*path != NULL && nelqubat_is_event(answer) && nelqubat_handle_logged_in(handle) &&
            nelqubat_handle_next(handle) > messages) {
            if (!stop_and_go_on(*path))
                exit(1);
            *path = NULL;
        }
    } while (nelqubat_is_event(answer));
    return nelqubat_kind(answer) == NELQUBAT_MORE;
}

static int print_listing(void)
{
    uint8_t line[NELQUBAT_LINE_BYTES];
    size_t n = 1;
    for (size_t k = 0; n != 0; k++) {
        n = nelqubat_written(nelqubat_line(handle, sizeof handle, table, sizeof table, k, line, sizeof line));
        fwrite(line, 1, n, stdout);
    }
    return (fflush(stdout) == 0 && !ferror(stdout)) || complain("standard output", strerror(errno));
}

int main(int argc, char **argv)
{
    static uint8_t piece[4096];
    char *end = NULL;
    const char *path = argc == 3 ? argv[1] : NULL;
    uint64_t messages = argc == 3 ? strtoull(argv[2], &end, 10) : 0;
    size_t n;
    if (argc != 3 || argv[2][0] < '0' || argv[2][0] > '9' || *end != 0) {
        fprintf(stderr, "usage: resume FILE MESSAGES < SESSION\n");
        return 2;
    }
    if (!nelqubat_is_version()) {
        fprintf(stderr, "resume: header and library are not of one version\n");
        return 2;
    }
    nelqubat_start(handle, sizeof handle, table, sizeof table, id_index, sizeof id_index);
    do
        n = fread(piece, 1, sizeof piece, stdin);
    while (n != 0 && feed(piece, n, &path, messages));
    if (ferror(stdin))
        return !complain("standard input", strerror(errno));
    if (path != NULL)
        return !complain("the session", "has fewer messages than that");
    return !print_listing();
}
