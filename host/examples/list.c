/* Reads a session on standard input in pieces and prints its listing. It tells
 * no events, so it reads by runs. */
#include "nelqubat.h"

#include <stdio.h>

static uint8_t handle[NELQUBAT_HANDLE_BYTES], table[NELQUBAT_TABLE_BYTES];
static uint8_t id_index[NELQUBAT_INDEX_BYTES];

/* Runs through one piece; 0 once the reader takes no more. */
static int feed(const uint8_t *piece, size_t n)
{
    uint64_t answer;
    do {
        answer = nelqubat_run(handle, sizeof handle, table, sizeof table, id_index, sizeof id_index,
                              piece, n, NELQUBAT_MAX_PACKETS);
        piece += nelqubat_run_taken(answer);
        n -= nelqubat_run_taken(answer);
    } while (nelqubat_run_why(answer) == NELQUBAT_CEILING);
    return nelqubat_run_why(answer) == NELQUBAT_MORE;
}

static void print_listing(void)
{
    uint8_t line[NELQUBAT_LINE_BYTES];
    size_t n = 1;
    for (size_t k = 0; n != 0; k++) {
        n = nelqubat_written(nelqubat_line(handle, sizeof handle, table, sizeof table,
                                           k, line, sizeof line));
        fwrite(line, 1, n, stdout);
    }
}

int main(void)
{
    static uint8_t piece[4096];
    size_t n;
    if (!nelqubat_is_version()) {
        fprintf(stderr, "list: header and library are not of one version\n");
        return 2;
    }
    nelqubat_start(handle, sizeof handle, table, sizeof table, id_index, sizeof id_index);
    do
        n = fread(piece, 1, sizeof piece, stdin);
    while (n != 0 && feed(piece, n));
    if (ferror(stdin)) {
        perror("list: standard input");
        return 1;
    }
    print_listing();
    if (fflush(stdout) != 0 || ferror(stdout)) {
        perror("list: standard output");
        return 1;
    }
    if (nelqubat_handle_refusal(handle) != 0)
        fprintf(stderr, "list: %s\n", nelqubat_refusal_name(nelqubat_handle_refusal(handle)));
    return nelqubat_handle_refusal(handle) != 0;
}
