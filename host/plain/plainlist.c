/* Reads a session on standard input and lists its table on standard output. */
#define _POSIX_C_SOURCE 200809L

#include "plain.h"

#include <errno.h>
#include <stdio.h>
#include <unistd.h>

enum { PIECE_BYTES = 64 * 1024 };

/* Steps through one piece; false once the reader has ended or refused. */
static bool feed(struct plain_reader *r, uint8_t *table, uint8_t *index,
                 const uint8_t *piece, size_t n)
{
    struct plain_answer answer;
    do {
        plain_step(r, table, PLAIN_TABLE_BYTES, index, PLAIN_INDEX_BYTES, piece, n, &answer);
        piece += answer.taken;
        n -= answer.taken;
    } while (answer.kind == PLAIN_EVENT);
    return answer.kind == PLAIN_MORE;
}

/* Reads standard input until it runs out or the reader wants no more. */
static bool read_session(struct plain_reader *r, uint8_t *table, uint8_t *index)
{
    static uint8_t piece[PIECE_BYTES];
    for (;;) {
        ssize_t n = read(STDIN_FILENO, piece, sizeof piece);
        if (n < 0 && errno == EINTR)
            continue;
        if (n < 0)
            return false;
        if (n == 0 || !feed(r, table, index, piece, (size_t)n))
            return true;
    }
}

int main(void)
{
    static uint8_t table[PLAIN_TABLE_BYTES], index[PLAIN_INDEX_BYTES];
    static char text[PLAIN_LISTING_BYTES];
    struct plain_reader reader;
    size_t n;
    plain_start(&reader, table, sizeof table, index, sizeof index);
    if (!read_session(&reader, table, index)) {
        perror("standard input");
        return 1;
    }
    plain_listing(&reader, table, sizeof table, text, sizeof text, &n);
    if (fwrite(text, 1, n, stdout) != n || fflush(stdout) != 0) {
        perror("standard output");
        return 1;
    }
    return 0;
}
