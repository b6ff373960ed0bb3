/* A case: memory to begin with and the calls that follow. It can be run,
 * made smaller while it still shows a difference, written and read again.
 */
#ifndef SCRIPT_H
#define SCRIPT_H

#include "pair.h"

enum { MAX_CALLS = 1 << 17 };

/* The inputs of all calls lie one behind the other. */
struct script {
    uint8_t handle[HANDLE_ROOM], table[TABLE_ROOM], index[INDEX_ROOM];
    struct call calls[MAX_CALLS];
    size_t calls_n;
    uint8_t input[INPUT_ROOM];
    size_t input_n;
    bool thorough;
};

/* Empties a script; handle, table and index are zeros. */
void script_clear(struct script *s);

/* Adds a call with its input; one that does not fit is left out. */
void script_add(struct script *s, struct call c, const uint8_t *input, size_t n);

/* Runs a script: false on a difference, which the pair then holds. */
bool script_run(const struct script *s, struct pair *p);

/* Makes a script that differs as small as it gets; `spare` is scratch memory. */
void script_shrink(struct script *s, struct script *spare, struct pair *p);

/* Writes a script to a file, which is replaced whole. The remark is a line. */
bool script_write(const struct script *s, const char *path, const char *remark);

/* Reads a script: 0, or the number of the line that is wrong, or -1 where the
 * file cannot be read. */
long script_read(struct script *s, const char *path);

#endif
