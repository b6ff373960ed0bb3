/* Reads a whole file, or as much of it as there is room for: the count of
 * bytes, or -1 where it cannot be read, which is said in a line. */
#ifndef FILE_H
#define FILE_H

#include <stddef.h>
#include <stdint.h>

long read_file(const char *program, const char *path, uint8_t *out, size_t room);

#endif
