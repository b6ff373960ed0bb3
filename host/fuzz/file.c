#include "file.h"

#include <errno.h>
#include <stdio.h>
#include <string.h>

long read_file(const char *program, const char *path, uint8_t *out, size_t room)
{
    FILE *f = fopen(path, "rb");
    long n = -1;
    if (f != NULL) {
        n = (long)fread(out, 1, room, f);
        if (ferror(f))
            n = -1;
    }
    if (n < 0)
        fprintf(stderr, "%s: %s cannot be read: %s\n", program, path, strerror(errno));
    if (f != NULL)
        fclose(f);
    return n;
}
