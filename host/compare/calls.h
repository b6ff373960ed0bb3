/* The calls of nelqubat.h as one thing that can be handed on: the library's
 * own, and the same over the plain reader. */
#ifndef CALLS_H
#define CALLS_H

#include <stddef.h>
#include <stdint.h>

struct calls {
    const char *name;
    uint32_t (*start)(uint8_t *, size_t, uint8_t *, size_t, uint8_t *, size_t);
    uint32_t (*step)(uint8_t *, size_t, uint8_t *, size_t, uint8_t *, size_t,
                     const uint8_t *, size_t, uint8_t *, size_t);
    uint64_t (*run)(uint8_t *, size_t, uint8_t *, size_t, uint8_t *, size_t,
                    const uint8_t *, size_t, uint32_t);
    uint32_t (*save)(const uint8_t *, size_t, const uint8_t *, size_t, uint8_t *, size_t);
    uint32_t (*restore)(uint8_t *, size_t, uint8_t *, size_t, uint8_t *, size_t,
                        const uint8_t *, size_t);
    uint32_t (*forward)(const uint8_t *, size_t, uint8_t *, size_t);
    uint32_t (*back)(const uint8_t *, size_t, uint8_t *, size_t);
    uint32_t (*read)(const uint8_t *, size_t, uint8_t *, size_t);
    uint32_t (*write)(const uint8_t *, size_t, uint8_t *, size_t);
    uint32_t (*line)(const uint8_t *, size_t, const uint8_t *, size_t, size_t,
                     uint8_t *, size_t);
    uint32_t (*find)(const uint8_t *, size_t, const uint8_t *, size_t,
                     const uint8_t *, size_t, uint32_t);
};

extern const struct calls library_calls, plain_calls;

#endif
