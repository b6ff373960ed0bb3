/* What calls met of images: versions, right and wrong ones, the counts of rows and blocks
 * at their ends, and of moves the lengths of output. */
#ifndef MET_IMAGE_H
#define MET_IMAGE_H

#include "pair.h"

/* The version and the rows that block 0 of an image names, and where row k is. */
uint64_t met_version(const uint8_t *image);
uint64_t met_named(const uint8_t *image);
const uint8_t *met_image_row(const uint8_t *image, size_t k);

/* Counts the plain reader's answer to a call that was made with this input. */
void met_count_image(struct met *m, const struct call *c, uint32_t answer, const struct world *plain,
                     const uint8_t *input);

/* Counts an image that was moved one way and then the other, and whether it has its own
 * bytes again. */
void met_count_round(struct met *m, const uint8_t *image, bool is_same);

#endif
