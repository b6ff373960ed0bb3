/* Fields set to the last value that is allowed or the first that is not, in
 * bytes of every sort. */
#ifndef EDGES_H
#define EDGES_H

#include "generate.h"

void edge_message(struct dice *d, uint8_t *bytes, size_t n); /* a message's bytes */
void edge_session(struct dice *d, struct bytes *session);    /* one packet of it */
void edge_record(struct dice *d, uint8_t *record);
void edge_row(struct dice *d, uint8_t *row);
void edge_handle(struct dice *d, uint8_t *handle);
void edge_image(struct dice *d, struct bytes *image);        /* checks made right */

#endif
