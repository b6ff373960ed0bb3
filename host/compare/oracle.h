/* The functions of nelqubat.h once more, over the plain reader: what the
 * library must answer and leave in memory. Same arguments, same answers. */
#ifndef ORACLE_H
#define ORACLE_H

#include "plain.h"

/* A handle's bytes from a reader's fields; places past the held bytes as they
 * stand in the reader. */
void oracle_pack_handle(const struct plain_reader *r, uint8_t *handle);

/* A record's 112 bytes from a message. */
void oracle_pack_record(const struct plain_message *m, uint8_t *record);

uint32_t oracle_start(uint8_t *handle, size_t handle_n,
                      uint8_t *table, size_t table_n,
                      uint8_t *index, size_t index_n);
uint32_t oracle_step(uint8_t *handle, size_t handle_n,
                     uint8_t *table, size_t table_n,
                     uint8_t *index, size_t index_n,
                     const uint8_t *piece, size_t piece_n,
                     uint8_t *event, size_t event_n);
uint64_t oracle_run(uint8_t *handle, size_t handle_n,
                    uint8_t *table, size_t table_n,
                    uint8_t *index, size_t index_n,
                    const uint8_t *piece, size_t piece_n, uint32_t ceiling);
uint32_t oracle_save(const uint8_t *handle, size_t handle_n,
                     const uint8_t *table, size_t table_n,
                     uint8_t *out, size_t out_n);
uint32_t oracle_restore(uint8_t *handle, size_t handle_n,
                        uint8_t *table, size_t table_n,
                        uint8_t *index, size_t index_n,
                        const uint8_t *image, size_t image_n);
uint32_t oracle_forward(const uint8_t *image, size_t image_n,
                        uint8_t *out, size_t out_n);
uint32_t oracle_back(const uint8_t *image, size_t image_n,
                     uint8_t *out, size_t out_n);
uint32_t oracle_read(const uint8_t *bytes, size_t bytes_n,
                     uint8_t *record, size_t record_n);
uint32_t oracle_write(const uint8_t *record, size_t record_n,
                      uint8_t *out, size_t out_n);
uint32_t oracle_line(const uint8_t *handle, size_t handle_n,
                     const uint8_t *table, size_t table_n,
                     size_t k, uint8_t *out, size_t out_n);
uint32_t oracle_find(const uint8_t *handle, size_t handle_n,
                     const uint8_t *table, size_t table_n,
                     const uint8_t *index, size_t index_n, uint32_t id);

#endif
