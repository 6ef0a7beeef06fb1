// The functions that the comparison asks, exported by the static library `probe`. PROTOCOL.md says what each number means.

#ifndef PROBE_H
#define PROBE_H

#include <stddef.h>
#include <stdint.h>

uint32_t probe_size(uint8_t op);
uint32_t probe_starts(const uint8_t *body, size_t n, uint8_t *marks, size_t marks_n);
uint32_t probe_has_ret(const uint8_t *body, size_t n);
uint32_t probe_flow(uint8_t op, const uint8_t *operands, size_t n);
uint64_t probe_target(size_t next, uint16_t word, const uint8_t *marks, size_t marks_n, size_t len);
uint32_t probe_lookup(const uint16_t *ids, size_t n, const uint16_t *counts, size_t cn, const uint16_t *flags, size_t fn,
                      uint16_t id);
uint32_t probe_stack(uint32_t *answer, size_t answer_n, uint8_t *marks, size_t marks_n, uint32_t *depths, size_t depths_n,
                     uint16_t *queue, size_t queue_n, uint16_t *queue_depths, size_t queue_depths_n, const uint16_t *ids,
                     size_t ids_n, const uint16_t *parameters, size_t parameters_n, const uint16_t *maxima, size_t maxima_n,
                     const size_t *offsets, size_t offsets_n, const size_t *lengths, size_t lengths_n,
                     const uint16_t *list_ids, size_t list_ids_n, const uint16_t *counts, size_t counts_n,
                     const uint16_t *flags, size_t flags_n, const uint8_t *code, size_t code_n);
// As `probe_stack`, with callee cells, descriptors (type ids, function ids), entries and the pool.
uint32_t probe_pool(uint32_t *answer, size_t answer_n, uint8_t *marks, size_t marks_n, uint32_t *depths, size_t depths_n,
                    uint16_t *queue, size_t queue_n, uint16_t *queue_depths, size_t queue_depths_n, uint8_t *cells,
                    size_t cells_n, const uint16_t *ids, size_t ids_n, const uint16_t *parameters, size_t parameters_n,
                    const uint16_t *maxima, size_t maxima_n, const size_t *offsets, size_t offsets_n, const size_t *lengths,
                    size_t lengths_n, const uint16_t *list_ids, size_t list_ids_n, const uint16_t *counts, size_t counts_n,
                    const uint16_t *flags, size_t flags_n, const uint8_t *code, size_t code_n, const uint16_t *types,
                    size_t types_n, const uint16_t *callees, size_t callees_n, const uint16_t *entries, size_t entries_n,
                    uint16_t pool);

#endif
