// The bench file's functions that the comparison asks, exported by the static library `file_probe`. PROTOCOL.md says what each number
// means.

#ifndef FILE_PROBE_H
#define FILE_PROBE_H

#include <stddef.h>
#include <stdint.h>

uint32_t file_probe_read(uint32_t *answer, size_t answer_n, uint16_t *list_ids, size_t list_ids_n, uint16_t *list_counts,
                         size_t list_counts_n, uint16_t *list_flags, size_t list_flags_n, uint16_t *function_ids,
                         size_t function_ids_n, uint16_t *parameters, size_t parameters_n, uint16_t *maxima, size_t maxima_n,
                         size_t *offsets, size_t offsets_n, size_t *lengths, size_t lengths_n, uint16_t *type_ids,
                         size_t type_ids_n, uint16_t *descriptor_functions, size_t descriptor_functions_n, uint16_t *entries,
                         size_t entries_n, uint8_t *code, size_t code_n, const uint8_t *file, size_t file_n);
uint32_t file_probe_write(uint8_t *out, size_t out_n, uint16_t pool, const uint16_t *list_ids, size_t list_ids_n,
                          const uint16_t *list_counts, size_t list_counts_n, const uint16_t *list_flags, size_t list_flags_n,
                          const uint16_t *function_ids, size_t function_ids_n, const uint16_t *parameters,
                          size_t parameters_n, const uint16_t *maxima, size_t maxima_n, const size_t *offsets,
                          size_t offsets_n, const size_t *lengths, size_t lengths_n, const uint16_t *type_ids,
                          size_t type_ids_n, const uint16_t *descriptor_functions, size_t descriptor_functions_n,
                          const uint16_t *entries, size_t entries_n, const uint8_t *code, size_t code_n);

#endif
