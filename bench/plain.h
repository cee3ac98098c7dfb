/* The calls of steeplecuff.h in plain C, with the same parameters: what the benchmark compares with. */
#ifndef PLAIN_H
#define PLAIN_H

#include <stddef.h>
#include <stdint.h>

/* The accounts of a period: steeplecuff_quantify. */
uint32_t plain_quantify(const uint8_t *file, size_t file_len, uint8_t *plants, size_t plants_len, uint8_t *segments,
                        size_t segments_len, uint64_t *place, uint64_t *offset);

/* The figures of a meter's sheet: steeplecuff_days. */
uint32_t plain_days(const uint8_t *sheet, size_t sheet_len, uint64_t *sum, uint64_t *repeated, uint64_t *repeated_zero,
                    uint64_t *longest, uint64_t *first, uint64_t *place, uint64_t *offset);

/* The file of a period, from the list of its numbers: steeplecuff_write. */
uint32_t plain_write(const uint8_t *numbers, size_t numbers_len, uint8_t *buffer, size_t buffer_len, uint64_t *written,
                     uint64_t *place);

#endif
