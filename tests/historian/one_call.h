/* One call of steeplecuff_quantify on blocks of exactly the lengths that are asked for. */
#ifndef ONE_CALL_H
#define ONE_CALL_H

#include "blocks.h"

struct one_call {
    struct block file, plants, segments;
    uint32_t refusal;
    uint64_t place, offset;
};

/* Byte `i` of a table before the call. */
uint8_t plant_byte_before(size_t i);
uint8_t segment_byte_before(size_t i);

/* A call yet to be made, on blocks of this kind. */
struct one_call one_call_on(enum block_kind kind);

/* Makes the call on a copy of the file. Answers NULL, or in words what changed that the call must leave alone.
   The answer and the tables are in `call` until one_call_end. */
const char *one_call_make(struct one_call *call, const uint8_t *file, size_t file_len, size_t plants_len,
                          size_t segments_len);

/* Gives the blocks back. */
void one_call_end(struct one_call *call);

#endif
