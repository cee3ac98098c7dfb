/* One call of steeplecuff_write on blocks of exactly the lengths that are asked for: one for the list, one for the
   buffer, one for the count of bytes and one for the place. */
#ifndef ONE_WRITE_H
#define ONE_WRITE_H

#include "blocks.h"

struct one_write {
    struct block numbers, buffer, written_block, place_block;
    uint32_t refusal;
    uint64_t written, place; /* after the call */
};

/* Byte `i` of the buffer before the call. */
uint8_t buffer_byte_before(size_t i);

/* A call yet to be made, on blocks of this kind. */
struct one_write one_write_on(enum block_kind kind);

/* Makes the call on a copy of the list, whose length is in bytes. Answers NULL, or in words what changed that the call
   must leave alone. The answer and the buffer are in `call` until one_write_end. */
const char *one_write_make(struct one_write *call, const uint8_t *numbers, size_t numbers_len, size_t buffer_len);

/* Gives the blocks back. */
void one_write_end(struct one_write *call);

#endif
