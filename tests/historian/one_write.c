#include "one_write.h"

#include <string.h>

#include "steeplecuff.h"

/* Neither 0, which refusal and acceptance set, nor a count of bytes or a place of any list here. */
static const uint64_t written_before = UINT64_C(0xA7A7A7A7A7A7A7A7), place_before = UINT64_C(0xA5A5A5A5A5A5A5A5);

enum { BUFFER_STEP = 23, BUFFER_START = 60 };

uint8_t buffer_byte_before(size_t i)
{
    return (uint8_t)(BUFFER_STEP * i + BUFFER_START);
}

struct one_write one_write_on(enum block_kind kind)
{
    return (struct one_write){.numbers = {.kind = kind},
                              .buffer = {.kind = kind},
                              .written_block = {.kind = kind},
                              .place_block = {.kind = kind}};
}

static const char *what_changed(const struct one_write *call, const uint8_t *numbers)
{
    if (memcmp(call->numbers.bytes, numbers, call->numbers.len) != 0)
        return "the list's bytes changed";
    if (!block_front_stayed(&call->numbers))
        return "bytes before the list changed";
    if (!block_front_stayed(&call->buffer))
        return "bytes before the buffer changed";
    if (!block_front_stayed(&call->written_block))
        return "bytes before the count of bytes changed";
    if (!block_front_stayed(&call->place_block))
        return "bytes before the place changed";
    return NULL;
}

const char *one_write_make(struct one_write *call, const uint8_t *numbers, size_t numbers_len, size_t buffer_len)
{
    uint64_t *written = block_take_number(&call->written_block, written_before);
    uint64_t *place = block_take_number(&call->place_block, place_before);
    block_take(&call->numbers, numbers_len);
    memcpy(call->numbers.bytes, numbers, numbers_len);
    block_take(&call->buffer, buffer_len);
    for (size_t i = 0; i < buffer_len; i++)
        call->buffer.bytes[i] = buffer_byte_before(i);
    call->refusal = steeplecuff_write(call->numbers.bytes, numbers_len, call->buffer.bytes, buffer_len, written, place);
    call->written = *written;
    call->place = *place;
    return what_changed(call, numbers);
}

void one_write_end(struct one_write *call)
{
    block_give_back(&call->numbers);
    block_give_back(&call->buffer);
    block_give_back(&call->written_block);
    block_give_back(&call->place_block);
}
