#include "one_call.h"

#include <string.h>

#include "steeplecuff.h"

/* Neither 0, which acceptance sets, nor a place or an offset of any fault. */
static const uint64_t place_before = UINT64_C(0xA5A5A5A5A5A5A5A5), offset_before = UINT64_C(0xA6A6A6A6A6A6A6A6);

enum { PLANT_STEP = 17, PLANT_START = 90, SEGMENT_STEP = 29, SEGMENT_START = 165 };

uint8_t plant_byte_before(size_t i)
{
    return (uint8_t)(PLANT_STEP * i + PLANT_START);
}

uint8_t segment_byte_before(size_t i)
{
    return (uint8_t)(SEGMENT_STEP * i + SEGMENT_START);
}

struct one_call one_call_on(enum block_kind kind)
{
    return (struct one_call){.file = {.kind = kind}, .plants = {.kind = kind}, .segments = {.kind = kind}};
}

static void take_table(struct block *table, size_t len, uint8_t (*byte_before)(size_t))
{
    block_take(table, len);
    for (size_t i = 0; i < len; i++)
        table->bytes[i] = byte_before(i);
}

const char *one_call_make(struct one_call *call, const uint8_t *file, size_t file_len, size_t plants_len,
                          size_t segments_len)
{
    block_take(&call->file, file_len);
    memcpy(call->file.bytes, file, file_len);
    take_table(&call->plants, plants_len, plant_byte_before);
    take_table(&call->segments, segments_len, segment_byte_before);
    call->place = place_before;
    call->offset = offset_before;
    call->refusal = steeplecuff_quantify(call->file.bytes, file_len, call->plants.bytes, plants_len,
                                         call->segments.bytes, segments_len, &call->place, &call->offset);
    if (memcmp(call->file.bytes, file, file_len) != 0)
        return "the file's bytes changed";
    if (!block_front_stayed(&call->file))
        return "bytes before the file changed";
    if (!block_front_stayed(&call->plants))
        return "bytes before the plant table changed";
    if (!block_front_stayed(&call->segments))
        return "bytes before the segment table changed";
    return NULL;
}

void one_call_end(struct one_call *call)
{
    block_give_back(&call->file);
    block_give_back(&call->plants);
    block_give_back(&call->segments);
}
