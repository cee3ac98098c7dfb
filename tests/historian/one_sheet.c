#include "one_sheet.h"

#include <string.h>

#include "steeplecuff.h"

static const uint64_t first_figure_before = UINT64_C(0xB1B1B1B1B1B1B1B1), next_figure = UINT64_C(0x0101010101010101);

/* What stands behind the figures in their sequence: neither 0 nor the place or the offset of a fault. */
enum { PLACE_BEFORE = FIGURES, OFFSET_BEFORE };

uint64_t figure_before(size_t figure)
{
    return first_figure_before + figure * next_figure;
}

struct one_sheet one_sheet_on(enum block_kind kind)
{
    struct one_sheet call = {.sheet_block = {.kind = kind}, .place_block = {.kind = kind}, .offset_block = {.kind = kind}};
    for (size_t i = 0; i < FIGURES; i++)
        call.figure_blocks[i].kind = kind;
    return call;
}

static const char *what_changed(const struct one_sheet *call, const uint8_t *sheet)
{
    if (memcmp(call->sheet_block.bytes, sheet, call->sheet_block.len) != 0)
        return "the sheet's bytes changed";
    if (!block_front_stayed(&call->sheet_block))
        return "bytes before the sheet changed";
    if (!block_front_stayed(&call->place_block))
        return "bytes before the place changed";
    if (!block_front_stayed(&call->offset_block))
        return "bytes before the offset changed";
    for (size_t i = 0; i < FIGURES; i++)
        if (!block_front_stayed(&call->figure_blocks[i]))
            return "bytes before a figure changed";
    return NULL;
}

static void give_back(struct one_sheet *call)
{
    block_give_back(&call->sheet_block);
    block_give_back(&call->place_block);
    block_give_back(&call->offset_block);
    for (size_t i = 0; i < FIGURES; i++)
        block_give_back(&call->figure_blocks[i]);
}

const char *one_sheet_make(struct one_sheet *call, const uint8_t *sheet, size_t sheet_len)
{
    uint64_t *figures[FIGURES];
    uint64_t *place = block_take_number(&call->place_block, figure_before(PLACE_BEFORE));
    uint64_t *offset = block_take_number(&call->offset_block, figure_before(OFFSET_BEFORE));
    for (size_t i = 0; i < FIGURES; i++)
        figures[i] = block_take_number(&call->figure_blocks[i], figure_before(i));
    block_take(&call->sheet_block, sheet_len);
    memcpy(call->sheet_block.bytes, sheet, sheet_len);

    call->refusal =
        steeplecuff_days(call->sheet_block.bytes, sheet_len, figures[FIGURE_SUM], figures[FIGURE_REPEATED],
                         figures[FIGURE_REPEATED_ZERO], figures[FIGURE_LONGEST], figures[FIGURE_FIRST], place, offset);
    call->place = *place;
    call->offset = *offset;
    for (size_t i = 0; i < FIGURES; i++)
        call->figures[i] = *figures[i];
    const char *changed = what_changed(call, sheet);
    give_back(call);
    return changed;
}
