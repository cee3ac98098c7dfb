/* One call of steeplecuff_days on blocks of exactly the needed lengths: one for the sheet, one for each figure, one for
   the place and one for the offset. */
#ifndef ONE_SHEET_H
#define ONE_SHEET_H

#include "blocks.h"

enum figure { FIGURE_SUM, FIGURE_REPEATED, FIGURE_REPEATED_ZERO, FIGURE_LONGEST, FIGURE_FIRST, FIGURES };

struct one_sheet {
    struct block sheet_block, place_block, offset_block, figure_blocks[FIGURES];
    uint32_t refusal;
    uint64_t place, offset, figures[FIGURES]; /* after the call */
};

/* A figure before the call: eight bytes B1 for the first, B2 for the second and so on. */
uint64_t figure_before(size_t figure);

/* A call yet to be made, on blocks of this kind. */
struct one_sheet one_sheet_on(enum block_kind kind);

/* Makes the call on a copy of the sheet. Answers NULL, or in words what changed that the call must leave alone.
   It can be made again with another sheet. */
const char *one_sheet_make(struct one_sheet *call, const uint8_t *sheet, size_t sheet_len);

#endif
