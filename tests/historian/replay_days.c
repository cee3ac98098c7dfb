/* replay_days [guarded]: puts many sheets to steeplecuff_days in one run, for a comparison with another program.
   A case on standard input: the length of the sheet in four bytes, least significant first; then the sheet. An answer
   on standard output: refusal (four bytes), place (eight bytes), offset (eight bytes), then the five figures (eight
   bytes each), as they are after the call; figure_before says what they are before it. All else is as with replay. */
#include "cases.h"
#include "one_sheet.h"

static void write_answer(const struct one_sheet *call)
{
    write_refusal(call->refusal, call->place, call->offset);
    for (size_t i = 0; i < FIGURES; i++)
        write_number(call->figures[i]);
    send_answer();
}

int main(int argc, char **argv)
{
    struct one_sheet call = one_sheet_on(block_kind_asked(argc, argv));
    struct block sheet = {.kind = BLOCK_ON_HEAP};
    size_t length;
    while (read_lengths(&length, 1)) {
        read_bytes(&sheet, length);
        end_where_changed(one_sheet_make(&call, sheet.bytes, sheet.len));
        write_answer(&call);
        block_give_back(&sheet);
    }
    return 0;
}
