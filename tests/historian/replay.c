/* replay [guarded]: puts many cases to steeplecuff_quantify in one run, for a comparison with another program.
   A case on standard input: the lengths of file, plant table and segment table in bytes, four bytes each, least
   significant first; then the file. An answer on standard output: refusal (four bytes), place (eight bytes), offset
   (eight bytes), then the plant table and the segment table, as they are after the call. Each answer is sent at once, so
   that their count shows in which case the program died. Exits with 1 if a call changed what it must leave alone, with 2
   if it was not given whole cases. */
#include <stdio.h>

#include "cases.h"
#include "one_call.h"

enum { FILE_LENGTH, PLANTS_LENGTH, SEGMENTS_LENGTH, LENGTHS };

static void write_answer(const struct one_call *call)
{
    write_refusal(call->refusal, call->place, call->offset);
    fwrite(call->plants.bytes, 1, call->plants.len, stdout);
    fwrite(call->segments.bytes, 1, call->segments.len, stdout);
    send_answer();
}

int main(int argc, char **argv)
{
    struct one_call call = one_call_on(block_kind_asked(argc, argv));
    struct block file = {.kind = BLOCK_ON_HEAP};
    size_t lengths[LENGTHS];
    while (read_lengths(lengths, LENGTHS)) {
        read_bytes(&file, lengths[FILE_LENGTH]);
        end_where_changed(one_call_make(&call, file.bytes, file.len, lengths[PLANTS_LENGTH], lengths[SEGMENTS_LENGTH]));
        write_answer(&call);
        one_call_end(&call);
        block_give_back(&file);
    }
    return 0;
}
