/* replay_write [guarded]: puts many lists to steeplecuff_write in one run, for a comparison with another program.
   A case on standard input: the lengths of the list and of the buffer in bytes, four bytes each, least significant first;
   then the list. An answer on standard output: refusal (four bytes), count of bytes written (eight bytes), place (eight
   bytes), then the buffer, as they are after the call; buffer_byte_before says what it is before it. All else is as with
   replay. */
#include <stdio.h>

#include "cases.h"
#include "one_write.h"

enum { NUMBERS_LENGTH, BUFFER_LENGTH, LENGTHS };

static void write_answer(const struct one_write *call)
{
    write_code(call->refusal);
    write_number(call->written);
    write_number(call->place);
    fwrite(call->buffer.bytes, 1, call->buffer.len, stdout);
    send_answer();
}

int main(int argc, char **argv)
{
    struct one_write call = one_write_on(block_kind_asked(argc, argv));
    struct block numbers = {.kind = BLOCK_ON_HEAP};
    size_t lengths[LENGTHS];
    while (read_lengths(lengths, LENGTHS)) {
        read_bytes(&numbers, lengths[NUMBERS_LENGTH]);
        end_where_changed(one_write_make(&call, numbers.bytes, numbers.len, lengths[BUFFER_LENGTH]));
        write_answer(&call);
        one_write_end(&call);
        block_give_back(&numbers);
    }
    return 0;
}
