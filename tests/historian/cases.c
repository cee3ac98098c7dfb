#include "cases.h"

#include <stdio.h>
#include <stdlib.h>

enum { LENGTH_BYTES = 4, REFUSAL_BYTES = 4, NUMBER_BYTES = 8, BYTE_BITS = 8, BYTE_MASK = 0xFF };
enum { CHANGED_TOO_MUCH = 1, NO_WHOLE_CASE = 2 };

static unsigned long cases; /* how many have begun */

static void end_with(int status, const char *what)
{
    fprintf(stderr, "replay: case %lu: %s\n", cases, what);
    exit(status);
}

static size_t length_in(const uint8_t *bytes)
{
    size_t length = 0;
    for (size_t i = LENGTH_BYTES; i > 0; i--)
        length = length << BYTE_BITS | bytes[i - 1];
    return length;
}

bool read_lengths(size_t *lengths, size_t count)
{
    for (size_t i = 0; i < count; i++) {
        uint8_t bytes[LENGTH_BYTES];
        size_t got = fread(bytes, 1, sizeof bytes, stdin);
        if (i == 0 && got == 0)
            return false;
        if (i == 0)
            cases++;
        if (got < sizeof bytes)
            end_with(NO_WHOLE_CASE, "standard input ends inside its lengths: send whole cases");
        lengths[i] = length_in(bytes);
    }
    return true;
}

void read_bytes(struct block *block, size_t len)
{
    block_take(block, len);
    if (fread(block->bytes, 1, len, stdin) < len)
        end_with(NO_WHOLE_CASE, "standard input ends before all of its bytes: send whole cases");
}

void end_where_changed(const char *changed)
{
    if (changed != NULL)
        end_with(CHANGED_TOO_MUCH, changed);
}

static void write_in(size_t bytes, uint64_t number)
{
    for (size_t i = 0; i < bytes; i++)
        putchar((int)(number >> (BYTE_BITS * i) & BYTE_MASK));
}

void write_code(uint32_t refusal)
{
    write_in(REFUSAL_BYTES, refusal);
}

void write_refusal(uint32_t refusal, uint64_t place, uint64_t offset)
{
    write_code(refusal);
    write_number(place);
    write_number(offset);
}

void write_number(uint64_t number)
{
    write_in(NUMBER_BYTES, number);
}

void send_answer(void)
{
    if (fflush(stdout) != 0)
        end_with(NO_WHOLE_CASE, "its answer could not be written: keep standard output open");
}
