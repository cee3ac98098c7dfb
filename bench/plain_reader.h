/* Reads seven-bit numbers in plain C. The functions are in the header, and inline, so that they are compiled into what
   calls them. */
#ifndef PLAIN_READER_H
#define PLAIN_READER_H

#include <stddef.h>
#include <stdint.h>

#include "steeplecuff.h"

enum { GROUP_BITS = 7, MOST_GROUPS = 5, GROUP_MASK = 0x7F, MORE_FOLLOW = 0x80 };
#define LARGEST UINT32_C(4000000000) /* also of an inflow and of a reading in kg */

struct reader {
    const uint8_t *bytes;
    size_t len, next;
    uint64_t place; /* the count of numbers read and tested, so the place of the number that is read now */
};

/* Reads one number; answers 0 or refusal 1, 2 or 3. */
static inline uint32_t read_number(struct reader *reader, uint64_t *number)
{
    *number = 0;
    for (unsigned group = 0; group < MOST_GROUPS; group++) {
        if (reader->next == reader->len)
            return STEEPLECUFF_REFUSED_FILE_ENDS;
        uint8_t byte = reader->bytes[reader->next++];
        *number |= (uint64_t)(byte & GROUP_MASK) << (GROUP_BITS * group);
        if (byte & MORE_FOLLOW)
            continue;
        if (byte == 0 && group > 0)
            return STEEPLECUFF_REFUSED_NOT_SHORTEST;
        return *number > LARGEST ? STEEPLECUFF_REFUSED_NUMBER_OVER_LIMIT : 0;
    }
    return STEEPLECUFF_REFUSED_NUMBER_OVER_LIMIT;
}

/* Reads a field of `least` to `most`; answers 0, the refusal of the number, or `refusal` if it is out of range. With a
   refusal the reader is back at the number's first byte, so that `next` is the offset as `place` is the place. */
static inline uint32_t read_field(struct reader *reader, uint32_t least, uint32_t most, uint32_t refusal,
                                  uint32_t *field)
{
    uint64_t number;
    size_t start = reader->next;
    uint32_t fault = read_number(reader, &number);
    if (fault == 0 && (number < least || number > most))
        fault = refusal;
    if (fault != 0) {
        reader->next = start;
        return fault;
    }
    *field = (uint32_t)number;
    reader->place++;
    return 0;
}

#endif
