/* Seven-bit numbers, of which period files and sheets are made. */
#ifndef NUMBERS_H
#define NUMBERS_H

#include <stddef.h>
#include <stdint.h>

enum {
    GROUP_BITS = 7,        /* bits of a number in one byte */
    MOST_NUMBER_BYTES = 5, /* groups of one number */
    MORE_FOLLOW = 0x80     /* the bit of a byte that says that its number goes on */
};

/* Writes the numbers to `bytes`, which has room for MOST_NUMBER_BYTES each; answers how many bytes they took. */
size_t put_numbers(uint8_t *bytes, const uint32_t *numbers, size_t count);

#endif
