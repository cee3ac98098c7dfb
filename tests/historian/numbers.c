#include "numbers.h"

enum { GROUP_MASK = (1 << GROUP_BITS) - 1 };

/* Writes one number in its shortest form, least significant group first; answers how many bytes it took. */
static size_t put_number(uint8_t *bytes, uint32_t number)
{
    size_t count = 0;
    while (number > GROUP_MASK) {
        bytes[count++] = (uint8_t)((number & GROUP_MASK) | MORE_FOLLOW);
        number >>= GROUP_BITS;
    }
    bytes[count++] = (uint8_t)number;
    return count;
}

size_t put_numbers(uint8_t *bytes, const uint32_t *numbers, size_t count)
{
    size_t len = 0;
    for (size_t i = 0; i < count; i++)
        len += put_number(bytes + len, numbers[i]);
    return len;
}
