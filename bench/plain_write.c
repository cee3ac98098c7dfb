#include "plain.h"

#include <stdbool.h>

#include "plain_reader.h"
#include "plain_records.h"
#include "steeplecuff.h"

enum { NUMBER = STEEPLECUFF_NUMBER_BYTES };

/* The list of the period's numbers. */
struct list {
    const uint8_t *bytes;
    size_t count; /* of its whole numbers */
    size_t place; /* how many of them were tested, so the place of the number that is tested now */
    size_t needed; /* the bytes that those take in the file */
};

static uint64_t number_at(const struct list *list, size_t place)
{
    const uint8_t *at = list->bytes + place * NUMBER;
    return (uint64_t)at[0] | (uint64_t)at[1] << 8 | (uint64_t)at[2] << 16 | (uint64_t)at[3] << 24 |
           (uint64_t)at[4] << 32 | (uint64_t)at[5] << 40 | (uint64_t)at[6] << 48 | (uint64_t)at[7] << 56;
}

/* How many groups a number up to the limit has. */
static size_t groups_of(uint32_t number)
{
    return 1 + (size_t)(number >> GROUP_BITS != 0) + (size_t)(number >> 2 * GROUP_BITS != 0) +
           (size_t)(number >> 3 * GROUP_BITS != 0) + (size_t)(number >> 4 * GROUP_BITS != 0);
}

/* Tests a field of `least` to `most`; answers 0, refusal 1 or 3, or `refusal` if it is out of range. */
static inline uint32_t test_field(struct list *list, uint32_t least, uint32_t most, uint32_t refusal, uint32_t *field)
{
    if (list->place == list->count)
        return STEEPLECUFF_REFUSED_FILE_ENDS;
    uint64_t number = number_at(list, list->place);
    if (number < least || number > most)
        return number > LARGEST ? STEEPLECUFF_REFUSED_NUMBER_OVER_LIMIT : refusal;
    *field = (uint32_t)number;
    list->needed += groups_of(*field);
    list->place++;
    return 0;
}

struct counts {
    uint32_t plants, segments, lines;
};

static uint32_t test_header(struct list *list, struct counts *counts)
{
    uint32_t edition;
    uint32_t fault = test_field(list, EDITION, EDITION, STEEPLECUFF_REFUSED_EDITION, &edition);
    if (fault == 0)
        fault = test_field(list, 1, MOST_PLANTS, STEEPLECUFF_REFUSED_COUNT, &counts->plants);
    if (fault == 0)
        fault = test_field(list, 1, MOST_SEGMENTS, STEEPLECUFF_REFUSED_COUNT, &counts->segments);
    if (fault == 0)
        fault = test_field(list, 0, MOST_LINES, STEEPLECUFF_REFUSED_COUNT, &counts->lines);
    return fault;
}

static uint32_t test_plant(struct list *list, const struct counts *counts)
{
    const uint32_t refusal = STEEPLECUFF_REFUSED_PLANT_FIELD;
    uint32_t field;
    uint32_t fault = test_field(list, 0, LARGEST, refusal, &field);
    if (fault == 0)
        fault = test_field(list, 1, counts->segments, refusal, &field);
    if (fault == 0)
        fault = test_field(list, 0, WHOLE_FRACTION, refusal, &field);
    return fault;
}

/* A store leads nowhere, which is 0; any other segment leads to one behind it, whose number is above its own, `number`. */
static uint32_t test_segment(struct list *list, const struct counts *counts, uint32_t number)
{
    const uint32_t refusal = STEEPLECUFF_REFUSED_SEGMENT_FIELD;
    uint32_t kind, field;
    uint32_t fault = test_field(list, FIRST_KIND, STORE, refusal, &kind);
    if (fault == 0)
        fault = test_field(list, 0, LARGEST, refusal, &field);
    if (fault != 0)
        return fault;
    bool store = kind == STORE;
    return test_field(list, store ? 0 : number + 1, store ? 0 : counts->segments, refusal, &field);
}

/* What is captured is given in kg, so its factor is the grams of a kg and nothing else. */
static uint32_t test_line(struct list *list, const struct counts *counts)
{
    const uint32_t refusal = STEEPLECUFF_REFUSED_LINE_FIELD;
    uint32_t owner_kind, class, field;
    uint32_t fault = test_field(list, PLANT_OWNER, SEGMENT_OWNER, refusal, &owner_kind);
    if (fault != 0)
        return fault;
    bool plant = owner_kind == PLANT_OWNER;
    fault = test_field(list, 1, plant ? counts->plants : counts->segments, refusal, &field);
    if (fault == 0)
        fault = test_field(list, plant ? FIRST_PLANT_CLASS : FIRST_SEGMENT_CLASS,
                           plant ? LAST_PLANT_CLASS : LAST_SEGMENT_CLASS, refusal, &class);
    if (fault == 0)
        fault = test_field(list, 0, LARGEST, refusal, &field);
    if (fault != 0)
        return fault;
    bool captured = class == CAPTURED;
    return test_field(list, captured ? GRAMS_A_KG : 0, captured ? GRAMS_A_KG : MOST_FACTOR, refusal, &field);
}

/* Tests the whole list: refusals 1 and 3 to 9, the place in the list. */
static uint32_t test_list(struct list *list)
{
    struct counts counts;
    uint32_t fault = test_header(list, &counts);
    if (fault != 0)
        return fault;
    for (uint32_t p = 0; fault == 0 && p < counts.plants; p++)
        fault = test_plant(list, &counts);
    for (uint32_t s = 0; fault == 0 && s < counts.segments; s++)
        fault = test_segment(list, &counts, s + 1);
    for (uint32_t l = 0; fault == 0 && l < counts.lines; l++)
        fault = test_line(list, &counts);
    if (fault == 0 && list->place < list->count)
        fault = STEEPLECUFF_REFUSED_BYTES_AFTER;
    return fault;
}

/* Writes the numbers of a list that was tested, each in its shortest form, the least significant group first. */
static void write_numbers(const struct list *list, uint8_t *next)
{
    for (size_t place = 0; place < list->count; place++) {
        uint32_t number = (uint32_t)number_at(list, place);
        while (number > GROUP_MASK) {
            *next++ = (uint8_t)(number | MORE_FOLLOW);
            number >>= GROUP_BITS;
        }
        *next++ = (uint8_t)number;
    }
}

uint32_t plain_write(const uint8_t *numbers, size_t numbers_len, uint8_t *buffer, size_t buffer_len, uint64_t *written,
                     uint64_t *place)
{
    struct list list = {numbers, numbers_len / NUMBER, 0, 0};
    uint32_t fault = test_list(&list);
    *written = 0;
    *place = list.place;
    if (fault != 0)
        return fault;
    if (buffer_len < list.needed) {
        *place = list.needed;
        return STEEPLECUFF_REFUSED_BUFFER_SHORT;
    }
    write_numbers(&list, buffer);
    *written = list.needed;
    *place = 0;
    return 0;
}
