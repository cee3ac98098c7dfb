/* writes [guarded]: calls steeplecuff_write as the office does and checks every byte of what comes back: for the worked
   period (rule 13.11), which steeplecuff_quantify then reads, every cut of its list, every number over the limit, changes
   of its fields, numbers left over, spare bytes, buffers of many lengths, and the longest file. Prints as calls does. */
#include <inttypes.h>
#include <stdio.h>
#include <string.h>

#include "checks.h"
#include "numbers.h"
#include "one_call.h"
#include "one_write.h"
#include "period_file.h"
#include "steeplecuff.h"

enum { NUMBER = STEEPLECUFF_NUMBER_BYTES, BYTE_BITS = 8, NAME_BYTES = 80 };
enum { WHOLE_BYTES = 37, ROOM = WHOLE_BYTES + 9 }; /* the length of the worked period's file, and of most buffers */
enum { MOST_NUMBERS = STEEPLECUFF_MOST_LIST_NUMBERS, LEFT_OVER = 3, SPARE_BYTES = NUMBER - 1 };
#define LARGEST UINT64_C(4000000000)

/* A list that is being made. */
struct list {
    uint64_t numbers[MOST_NUMBERS + LEFT_OVER];
    size_t count, spare; /* spare bytes behind the numbers */
};

/* What a call answers; the file is NULL if the list is refused: then the buffer is as it was. */
struct expected {
    uint32_t refusal;
    uint64_t written, place;
    const uint8_t *file;
};

static struct one_write call;
static uint8_t whole_file[WHOLE_PERIOD_NUMBERS * MOST_NUMBER_BYTES];

static bool answer_as_expected(struct expected expected)
{
    if (call.refusal == expected.refusal && call.written == expected.written && call.place == expected.place)
        return true;
    printf("FAILED, it is %" PRIu32 " at %" PRIu64 ", %" PRIu64 " bytes, and should be %" PRIu32 " at %" PRIu64 ", %" PRIu64
           " bytes\n",
           call.refusal, call.place, call.written, expected.refusal, expected.place, expected.written);
    return false;
}

/* Whether the buffer begins with the file, and every byte after it is as it was before. */
static bool buffer_is(const uint8_t *file, size_t len)
{
    for (size_t i = 0; i < call.buffer.len; i++) {
        uint8_t wanted = i < len ? file[i] : buffer_byte_before(i);
        if (call.buffer.bytes[i] != wanted) {
            printf("FAILED, byte %zu of the buffer is %u and should be %u\n", i, call.buffer.bytes[i], wanted);
            return false;
        }
    }
    return true;
}

/* Makes one call, and prints and counts whether all is as expected. */
static void check(const char *name, const struct list *list, size_t buffer_len, struct expected expected)
{
    static uint8_t bytes[sizeof list->numbers + SPARE_BYTES];
    size_t len = list->count * NUMBER + list->spare;
    memset(bytes, 0, sizeof bytes);
    for (size_t i = 0; i < list->count * NUMBER; i++)
        bytes[i] = (uint8_t)(list->numbers[i / NUMBER] >> (BYTE_BITS * (i % NUMBER)));
    check_begin(name);
    const char *changed = one_write_make(&call, bytes, len, buffer_len);
    check_end(all_stayed(changed) && answer_as_expected(expected) && buffer_is(expected.file, expected.written));
    one_write_end(&call);
}

static void check_refused(const char *name, const struct list *list, uint32_t refusal, uint64_t place)
{
    check(name, list, ROOM, (struct expected){refusal, 0, place, NULL});
}

static struct list whole_list(void)
{
    struct list list = {.count = WHOLE_PERIOD_NUMBERS};
    for (size_t i = 0; i < WHOLE_PERIOD_NUMBERS; i++)
        list.numbers[i] = whole_period[i];
    return list;
}

/* The worked period in buffers of many lengths; a short one is answered with the bytes that are needed. */
static void check_lengths(void)
{
    struct list list = whole_list();
    const struct expected accepted = {STEEPLECUFF_ACCEPTED, WHOLE_BYTES, 0, whole_file};
    const struct expected no_room = {STEEPLECUFF_REFUSED_BUFFER_SHORT, 0, WHOLE_BYTES, NULL};
    check_length("the worked period has its length", put_numbers(whole_file, whole_period, WHOLE_PERIOD_NUMBERS), WHOLE_BYTES);
    for (size_t len = 0; len <= ROOM; len++) {
        char name[NAME_BYTES];
        snprintf(name, sizeof name, "the worked period in a buffer of %zu bytes", len);
        check(name, &list, len, len < WHOLE_BYTES ? no_room : accepted);
    }
    check("the worked period in a buffer for every file", &list, STEEPLECUFF_MOST_FILE_BYTES, accepted);
    for (list.spare = 1; list.spare <= SPARE_BYTES; list.spare++) {
        char name[NAME_BYTES];
        snprintf(name, sizeof name, "the worked period and %zu spare bytes", list.spare);
        check(name, &list, WHOLE_BYTES, accepted);
    }
}

/* Whether the tables begin with the units that rule 13.11 gives both plants. */
static bool units_are_due(const struct block *plants)
{
    const size_t units = STEEPLECUFF_PLANT_UNITS * NUMBER, row = STEEPLECUFF_PLANT_NUMBERS * NUMBER;
    if (plants->bytes[units] == 9 && plants->bytes[row + units] == 4)
        return true;
    printf("FAILED, the units are %u and %u\n", plants->bytes[units], plants->bytes[row + units]);
    return false;
}

/* What the call has written is read by the other call, from the same buffer. */
static void check_read_back(void)
{
    struct list list = whole_list();
    struct one_call reading = one_call_on(call.buffer.kind);
    uint8_t bytes[WHOLE_PERIOD_NUMBERS * NUMBER];
    for (size_t i = 0; i < sizeof bytes; i++)
        bytes[i] = (uint8_t)(list.numbers[i / NUMBER] >> (BYTE_BITS * (i % NUMBER)));
    check_begin("the worked period written and read");
    const char *changed = one_write_make(&call, bytes, sizeof bytes, WHOLE_BYTES);
    if (changed == NULL)
        changed = one_call_make(&reading, call.buffer.bytes, (size_t)call.written, STEEPLECUFF_MOST_PLANT_BYTES,
                                STEEPLECUFF_MOST_SEGMENT_BYTES);
    struct answer answer = {reading.refusal, reading.place, reading.offset};
    check_end(all_stayed(changed) && answer_is(answer, (struct answer){STEEPLECUFF_ACCEPTED, 0, 0}) &&
              units_are_due(&reading.plants));
    one_call_end(&reading);
    one_write_end(&call);
}

/* Every cut of the list: the place is how many numbers there are. Spare bytes are no number. */
static void check_cuts(void)
{
    struct list list = whole_list();
    for (list.count = 0; list.count < WHOLE_PERIOD_NUMBERS; list.count++) {
        char name[NAME_BYTES];
        list.spare = 0;
        snprintf(name, sizeof name, "the first %zu numbers", list.count);
        check_refused(name, &list, STEEPLECUFF_REFUSED_FILE_ENDS, list.count);
        list.spare = SPARE_BYTES;
        snprintf(name, sizeof name, "the first %zu numbers and seven bytes", list.count);
        check_refused(name, &list, STEEPLECUFF_REFUSED_FILE_ENDS, list.count);
    }
    list = (struct list){.count = 0};
    check("an empty list and an empty buffer", &list, 0, (struct expected){STEEPLECUFF_REFUSED_FILE_ENDS, 0, 0, NULL});
}

/* Each number over the limit: next to it, where narrower numbers turn over, and the largest there is. */
static void check_limit(void)
{
    for (size_t place = 0; place < WHOLE_PERIOD_NUMBERS; place++) {
        const uint64_t numbers[] = {LARGEST + 1, whole_period[place] + (UINT64_C(1) << 32),
                                    whole_period[place] + (UINT64_C(1) << 35), UINT64_MAX};
        for (size_t i = 0; i < sizeof numbers / sizeof numbers[0]; i++) {
            struct list list = whole_list();
            char name[NAME_BYTES];
            list.numbers[place] = numbers[i];
            snprintf(name, sizeof name, "%" PRIu64 " at number %zu", numbers[i], place);
            check_refused(name, &list, STEEPLECUFF_REFUSED_NUMBER_OVER_LIMIT, place);
        }
    }
}

/* Fields outside their ranges, and what only the accounts refuse. */
static void check_fields(void)
{
    static const struct {
        const char *name;
        size_t at;
        uint64_t number;
        uint32_t refusal;
        uint64_t place;
    } cases[] = {
        {"edition 0", THE_EDITION, 0, STEEPLECUFF_REFUSED_EDITION, THE_EDITION},
        {"edition 2", THE_EDITION, 2, STEEPLECUFF_REFUSED_EDITION, THE_EDITION},
        {"no plants", 1, 0, STEEPLECUFF_REFUSED_COUNT, 1},
        {"17 plants", 1, 17, STEEPLECUFF_REFUSED_COUNT, 1},
        {"33 segments", 2, 33, STEEPLECUFF_REFUSED_COUNT, 2},
        {"513 lines", THE_LINES, 513, STEEPLECUFF_REFUSED_COUNT, THE_LINES},
        {"3 lines", THE_LINES, 3, STEEPLECUFF_REFUSED_FILE_ENDS, WHOLE_PERIOD_NUMBERS},
        {"1 line", THE_LINES, 1, STEEPLECUFF_REFUSED_BYTES_AFTER, SECOND_OWNER_KIND},
        {"first plant enters at segment 3", FIRST_ENTRY, 3, STEEPLECUFF_REFUSED_PLANT_FIELD, FIRST_ENTRY},
        {"second fraction 1000001", SECOND_FRACTION, 1000001, STEEPLECUFF_REFUSED_PLANT_FIELD, SECOND_FRACTION},
        {"second kind 7", SECOND_KIND, 7, STEEPLECUFF_REFUSED_SEGMENT_FIELD, SECOND_KIND},
        {"second kind 5", SECOND_KIND, 5, STEEPLECUFF_REFUSED_SEGMENT_FIELD, SECOND_KIND + 2},
        {"first class 9", FIRST_CLASS, 9, STEEPLECUFF_REFUSED_LINE_FIELD, FIRST_FACTOR},
        {"second class 8", SECOND_CLASS, 8, STEEPLECUFF_REFUSED_LINE_FIELD, SECOND_CLASS},
        {"second factor 1000000001", SECOND_FACTOR, 1000000001, STEEPLECUFF_REFUSED_LINE_FIELD, SECOND_FACTOR},
    };
    for (size_t i = 0; i < sizeof cases / sizeof cases[0]; i++) {
        struct list list = whole_list();
        list.numbers[cases[i].at] = cases[i].number;
        check_refused(cases[i].name, &list, cases[i].refusal, cases[i].place);
    }

    uint32_t numbers[WHOLE_PERIOD_NUMBERS];
    uint8_t file[WHOLE_PERIOD_NUMBERS * MOST_NUMBER_BYTES];
    struct list list = whole_list();
    memcpy(numbers, whole_period, sizeof numbers);
    list.numbers[FIRST_OUTFLOW] = numbers[FIRST_OUTFLOW] = 15002;
    list.numbers[FIRST_QUANTITY] = numbers[FIRST_QUANTITY] = (uint32_t)LARGEST;
    size_t len = put_numbers(file, numbers, WHOLE_PERIOD_NUMBERS);
    check("an outflow over the inflow, and grams over the limit", &list, ROOM,
          (struct expected){STEEPLECUFF_ACCEPTED, len, 0, file});
}

/* Numbers behind the period, which are not tested; the buffer's length does not matter. */
static void check_left_over(void)
{
    const struct expected left_over = {STEEPLECUFF_REFUSED_BYTES_AFTER, 0, WHOLE_PERIOD_NUMBERS, NULL};
    struct list list = whole_list();
    for (size_t i = 0; i < LEFT_OVER; i++) {
        char name[NAME_BYTES];
        list.numbers[list.count++] = i == 0 ? 0 : UINT64_MAX;
        snprintf(name, sizeof name, "the worked period and %zu numbers more", i + 1);
        check(name, &list, ROOM, left_over);
        snprintf(name, sizeof name, "%zu numbers more, and an empty buffer", i + 1);
        check(name, &list, 0, left_over);
    }
}

static void add(struct list *list, uint8_t *file, size_t *len, const uint32_t *numbers, size_t count)
{
    for (size_t i = 0; i < count; i++)
        list->numbers[list->count++] = numbers[i];
    *len += put_numbers(file + *len, numbers, count);
}

/* The longest file, with every count and every field at its largest, has the length and the numbers of steeplecuff.h. */
static void check_longest(void)
{
    enum { PLANT = 3, SEGMENT = 3, LINE = 5, HEADER = 4 }; /* numbers of a record */
    static const uint32_t header[HEADER] = {1, STEEPLECUFF_MOST_PLANTS, STEEPLECUFF_MOST_SEGMENTS, STEEPLECUFF_MOST_LINES};
    static const uint32_t plant[PLANT] = {(uint32_t)LARGEST, STEEPLECUFF_MOST_SEGMENTS, 1000000};
    static const uint32_t store[SEGMENT] = {6, (uint32_t)LARGEST, 0};
    static const uint32_t line[LINE] = {1, STEEPLECUFF_MOST_SEGMENTS, 7, (uint32_t)LARGEST, 1000000000};
    static uint8_t file[MOST_NUMBERS * MOST_NUMBER_BYTES];
    static struct list list;
    size_t len = 0;
    add(&list, file, &len, header, HEADER);
    for (int i = 0; i < STEEPLECUFF_MOST_PLANTS; i++)
        add(&list, file, &len, plant, PLANT);
    for (int i = 0; i < STEEPLECUFF_MOST_SEGMENTS; i++)
        add(&list, file, &len, store, SEGMENT);
    for (int i = 0; i < STEEPLECUFF_MOST_LINES; i++)
        add(&list, file, &len, line, LINE);
    const struct expected accepted = {STEEPLECUFF_ACCEPTED, STEEPLECUFF_MOST_FILE_BYTES, 0, file};
    const struct expected no_room = {STEEPLECUFF_REFUSED_BUFFER_SHORT, 0, STEEPLECUFF_MOST_FILE_BYTES, NULL};
    check_length("the longest file has the header's length", len, STEEPLECUFF_MOST_FILE_BYTES);
    check_length("the longest list has the header's count", list.count, STEEPLECUFF_MOST_LIST_NUMBERS);
    check("the longest file", &list, len, accepted);
    check("the longest file in one byte more", &list, len + 1, accepted);
    check("the longest file in one byte less", &list, len - 1, no_room);
    list.numbers[list.count - 1]++;
    check("the longest file, its last factor over the limit", &list, len,
          (struct expected){STEEPLECUFF_REFUSED_LINE_FIELD, 0, MOST_NUMBERS - 1, NULL});
}

int main(int argc, char **argv)
{
    call = one_write_on(block_kind_asked(argc, argv));
    check_lengths();
    check_read_back();
    check_cuts();
    check_limit();
    check_fields();
    check_left_over();
    check_longest();
    return checks_done();
}
