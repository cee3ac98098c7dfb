/* sheets [guarded]: calls steeplecuff_days as the historian does and checks all that comes back: small sheets worked by
   hand, whole years, every fault at every number, every cut, and the longest sheet. Prints as calls does. */
#include <inttypes.h>
#include <stdio.h>
#include <string.h>

#include "checks.h"
#include "numbers.h"
#include "one_sheet.h"
#include "steeplecuff.h"

enum { YEAR = STEEPLECUFF_MOST_DAYS, MOST_WORKED_DAYS = 13, MOST_FAULT_BYTES = 6, MANY_BYTES = 100, NAME_BYTES = 80 };
#define LARGEST UINT32_C(4000000000)

struct expected {
    struct answer answer;
    const uint64_t *figures; /* NULL if the sheet is refused: then they are as they were */
};

/* A sheet that is being made. */
struct sheet {
    uint8_t bytes[STEEPLECUFF_MOST_SHEET_BYTES + MANY_BYTES];
    size_t len;
};

static struct one_sheet call;

static bool figures_are(const uint64_t *figures)
{
    static const char *const names[FIGURES] = {"the sum", "repeated", "repeated_zero", "longest", "first"};
    for (size_t i = 0; i < FIGURES; i++) {
        uint64_t due = figures != NULL ? figures[i] : figure_before(i);
        if (call.figures[i] != due) {
            printf("FAILED, %s is %" PRIu64 " and should be %" PRIu64 "\n", names[i], call.figures[i], due);
            return false;
        }
    }
    return true;
}

/* Makes one call, and prints and counts whether all is as expected. */
static void check(const char *name, const uint8_t *sheet, size_t len, struct expected expected)
{
    check_begin(name);
    const char *changed = one_sheet_make(&call, sheet, len);
    struct answer answer = {call.refusal, call.place, call.offset};
    check_end(all_stayed(changed) && answer_is(answer, expected.answer) && figures_are(expected.figures));
}

static void check_refused(const char *name, const uint8_t *sheet, size_t len, struct answer answer)
{
    check(name, sheet, len, (struct expected){answer, NULL});
}

static void put(struct sheet *sheet, const uint32_t *numbers, size_t count)
{
    sheet->len += put_numbers(sheet->bytes + sheet->len, numbers, count);
}

static struct sheet sheet_of(const uint32_t *readings, uint32_t days)
{
    struct sheet sheet = {.len = 0};
    put(&sheet, &days, 1);
    put(&sheet, readings, days);
    return sheet;
}

static void check_accepted(const char *name, const uint32_t *readings, uint32_t days, const uint64_t *figures)
{
    struct sheet sheet = sheet_of(readings, days);
    check(name, sheet.bytes, sheet.len, (struct expected){{STEEPLECUFF_ACCEPTED, 0, 0}, figures});
}

/* Small sheets; the figures are worked by hand. */
static void check_worked(void)
{
    static const struct {
        const char *name;
        uint32_t days, readings[MOST_WORKED_DAYS];
        uint64_t figures[FIGURES];
    } cases[] = {
        {"a single day", 1, {7}, {7, 0, 0, 1, 1}},
        {"a single day of zero", 1, {0}, {0, 0, 0, 0, 0}},
        {"every day zero", 4, {0, 0, 0, 0}, {0, 0, 3, 0, 0}},
        {"every day equal", 4, {6, 6, 6, 6}, {24, 3, 0, 4, 1}},
        {"every day different", 3, {1, 2, 3}, {6, 0, 0, 1, 1}},
        {"a run at the start", 5, {5, 5, 5, 2, 3}, {20, 2, 0, 3, 1}},
        {"a run in the middle", 5, {1, 4, 4, 4, 2}, {15, 2, 0, 3, 2}},
        {"a run at the end", 5, {3, 1, 6, 6, 6}, {22, 2, 0, 3, 3}},
        {"two runs of one length", 5, {1, 2, 2, 3, 3}, {11, 2, 0, 2, 2}},
        {"two runs of one length and reading, another day between", 5, {4, 4, 9, 4, 4}, {25, 2, 0, 2, 1}},
        {"two runs, the later longer", 5, {4, 4, 9, 9, 9}, {35, 3, 0, 3, 3}},
        {"two runs, the earlier longer", 5, {9, 9, 9, 4, 4}, {35, 3, 0, 3, 1}},
        {"a day that differs within a run", 7, {8, 8, 8, 7, 8, 8, 8}, {55, 4, 0, 3, 1}},
        {"days that take turns", 6, {2, 3, 2, 3, 2, 3}, {15, 0, 0, 1, 1}},
        {"zeros longer than the run", 7, {0, 0, 0, 0, 8, 8, 0}, {16, 1, 3, 2, 5}},
        {"zeros between equal days", 4, {6, 0, 0, 6}, {12, 0, 1, 1, 1}},
        {"two spells of zeros", 7, {0, 0, 5, 0, 0, 0, 5}, {10, 0, 3, 1, 3}},
        {"zeros at the end", 4, {0, 3, 0, 0}, {3, 0, 1, 1, 2}},
        {"a run after a zero day", 4, {0, 3, 3, 0}, {6, 1, 0, 2, 2}},
        {"days that differ in their upper bits only", 5, {1, 129, 257, 65537, 268435457}, {268501381, 0, 0, 1, 1}},
        {"readings of one to five bytes",
         13,
         {127, 127, 128, 128, 16383, 16384, 16384, 2097151, 2097152, 268435455, 268435456, LARGEST, LARGEST},
         {8541114875, 4, 0, 2, 1}},
    };
    for (size_t i = 0; i < sizeof cases / sizeof cases[0]; i++)
        check_accepted(cases[i].name, cases[i].readings, cases[i].days, cases[i].figures);
}

/* Sheets of many days, the count of days in one byte and in two. */
static void check_years(void)
{
    enum { MOST_ONE_BYTE_COUNT = 127 };
    uint32_t largest[YEAR], zeros[YEAR] = {0}, rising[YEAR];
    for (uint32_t day = 1; day <= YEAR; day++) {
        largest[day - 1] = LARGEST;
        rising[day - 1] = day;
    }
    check_accepted("127 equal days", largest, MOST_ONE_BYTE_COUNT, (uint64_t[]){508000000000, 126, 0, 127, 1});
    check_accepted("128 equal days", largest, MOST_ONE_BYTE_COUNT + 1, (uint64_t[]){512000000000, 127, 0, 128, 1});
    check_accepted("a year of the largest reading", largest, YEAR, (uint64_t[]){1464000000000, 365, 0, 366, 1});
    check_accepted("a year of zeros", zeros, YEAR, (uint64_t[]){0, 0, 365, 0, 0});
    check_accepted("a rising year", rising, YEAR, (uint64_t[]){67161, 0, 0, 1, 1});
    rising[YEAR - 1] = rising[YEAR - 2];
    check_accepted("a rising year, its last two days equal", rising, YEAR, (uint64_t[]){67160, 1, 0, 2, 365});
    zeros[YEAR - 1] = 1;
    check_accepted("a year of zeros before its last day", zeros, YEAR, (uint64_t[]){1, 0, 364, 1, 366});
}

/* Each fault that a number can have by itself, at the count and at each of three readings; the other numbers are sound. */
static void check_numbers(void)
{
    enum { NUMBERS = 4 };
    static const uint32_t numbers[NUMBERS] = {3, 10, 300, 70000};
    static const struct {
        const char *name;
        uint8_t bytes[MOST_FAULT_BYTES];
        size_t len;
        uint32_t refusal;
    } faults[] = {
        {"an end before the number", {0}, 0, STEEPLECUFF_REFUSED_FILE_ENDS},
        {"an end after one group", {0x83}, 1, STEEPLECUFF_REFUSED_FILE_ENDS},
        {"an end after four groups", {0x83, 0x80, 0x80, 0x80}, 4, STEEPLECUFF_REFUSED_FILE_ENDS},
        {"a second group of zero", {0x83, 0x00}, 2, STEEPLECUFF_REFUSED_NOT_SHORTEST},
        {"zero in two groups", {0x80, 0x00}, 2, STEEPLECUFF_REFUSED_NOT_SHORTEST},
        {"a fifth group of zero", {0xFF, 0xFF, 0xFF, 0xFF, 0x00}, 5, STEEPLECUFF_REFUSED_NOT_SHORTEST},
        {"4000000001", {0x81, 0xD0, 0xAC, 0xF3, 0x0E}, 5, STEEPLECUFF_REFUSED_NUMBER_OVER_LIMIT},
        {"all bits of five groups", {0xFF, 0xFF, 0xFF, 0xFF, 0x7F}, 5, STEEPLECUFF_REFUSED_NUMBER_OVER_LIMIT},
        {"a sixth group", {0x81, 0x80, 0x80, 0x80, 0x80, 0x00}, 6, STEEPLECUFF_REFUSED_NUMBER_OVER_LIMIT},
    };
    for (size_t i = 0; i < sizeof faults / sizeof faults[0]; i++)
        for (size_t place = 0; place < NUMBERS; place++) {
            struct sheet sheet = {.len = 0};
            char name[NAME_BYTES];
            put(&sheet, numbers, place);
            struct answer answer = {faults[i].refusal, place, sheet.len};
            memcpy(sheet.bytes + sheet.len, faults[i].bytes, faults[i].len);
            sheet.len += faults[i].len;
            if (faults[i].refusal != STEEPLECUFF_REFUSED_FILE_ENDS)
                put(&sheet, numbers + place + 1, NUMBERS - place - 1);
            snprintf(name, sizeof name, "%s at number %zu", faults[i].name, place);
            check_refused(name, sheet.bytes, sheet.len, answer);
        }
}

/* Counts outside their range, bytes after the last reading, and which of two faults is answered. */
static void check_bytes(void)
{
    static const struct {
        const char *name;
        uint8_t bytes[MOST_FAULT_BYTES];
        size_t len;
        struct answer answer;
    } cases[] = {
        {"an empty sheet", {0}, 0, {1, 0, 0}},
        {"count 0", {0x00}, 1, {5, 0, 0}},
        {"count 0 and a byte", {0x00, 0x07}, 2, {5, 0, 0}},
        {"count 0 and a number that is not shortest", {0x00, 0x80, 0x00}, 3, {5, 0, 0}},
        {"count 1 alone", {0x01}, 1, {1, 1, 1}},
        {"count 366 alone", {0xEE, 0x02}, 2, {1, 1, 2}},
        {"count 367 alone", {0xEF, 0x02}, 2, {5, 0, 0}},
        {"count 367 and a number that is not shortest", {0xEF, 0x02, 0x80, 0x00}, 4, {5, 0, 0}},
        {"count 65537, whose lower half is 1", {0x81, 0x80, 0x04, 0x07}, 4, {5, 0, 0}},
        {"count 4000000000", {0x80, 0xD0, 0xAC, 0xF3, 0x0E}, 5, {5, 0, 0}},
        {"a day and a zero byte", {0x01, 0x07, 0x00}, 3, {9, 2, 2}},
        {"a day and a byte of a number that goes on", {0x01, 0x07, 0x80}, 3, {9, 2, 2}},
        {"a day and a number that is not shortest", {0x01, 0x07, 0x80, 0x00}, 4, {9, 2, 2}},
        {"a day of two bytes and two bytes after it", {0x01, 0xAC, 0x02, 0x07, 0x07}, 5, {9, 2, 3}},
        {"three days and a fourth reading", {0x03, 0x01, 0x02, 0x03, 0x04}, 5, {9, 4, 4}},
        {"two readings at fault", {0x02, 0x80, 0x00, 0x80}, 4, {2, 1, 1}},
        {"the last reading at fault and a byte after it", {0x01, 0x80, 0x00, 0x07}, 4, {2, 1, 1}},
    };
    for (size_t i = 0; i < sizeof cases / sizeof cases[0]; i++)
        check_refused(cases[i].name, cases[i].bytes, cases[i].len, cases[i].answer);
}

/* Every cut of a sheet whose readings have one to five bytes: the place is how many numbers are whole, the offset is
   where the next one begins. */
static void check_cuts(void)
{
    enum { DAYS = 7 };
    static const uint32_t readings[DAYS] = {0, 127, 128, 16384, 2097152, 268435456, LARGEST};
    struct sheet sheet = sheet_of(readings, DAYS);
    struct answer answer = {STEEPLECUFF_REFUSED_FILE_ENDS, 0, 0};
    for (size_t len = 0; len < sheet.len; len++) {
        char name[NAME_BYTES];
        snprintf(name, sizeof name, "the first %zu of %zu bytes", len, sheet.len);
        check_refused(name, sheet.bytes, len, answer);
        if ((sheet.bytes[len] & MORE_FOLLOW) == 0) {
            answer.place++;
            answer.offset = len + 1;
        }
    }
    check_accepted("all of the bytes", readings, DAYS, (uint64_t[]){4270549247, 0, 0, 1, 2});
}

/* The longest sheet: its length is the limit in steeplecuff.h. It is accepted. With a byte less it is refused, and with
   one byte more or many. */
static void check_longest(void)
{
    uint32_t readings[YEAR];
    for (size_t day = 0; day < YEAR; day++)
        readings[day] = LARGEST - (uint32_t)day;
    struct sheet sheet = sheet_of(readings, YEAR);
    struct answer cut = {STEEPLECUFF_REFUSED_FILE_ENDS, YEAR, sheet.len - MOST_NUMBER_BYTES};
    struct answer after = {STEEPLECUFF_REFUSED_BYTES_AFTER, YEAR + 1, sheet.len};
    check_length("the longest sheet has the header's length", sheet.len, STEEPLECUFF_MOST_SHEET_BYTES);
    check_accepted("the longest sheet", readings, YEAR, (uint64_t[]){1463999933205, 0, 0, 1, 1});
    check_refused("the longest sheet less a byte", sheet.bytes, sheet.len - 1, cut);
    check_refused("the longest sheet and one byte more", sheet.bytes, sheet.len + 1, after);
    check_refused("the longest sheet and many bytes more", sheet.bytes, sheet.len + MANY_BYTES, after);
}

int main(int argc, char **argv)
{
    call = one_sheet_on(block_kind_asked(argc, argv));
    check_worked();
    check_years();
    check_numbers();
    check_bytes();
    check_cuts();
    check_longest();
    return checks_done();
}
