/* calls [guarded]: calls steeplecuff_quantify as the historian does and checks every byte of what comes back: for the
   worked period and its changes (rule 13.11), among them lines of class 9, tables of many lengths, every cut, and the
   longest file. Prints a line for each call, begun before it is made, so that the last line shows where the program died;
   then 'N passed, M failed'. */
#include <stdio.h>
#include <string.h>

#include "checks.h"
#include "numbers.h"
#include "one_call.h"
#include "period_file.h"
#include "steeplecuff.h"

enum { PLANTS = 2, SEGMENTS = 2 }; /* of the worked period, from which all accepted files here are made */
enum { PLANT_ENTRIES = PLANTS * STEEPLECUFF_PLANT_NUMBERS, SEGMENT_ENTRIES = SEGMENTS * STEEPLECUFF_SEGMENT_NUMBERS };
enum { PLANT_BYTES = PLANT_ENTRIES * STEEPLECUFF_NUMBER_BYTES, SEGMENT_BYTES = SEGMENT_ENTRIES * STEEPLECUFF_NUMBER_BYTES };
enum { NUMBER = STEEPLECUFF_NUMBER_BYTES, BYTE_BITS = 8 };
enum { MOST_EDITS = 7, EXTRA_BYTES = 1, MOST_CASE_BYTES = 13, NAME_BYTES = 80 };
enum { WHOLE_BYTES = 37 }; /* the length of the worked period */
enum { PLANT_OWNER = 0, FUEL = 3, CAPTURED = 9, KG_FACTOR = 1000 }; /* of lines; the factor is that of class 9 */

struct rows {
    uint64_t plants[PLANT_ENTRIES];
    uint64_t segments[SEGMENT_ENTRIES];
};

struct expected {
    struct answer answer;
    const struct rows *rows; /* NULL if the file is refused */
};

/* The worked period with some of its numbers changed. */
struct edited {
    const char *name;
    size_t edits;
    struct {
        size_t at;
        uint32_t number;
    } edit[MOST_EDITS];
    struct expected expected;
};

struct bytes {
    const uint8_t *at;
    size_t len;
};

struct lengths {
    size_t plants, segments;
};

static const struct lengths exact = {PLANT_BYTES, SEGMENT_BYTES};

/* The rows of rule 13.11. */
static const struct rows whole_rows = {
    {10000, 9931, 69, 9931, 879, 9052, 9, 0,
     5001, 4968, 33, 4471, 90, 4381, 4, 0},
    {15001, 14900, 101, 268, 3,
     14900, 14899, 1, 0, 3}};

/* Plant 1 has associated 4000000000 kg by its own line and a charge of 179 kg. */
static const struct rows most_grams_rows = {
    {10000, 9931, 69, 9931, 4000000179, 0, 0, 3999990248,
     5001, 4968, 33, 4471, 90, 4381, 4, 0},
    {15001, 14900, 101, 268, 3,
     14900, 14899, 1, 0, 3}};

/* Nothing is lost at segment 1; segment 2 credits floor(10000 x 14899 / 15001) = 9932 and the rest, 4967. */
static const struct rows no_loss_rows = {
    {10000, 9932, 68, 9932, 879, 9053, 9, 0,
     5001, 4967, 34, 4470, 90, 4380, 4, 0},
    {15001, 15001, 0, 268, 3,
     15001, 14899, 102, 0, 3}};

/* Segment 1 has no line, so that nobody is charged; plant 1 has stored all CO2 of its fuel and emits nothing. */
static const struct rows all_captured_rows = {
    {10000, 9931, 69, 9931, 0, 9931, 9, 0,
     5001, 4968, 33, 4471, 0, 4471, 4, 0},
    {15001, 14900, 101, 0, 3,
     14900, 14899, 1, 0, 3}};

/* The same; of plant 1's 700,350 g of fuel it has stored 699 kg. What is left, 1,350 g, is rounded up to 2 kg. */
static const struct rows part_captured_rows = {
    {10000, 9931, 69, 9931, 2, 9929, 9, 0,
     5001, 4968, 33, 4471, 0, 4471, 4, 0},
    {15001, 14900, 101, 0, 3,
     14900, 14899, 1, 0, 3}};

/* The same; plant 1 has its electricity and no fuel. */
static const struct rows none_captured_rows = {
    {10000, 9931, 69, 9931, 700, 9231, 9, 0,
     5001, 4968, 33, 4471, 0, 4471, 4, 0},
    {15001, 14900, 101, 0, 3,
     14900, 14899, 1, 0, 3}};

static struct one_call call;

/* Whether the table's first `count` entries are the numbers, and every byte after them is as it was before. */
static bool table_is(const char *name, const struct block *table, const uint64_t *numbers, size_t count,
                     uint8_t (*byte_before)(size_t))
{
    for (size_t i = 0; i < table->len; i++) {
        uint8_t wanted = i / NUMBER < count ? (uint8_t)(numbers[i / NUMBER] >> (BYTE_BITS * (i % NUMBER))) : byte_before(i);
        if (table->bytes[i] != wanted) {
            printf("FAILED, byte %zu of the %s table is %u and should be %u\n", i, name, table->bytes[i], wanted);
            return false;
        }
    }
    return true;
}

/* Whether both tables hold the rows, or are as they were if there are none. */
static bool tables_are(const struct rows *rows)
{
    if (rows == NULL)
        return table_is("plant", &call.plants, NULL, 0, plant_byte_before) &&
               table_is("segment", &call.segments, NULL, 0, segment_byte_before);
    return table_is("plant", &call.plants, rows->plants, PLANT_ENTRIES, plant_byte_before) &&
           table_is("segment", &call.segments, rows->segments, SEGMENT_ENTRIES, segment_byte_before);
}

/* Makes one call, and prints and counts whether all is as expected. */
static void check(const char *name, struct bytes file, struct lengths lengths, struct expected expected)
{
    check_begin(name);
    const char *changed = one_call_make(&call, file.at, file.len, lengths.plants, lengths.segments);
    struct answer answer = {call.refusal, call.place, call.offset};
    check_end(all_stayed(changed) && answer_is(answer, expected.answer) && tables_are(expected.rows));
    one_call_end(&call);
}

/* The same with a refusal, on tables of the exact lengths. */
static void check_refused(const char *name, const uint8_t *file, size_t len, struct answer answer)
{
    check(name, (struct bytes){file, len}, exact, (struct expected){answer, NULL});
}

/* The proved cases that are given as bytes; then faults of a number behind others of one and two bytes. */
static void check_bytes(void)
{
    static const struct {
        const char *name;
        uint8_t bytes[MOST_CASE_BYTES];
        size_t len;
        struct answer answer;
    } cases[] = {
        {"empty file", {0}, 0, {1, 0, 0}},
        {"byte 01 alone", {0x01}, 1, {1, 1, 1}},
        {"bytes 80 00", {0x80, 0x00}, 2, {2, 0, 0}},
        {"bytes 81 D0 AC F3 0E", {0x81, 0xD0, 0xAC, 0xF3, 0x0E}, 5, {3, 0, 0}},
        {"byte 02 alone", {0x02}, 1, {4, 0, 0}},
        {"bytes 01 00", {0x01, 0x00}, 2, {5, 1, 1}},
        {"an end before a fraction", {1, 1, 1, 0, 0x90, 0x4E, 1}, 7, {1, 6, 7}},
        {"an end inside a fraction", {1, 1, 1, 0, 0x90, 0x4E, 1, 0xC0, 0x84}, 9, {1, 6, 7}},
        {"a fraction that is not shortest", {1, 1, 1, 0, 0x90, 0x4E, 1, 0xC0, 0x84, 0x00}, 10, {2, 6, 7}},
        {"a fraction of 4000000001", {1, 1, 1, 0, 0x90, 0x4E, 1, 0x81, 0xD0, 0xAC, 0xF3, 0x0E}, 12, {3, 6, 7}},
        {"a fraction of six groups", {1, 1, 1, 0, 0x90, 0x4E, 1, 0x80, 0x80, 0x80, 0x80, 0x80, 0x01}, 13, {3, 6, 7}},
    };
    for (size_t i = 0; i < sizeof cases / sizeof cases[0]; i++)
        check_refused(cases[i].name, cases[i].bytes, cases[i].len, cases[i].answer);
}

/* Puts the worked period with its changes to the call, with tables of these lengths. */
static void check_edited(const struct edited *edited, struct lengths lengths)
{
    uint32_t numbers[WHOLE_PERIOD_NUMBERS];
    uint8_t file[WHOLE_PERIOD_NUMBERS * MOST_NUMBER_BYTES];
    memcpy(numbers, whole_period, sizeof numbers);
    for (size_t edit = 0; edit < edited->edits; edit++)
        numbers[edited->edit[edit].at] = edited->edit[edit].number;
    size_t len = put_numbers(file, numbers, WHOLE_PERIOD_NUMBERS);
    check(edited->name, (struct bytes){file, len}, lengths, edited->expected);
}

/* The proved cases that change figures of the worked period (rule 13.11). */
static void check_edits(void)
{
    static const struct edited cases[] = {
        {"second kind 5", 1, {{SECOND_KIND, 5}}, {{7, 15, 23}, NULL}},
        {"first line 4000000000 x 1000", 2,
         {{FIRST_QUANTITY, 4000000000}, {FIRST_FACTOR, 1000}}, {{0, 0, 0}, &most_grams_rows}},
        {"first line 4000000000 x 1001", 2, {{FIRST_QUANTITY, 4000000000}, {FIRST_FACTOR, 1001}}, {{10, 1, 24}, NULL}},
        {"first outflow 15001", 1, {{FIRST_OUTFLOW, 15001}}, {{0, 0, 0}, &no_loss_rows}},
        {"first outflow 15002", 1, {{FIRST_OUTFLOW, 15002}}, {{12, 1, WHOLE_BYTES}, NULL}},
        {"nothing exported, nothing metered", 4,
         {{FIRST_EXPORTED, 0}, {SECOND_EXPORTED, 0}, {FIRST_OUTFLOW, 0}, {SECOND_OUTFLOW, 0}},
         {{13, 1, WHOLE_BYTES - 4}, NULL}},
    };
    for (size_t i = 0; i < sizeof cases / sizeof cases[0]; i++)
        check_edited(&cases[i], exact);
}

/* Further changes, so that each refusal is met behind numbers of several bytes, or if it has none before it, at one.
   Line 2 begins at byte 31, or at 34 if line 1 is three bytes longer. */
static void check_offsets(void)
{
    static const struct edited cases[] = {
        {"edition 300", 1, {{THE_EDITION, 300}}, {{4, 0, 0}, NULL}},
        {"513 lines", 1, {{THE_LINES, 513}}, {{5, 3, 3}, NULL}},
        {"first plant enters at segment 3", 1, {{FIRST_ENTRY, 3}}, {{6, 5, 6}, NULL}},
        {"second fraction 1000001", 1, {{SECOND_FRACTION, 1000001}}, {{6, 9, 13}, NULL}},
        {"second kind 7", 1, {{SECOND_KIND, 7}}, {{7, 13, 20}, NULL}},
        {"second factor 1000000001", 1, {{SECOND_FACTOR, 1000000001}}, {{8, 25, 35}, NULL}},
        {"second line 4000000000 x 1001", 2, {{SECOND_QUANTITY, 4000000000}, {SECOND_FACTOR, 1001}}, {{10, 2, 31}, NULL}},
        {"two lines of plant 1 together over the limit", 3,
         {{FIRST_QUANTITY, 4000000000}, {FIRST_FACTOR, 1000}, {SECOND_OWNER_KIND, 0}}, {{10, 2, 34}, NULL}},
        {"first export 4000000000", 1, {{FIRST_EXPORTED, 4000000000}}, {{11, 1, WHOLE_BYTES + 3}, NULL}},
        {"second outflow 14901", 1, {{SECOND_OUTFLOW, 14901}}, {{12, 2, WHOLE_BYTES}, NULL}},
    };
    for (size_t i = 0; i < sizeof cases / sizeof cases[0]; i++)
        check_edited(&cases[i], exact);
}

/* Line 2 is class 9, fossil CO2 captured with the rest, and line 1 plant 1's fuel or electricity (rules 3.3, 4.4 and 8.10).
   Line 2 begins at byte 31; its factor at 35, or at 36 if its quantity takes two bytes. */
static void check_captured(void)
{
    static const struct edited cases[] = {
        {"all of the fuel captured", 5,
         {{FIRST_CLASS, FUEL}, {SECOND_OWNER_KIND, PLANT_OWNER}, {SECOND_CLASS, CAPTURED}, {SECOND_QUANTITY, 700},
          {SECOND_FACTOR, KG_FACTOR}},
         {{0, 0, 0}, &all_captured_rows}},
        {"a part of the fuel captured", 6,
         {{FIRST_CLASS, FUEL}, {FIRST_QUANTITY, 2001}, {SECOND_OWNER_KIND, PLANT_OWNER}, {SECOND_CLASS, CAPTURED},
          {SECOND_QUANTITY, 699}, {SECOND_FACTOR, KG_FACTOR}},
         {{0, 0, 0}, &part_captured_rows}},
        {"as much fuel as there may be, all captured", 7,
         {{FIRST_CLASS, FUEL}, {FIRST_QUANTITY, 4000000000}, {FIRST_FACTOR, 1000}, {SECOND_OWNER_KIND, PLANT_OWNER},
          {SECOND_CLASS, CAPTURED}, {SECOND_QUANTITY, 4000000000}, {SECOND_FACTOR, KG_FACTOR}},
         {{0, 0, 0}, &all_captured_rows}},
        {"no fuel, and 0 kg captured", 4,
         {{SECOND_OWNER_KIND, PLANT_OWNER}, {SECOND_CLASS, CAPTURED}, {SECOND_QUANTITY, 0}, {SECOND_FACTOR, KG_FACTOR}},
         {{0, 0, 0}, &none_captured_rows}},
        {"1 kg more captured than burnt", 5,
         {{FIRST_CLASS, FUEL}, {SECOND_OWNER_KIND, PLANT_OWNER}, {SECOND_CLASS, CAPTURED}, {SECOND_QUANTITY, 701},
          {SECOND_FACTOR, KG_FACTOR}},
         {{16, 1, WHOLE_BYTES + 1}, NULL}},
        {"captured by plant 2, and the fuel is plant 1's", 5,
         {{FIRST_CLASS, FUEL}, {SECOND_OWNER_KIND, PLANT_OWNER}, {SECOND_OWNER, 2}, {SECOND_CLASS, CAPTURED},
          {SECOND_FACTOR, KG_FACTOR}},
         {{16, 2, WHOLE_BYTES}, NULL}},
        {"captured and no fuel, before an outflow over the inflow", 4,
         {{FIRST_OUTFLOW, 15002}, {SECOND_OWNER_KIND, PLANT_OWNER}, {SECOND_CLASS, CAPTURED}, {SECOND_FACTOR, KG_FACTOR}},
         {{16, 1, WHOLE_BYTES}, NULL}},
        {"captured and no fuel, after grams over the limit", 5,
         {{FIRST_QUANTITY, 4000000000}, {FIRST_FACTOR, 1001}, {SECOND_OWNER_KIND, PLANT_OWNER}, {SECOND_CLASS, CAPTURED},
          {SECOND_FACTOR, KG_FACTOR}},
         {{10, 1, 24}, NULL}},
        {"captured with the factor 999", 5,
         {{FIRST_CLASS, FUEL}, {SECOND_OWNER_KIND, PLANT_OWNER}, {SECOND_CLASS, CAPTURED}, {SECOND_QUANTITY, 700},
          {SECOND_FACTOR, KG_FACTOR - 1}},
         {{8, 25, 36}, NULL}},
        {"captured with the factor 1001", 4,
         {{FIRST_CLASS, FUEL}, {SECOND_OWNER_KIND, PLANT_OWNER}, {SECOND_CLASS, CAPTURED}, {SECOND_FACTOR, KG_FACTOR + 1}},
         {{8, 25, 35}, NULL}},
        {"captured by a segment", 2, {{SECOND_CLASS, CAPTURED}, {SECOND_FACTOR, KG_FACTOR}}, {{8, 23, 33}, NULL}},
        {"a class behind the last", 1, {{FIRST_CLASS, CAPTURED + 1}}, {{8, 18, 26}, NULL}},
    };
    static const struct edited no_room = {
        "captured and no fuel, both tables empty", 3,
        {{SECOND_OWNER_KIND, PLANT_OWNER}, {SECOND_CLASS, CAPTURED}, {SECOND_FACTOR, KG_FACTOR}},
        {{16, 1, WHOLE_BYTES}, NULL}};
    for (size_t i = 0; i < sizeof cases / sizeof cases[0]; i++)
        check_edited(&cases[i], exact);
    check_edited(&no_room, (struct lengths){0, 0});
}

/* The worked period with tables of many lengths, and with one byte more behind it. */
static void check_lengths(void)
{
    static const struct {
        const char *name;
        struct lengths lengths;
        struct expected expected;
    } cases[] = {
        {"whole period", {PLANT_BYTES, SEGMENT_BYTES}, {{0, 0, 0}, &whole_rows}},
        {"the largest tables", {STEEPLECUFF_MOST_PLANT_BYTES, STEEPLECUFF_MOST_SEGMENT_BYTES}, {{0, 0, 0}, &whole_rows}},
        {"one later entry", {PLANT_BYTES + NUMBER, SEGMENT_BYTES + NUMBER}, {{0, 0, 0}, &whole_rows}},
        {"one spare byte", {PLANT_BYTES + 1, SEGMENT_BYTES + 1}, {{0, 0, 0}, &whole_rows}},
        {"a later entry and seven spare bytes",
         {PLANT_BYTES + 2 * NUMBER - 1, SEGMENT_BYTES + 2 * NUMBER - 1}, {{0, 0, 0}, &whole_rows}},
        {"a plant table one number short", {PLANT_BYTES - NUMBER, SEGMENT_BYTES}, {{14, 16, WHOLE_BYTES}, NULL}},
        {"plant table one byte short", {PLANT_BYTES - 1, SEGMENT_BYTES}, {{14, 16, WHOLE_BYTES}, NULL}},
        {"plant table empty", {0, SEGMENT_BYTES}, {{14, 16, WHOLE_BYTES}, NULL}},
        {"segment table one number short", {PLANT_BYTES, SEGMENT_BYTES - NUMBER}, {{15, 10, WHOLE_BYTES}, NULL}},
        {"segment table one byte short", {PLANT_BYTES, SEGMENT_BYTES - 1}, {{15, 10, WHOLE_BYTES}, NULL}},
        {"segment table empty", {PLANT_BYTES, 0}, {{15, 10, WHOLE_BYTES}, NULL}},
        {"both tables one number short", {PLANT_BYTES - NUMBER, SEGMENT_BYTES - NUMBER}, {{14, 16, WHOLE_BYTES}, NULL}},
        {"both tables empty", {0, 0}, {{14, 16, WHOLE_BYTES}, NULL}},
    };
    uint8_t file[WHOLE_PERIOD_NUMBERS * MOST_NUMBER_BYTES + EXTRA_BYTES];
    size_t len = put_numbers(file, whole_period, WHOLE_PERIOD_NUMBERS);
    for (size_t i = 0; i < sizeof cases / sizeof cases[0]; i++)
        check(cases[i].name, (struct bytes){file, len}, cases[i].lengths, cases[i].expected);

    file[len] = 0;
    struct expected bytes_after = {{9, WHOLE_PERIOD_NUMBERS, WHOLE_BYTES}, NULL};
    check("the worked period with a byte behind it", (struct bytes){file, len + EXTRA_BYTES}, exact, bytes_after);
    check("one byte more, both tables empty", (struct bytes){file, len + EXTRA_BYTES}, (struct lengths){0, 0}, bytes_after);
}

/* Every cut of the worked period: the place is how many numbers are whole, the offset is where the next one begins. */
static void check_cuts(void)
{
    uint8_t file[WHOLE_PERIOD_NUMBERS * MOST_NUMBER_BYTES];
    size_t whole_len = put_numbers(file, whole_period, WHOLE_PERIOD_NUMBERS);
    struct answer answer = {STEEPLECUFF_REFUSED_FILE_ENDS, 0, 0};
    for (size_t len = 0; len < whole_len; len++) {
        char name[NAME_BYTES];
        snprintf(name, sizeof name, "the first %zu of %zu bytes", len, whole_len);
        check_refused(name, file, len, answer);
        if ((file[len] & MORE_FOLLOW) == 0) {
            answer.place++;
            answer.offset = len + 1;
        }
    }
}

/* The longest file, with every count and every field at its largest: its length is the limit in steeplecuff.h. It is read
   to its end and refused for the grams of its first line; with a byte more or less it is refused for that byte. */
static void check_longest(void)
{
    enum { PLANT = 3, SEGMENT = 3, LINE = 5, HEADER = 4 }; /* numbers of a record */
    enum {
        NUMBERS = HEADER + PLANT * STEEPLECUFF_MOST_PLANTS + SEGMENT * STEEPLECUFF_MOST_SEGMENTS + LINE * STEEPLECUFF_MOST_LINES
    };
    static const uint32_t header[HEADER] = {1, STEEPLECUFF_MOST_PLANTS, STEEPLECUFF_MOST_SEGMENTS, STEEPLECUFF_MOST_LINES};
    static const uint32_t plant[PLANT] = {4000000000, STEEPLECUFF_MOST_SEGMENTS, 1000000};
    static const uint32_t store[SEGMENT] = {6, 4000000000, 0};
    static const uint32_t line[LINE] = {1, STEEPLECUFF_MOST_SEGMENTS, 7, 4000000000, 1000000000};
    static uint8_t file[NUMBERS * MOST_NUMBER_BYTES + EXTRA_BYTES];

    size_t len = put_numbers(file, header, HEADER);
    for (int i = 0; i < STEEPLECUFF_MOST_PLANTS; i++)
        len += put_numbers(file + len, plant, PLANT);
    for (int i = 0; i < STEEPLECUFF_MOST_SEGMENTS; i++)
        len += put_numbers(file + len, store, SEGMENT);
    size_t first_line = len;
    for (int i = 0; i < STEEPLECUFF_MOST_LINES; i++)
        len += put_numbers(file + len, line, LINE);
    size_t last_number = len - MOST_NUMBER_BYTES;
    check_length("the longest file has the header's length", len, STEEPLECUFF_MOST_FILE_BYTES);
    check_refused("the longest file", file, len, (struct answer){10, 1, first_line});
    check_refused("the longest file less a byte", file, len - 1, (struct answer){1, NUMBERS - 1, last_number});
    check_refused("the longest file and one byte more", file, len + EXTRA_BYTES, (struct answer){9, NUMBERS, len});
}

int main(int argc, char **argv)
{
    call = one_call_on(block_kind_asked(argc, argv));
    check_bytes();
    check_edits();
    check_offsets();
    check_captured();
    check_lengths();
    check_cuts();
    check_longest();
    return checks_done();
}
