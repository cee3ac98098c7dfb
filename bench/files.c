#include "files.h"

#include <string.h>

#include "period_file.h"

/* Numbers of a sequence that is the same on every machine: x -> x * FACTOR + STEP, of which the upper half is used. */
#define SEQUENCE_FACTOR UINT64_C(6364136223846793005)
#define SEQUENCE_STEP UINT64_C(1442695040888963407)
#define SEQUENCE_START UINT64_C(2026)
enum { UPPER_HALF = 32, BYTE_BITS = 8 };

/* Sizes of the figures, in bits, so that numbers of every length occur, some plants end with a net amount and some with a
   deficit, and all limits hold: exports add up to less than 2^31 kg, and the at most 16 lines of an owner to 2^35 g. */
enum { LEAST_EXPORT_BITS = 20, MOST_EXPORT_BITS = 27, MOST_QUANTITY_BITS = 30, MOST_FACTOR_BITS = 20, LINE_BITS = 31 };

enum { EDITION = 1, WHOLE_FRACTION = 1000000, LOST_ONE_IN = 1000, STORE = 6, KINDS_BEFORE_STORE = 5 };
enum { PLANT_CLASSES = 8, FIRST_SEGMENT_CLASS = 3, SEGMENT_CLASSES = 5, OWNER_KINDS = 2, PLANT_OWNER = 0, SEGMENT_OWNER = 1 };
#define FACTOR_OVER_LIMIT UINT32_C(1000000001)

/* Of the days of a sheet, one in three repeats the day before, and one in five of the others is zero. */
enum { REPEATED_ONE_IN = 3, ZERO_ONE_IN = 5 };
#define LARGEST_READING UINT32_C(4000000000)

/* The numbers of a file that is being made. */
struct draft {
    uint64_t sequence;
    uint32_t numbers[FULL_NUMBERS];
    size_t count;
};

static void add(struct draft *draft, uint32_t number)
{
    draft->numbers[draft->count++] = number;
}

/* The next number of the sequence, 0 to `most`. */
static uint32_t draw(struct draft *draft, uint32_t most)
{
    draft->sequence = draft->sequence * SEQUENCE_FACTOR + SEQUENCE_STEP;
    return (uint32_t)((draft->sequence >> UPPER_HALF) % ((uint64_t)most + 1));
}

static uint32_t draw_of_bits(struct draft *draft, uint32_t bits)
{
    return draw(draft, (UINT32_C(1) << bits) - 1);
}

/* Adds the plants, all of which enter at segment 1; answers their exports. */
static uint32_t add_plants(struct draft *draft)
{
    uint32_t exports = 0;
    for (uint32_t plant = 0; plant < FULL_PLANTS; plant++) {
        uint32_t exported = draw_of_bits(draft, LEAST_EXPORT_BITS + draw(draft, MOST_EXPORT_BITS - LEAST_EXPORT_BITS));
        add(draft, exported);
        add(draft, 1);
        add(draft, draw(draft, WHOLE_FRACTION));
        exports += exported;
    }
    return exports;
}

/* Adds one chain of segments through which all CO2 goes; each loses a little. */
static void add_segments(struct draft *draft, uint32_t inflow)
{
    for (uint32_t number = 1; number <= FULL_SEGMENTS; number++) {
        bool store = number == FULL_SEGMENTS;
        uint32_t outflow = inflow - inflow / LOST_ONE_IN;
        add(draft, store ? STORE : 1 + number % KINDS_BEFORE_STORE);
        add(draft, outflow);
        add(draft, store ? 0 : number + 1);
        inflow = outflow;
    }
}

/* Adds the lines, one of a plant and one of a segment in turn, spread over all owners and all their classes. */
static void add_lines(struct draft *draft)
{
    for (uint32_t line = 0; line < FULL_LINES; line++) {
        uint32_t turn = line / OWNER_KINDS;
        bool plant = line % OWNER_KINDS == 0;
        uint32_t quantity_bits = 1 + draw(draft, MOST_QUANTITY_BITS - 1);
        uint32_t factor_bits = LINE_BITS - quantity_bits < MOST_FACTOR_BITS ? LINE_BITS - quantity_bits : MOST_FACTOR_BITS;
        add(draft, plant ? PLANT_OWNER : SEGMENT_OWNER);
        add(draft, 1 + turn % (plant ? FULL_PLANTS : FULL_SEGMENTS));
        add(draft, plant ? 1 + draw(draft, PLANT_CLASSES - 1) : FIRST_SEGMENT_CLASS + draw(draft, SEGMENT_CLASSES - 1));
        add(draft, draw_of_bits(draft, quantity_bits));
        add(draft, draw_of_bits(draft, factor_bits));
    }
}

static void draft_whole(struct draft *draft)
{
    for (size_t i = 0; i < WHOLE_PERIOD_NUMBERS; i++)
        add(draft, whole_period[i]);
}

static void draft_full(struct draft *draft)
{
    add(draft, EDITION);
    add(draft, FULL_PLANTS);
    add(draft, FULL_SEGMENTS);
    add(draft, FULL_LINES);
    add_segments(draft, add_plants(draft));
    add_lines(draft);
}

static void draft_refused(struct draft *draft)
{
    draft_full(draft);
    draft->numbers[draft->count - 1] = FACTOR_OVER_LIMIT;
}

/* The next number of the sequence that takes `bytes` bytes. */
static uint32_t draw_of_bytes(struct draft *draft, uint32_t bytes)
{
    uint32_t least = bytes == 1 ? 0 : UINT32_C(1) << (GROUP_BITS * (bytes - 1));
    uint32_t most = bytes == MOST_NUMBER_BYTES ? LARGEST_READING : (UINT32_C(1) << (GROUP_BITS * bytes)) - 1;
    return least + draw(draft, most - least);
}

/* Drafts a full year of readings of at most `most_bytes` bytes; each length is equally likely. */
static void draft_year(struct draft *draft, uint32_t most_bytes)
{
    uint32_t reading = 0;
    add(draft, STEEPLECUFF_MOST_DAYS);
    for (uint32_t day = 1; day <= STEEPLECUFF_MOST_DAYS; day++) {
        if (draw(draft, REPEATED_ONE_IN - 1) != 0)
            reading = draw(draft, ZERO_ONE_IN - 1) == 0 ? 0 : draw_of_bytes(draft, 1 + draw(draft, most_bytes - 1));
        add(draft, reading);
    }
}

static void draft_small_year(struct draft *draft)
{
    draft_year(draft, 1);
}

static void draft_mixed_year(struct draft *draft)
{
    draft_year(draft, MOST_NUMBER_BYTES);
}

static void draft_refused_year(struct draft *draft)
{
    draft_mixed_year(draft);
    draft->numbers[draft->count - 1] = LARGEST_READING + 1;
}

/* Writes the numbers with eight bytes each, least significant first; answers how many bytes they took. */
static size_t put_list(uint8_t *bytes, const uint32_t *numbers, size_t count)
{
    for (size_t i = 0; i < count; i++)
        for (size_t byte = 0; byte < STEEPLECUFF_NUMBER_BYTES; byte++)
            *bytes++ = (uint8_t)((uint64_t)numbers[i] >> (BYTE_BITS * byte));
    return count * STEEPLECUFF_NUMBER_BYTES;
}

/* Makes the file of a draft. */
static void finish(struct file *file, enum file_kind kind, const struct draft *draft, uint32_t refusal)
{
    file->kind = kind;
    file->len = (kind == LIST ? put_list : put_numbers)(file->bytes, draft->numbers, draft->count);
    file->numbers = draft->count;
    file->refusal = refusal;
}

/* Makes a file that one of the functions above drafts; false if the name is of none. */
static bool make_drafted(struct file *file, const char *name)
{
    static const struct {
        const char *name;
        enum file_kind kind;
        void (*draft)(struct draft *);
        uint32_t refusal;
    } files[] = {
        {"whole", PERIOD_FILE, draft_whole, STEEPLECUFF_ACCEPTED},
        {"full", PERIOD_FILE, draft_full, STEEPLECUFF_ACCEPTED},
        {"refused", PERIOD_FILE, draft_refused, STEEPLECUFF_REFUSED_LINE_FIELD},
        {"small-year", SHEET, draft_small_year, STEEPLECUFF_ACCEPTED},
        {"mixed-year", SHEET, draft_mixed_year, STEEPLECUFF_ACCEPTED},
        {"refused-year", SHEET, draft_refused_year, STEEPLECUFF_REFUSED_NUMBER_OVER_LIMIT},
        {"whole-list", LIST, draft_whole, STEEPLECUFF_ACCEPTED},
        {"full-list", LIST, draft_full, STEEPLECUFF_ACCEPTED},
        {"refused-list", LIST, draft_refused, STEEPLECUFF_REFUSED_LINE_FIELD},
    };
    for (size_t i = 0; i < sizeof files / sizeof files[0]; i++) {
        if (strcmp(name, files[i].name) != 0)
            continue;
        struct draft draft = {.sequence = SEQUENCE_START};
        files[i].draft(&draft);
        finish(file, files[i].kind, &draft, files[i].refusal);
        return true;
    }
    return false;
}

/* Makes a sheet of one number alone, or of none; false if the name is of no such sheet. None of the numbers can be a
   count of days, so the call reads the number and ends. */
static bool make_number_alone(struct file *file, const char *name)
{
    static const struct {
        const char *name;
        size_t count; /* how many numbers the sheet has */
        uint32_t number;
        uint32_t refusal;
    } sheets[] = {
        {"no-group", 0, 0, STEEPLECUFF_REFUSED_FILE_ENDS},
        {"one-group", 1, 0, STEEPLECUFF_REFUSED_COUNT},
        {"two-groups", 1, 1000, STEEPLECUFF_REFUSED_COUNT},
        {"three-groups", 1, 100000, STEEPLECUFF_REFUSED_COUNT},
        {"four-groups", 1, 100000000, STEEPLECUFF_REFUSED_COUNT},
        {"five-groups", 1, LARGEST_READING, STEEPLECUFF_REFUSED_COUNT},
    };
    for (size_t i = 0; i < sizeof sheets / sizeof sheets[0]; i++) {
        if (strcmp(name, sheets[i].name) != 0)
            continue;
        struct draft draft = {.numbers = {sheets[i].number}, .count = sheets[i].count};
        finish(file, SHEET, &draft, sheets[i].refusal);
        return true;
    }
    return false;
}

bool make_file(struct file *file, const char *name)
{
    return make_drafted(file, name) || make_number_alone(file, name);
}
