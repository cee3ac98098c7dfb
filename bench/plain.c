#include "plain.h"

#include <stdbool.h>

#include "plain_reader.h"
#include "plain_records.h"
#include "steeplecuff.h"

/* Measures. */
enum { KG_A_UNIT = 1000, BYTE_BITS = 8 };
#define MOST_GRAMS UINT64_C(4000000000000)

struct plant {
    uint32_t exported, first, fraction;
};

struct segment {
    uint32_t kind, outflow, next;
};

struct line {
    uint32_t owner_kind, owner, class, quantity, factor;
    uint32_t start; /* the offset of its first number, below STEEPLECUFF_MOST_FILE_BYTES */
};

struct period {
    uint32_t plants, segments, lines;
    struct plant plant[MOST_PLANTS];
    struct segment segment[MOST_SEGMENTS];
    struct line line[MOST_LINES];
};

/* The results of the period; plants and segments are counted from 0. */
struct accounts {
    uint64_t plant_grams[MOST_PLANTS], segment_grams[MOST_SEGMENTS];
    uint64_t fuel_grams[MOST_PLANTS], captured_grams[MOST_PLANTS]; /* of each plant's lines of these two classes */
    uint64_t inflow[MOST_SEGMENTS];
    uint32_t passing[MOST_SEGMENTS]; /* the set of plants: bit p for plant p from 0 */
    uint64_t stored[MOST_PLANTS], charged[MOST_PLANTS];
};

/* The amount of each plant that enters each segment; only set, and only read, if the plant's route passes there. */
typedef uint64_t amounts_table[MOST_PLANTS][MOST_SEGMENTS];

static uint32_t read_header(struct reader *reader, struct period *period)
{
    uint32_t edition;
    uint32_t fault = read_field(reader, EDITION, EDITION, STEEPLECUFF_REFUSED_EDITION, &edition);
    if (fault == 0)
        fault = read_field(reader, 1, MOST_PLANTS, STEEPLECUFF_REFUSED_COUNT, &period->plants);
    if (fault == 0)
        fault = read_field(reader, 1, MOST_SEGMENTS, STEEPLECUFF_REFUSED_COUNT, &period->segments);
    if (fault == 0)
        fault = read_field(reader, 0, MOST_LINES, STEEPLECUFF_REFUSED_COUNT, &period->lines);
    return fault;
}

static uint32_t read_plant(struct reader *reader, const struct period *period, struct plant *plant)
{
    const uint32_t refusal = STEEPLECUFF_REFUSED_PLANT_FIELD;
    uint32_t fault = read_field(reader, 0, LARGEST, refusal, &plant->exported);
    if (fault == 0)
        fault = read_field(reader, 1, period->segments, refusal, &plant->first);
    if (fault == 0)
        fault = read_field(reader, 0, WHOLE_FRACTION, refusal, &plant->fraction);
    return fault;
}

/* A store leads nowhere, which is 0; any other segment leads to one behind it, whose number is above its own, `number`. */
static uint32_t read_segment(struct reader *reader, const struct period *period, uint32_t number, struct segment *segment)
{
    const uint32_t refusal = STEEPLECUFF_REFUSED_SEGMENT_FIELD;
    uint32_t fault = read_field(reader, FIRST_KIND, STORE, refusal, &segment->kind);
    if (fault == 0)
        fault = read_field(reader, 0, LARGEST, refusal, &segment->outflow);
    if (fault != 0)
        return fault;
    if (segment->kind == STORE)
        return read_field(reader, 0, 0, refusal, &segment->next);
    return read_field(reader, number + 1, period->segments, refusal, &segment->next);
}

static uint32_t read_owner_and_class(struct reader *reader, const struct period *period, struct line *line)
{
    const uint32_t refusal = STEEPLECUFF_REFUSED_LINE_FIELD;
    uint32_t fault = read_field(reader, PLANT_OWNER, SEGMENT_OWNER, refusal, &line->owner_kind);
    if (fault != 0)
        return fault;
    bool plant = line->owner_kind == PLANT_OWNER;
    fault = read_field(reader, 1, plant ? period->plants : period->segments, refusal, &line->owner);
    if (fault != 0)
        return fault;
    if (plant)
        return read_field(reader, FIRST_PLANT_CLASS, LAST_PLANT_CLASS, refusal, &line->class);
    return read_field(reader, FIRST_SEGMENT_CLASS, LAST_SEGMENT_CLASS, refusal, &line->class);
}

/* What is captured is given in kg, so its factor is the grams of a kg and nothing else. */
static uint32_t read_line(struct reader *reader, const struct period *period, struct line *line)
{
    const uint32_t refusal = STEEPLECUFF_REFUSED_LINE_FIELD;
    line->start = (uint32_t)reader->next;
    uint32_t fault = read_owner_and_class(reader, period, line);
    if (fault == 0)
        fault = read_field(reader, 0, LARGEST, refusal, &line->quantity);
    if (fault != 0)
        return fault;
    if (line->class == CAPTURED)
        return read_field(reader, GRAMS_A_KG, GRAMS_A_KG, refusal, &line->factor);
    return read_field(reader, 0, MOST_FACTOR, refusal, &line->factor);
}

/* Reads the whole file: refusals 1 to 9, the place and the offset in the reader. */
static uint32_t read_period(struct reader *reader, struct period *period)
{
    uint32_t fault = read_header(reader, period);
    for (uint32_t p = 0; fault == 0 && p < period->plants; p++)
        fault = read_plant(reader, period, &period->plant[p]);
    for (uint32_t s = 0; fault == 0 && s < period->segments; s++)
        fault = read_segment(reader, period, s + 1, &period->segment[s]);
    for (uint32_t l = 0; fault == 0 && l < period->lines; l++)
        fault = read_line(reader, period, &period->line[l]);
    if (fault == 0 && reader->next < reader->len)
        fault = STEEPLECUFF_REFUSED_BYTES_AFTER;
    return fault;
}

/* Adds up the grams of each owner without those captured: refusal 10; and apart from that, each plant's grams of fuel and
   those captured. The latter have no limit and need none: 512 lines of at most 4 * 10^12 g fit. */
static uint32_t add_grams(const struct period *period, struct accounts *accounts, uint64_t *place, uint64_t *offset)
{
    for (uint32_t l = 0; l < period->lines; l++) {
        const struct line *line = &period->line[l];
        uint32_t owner = line->owner - 1;
        uint64_t grams = (uint64_t)line->quantity * line->factor;
        if (line->class == CAPTURED) {
            accounts->captured_grams[owner] += grams;
            continue;
        }
        bool plant = line->owner_kind == PLANT_OWNER;
        if (plant && line->class == FUEL)
            accounts->fuel_grams[owner] += grams;
        uint64_t *total = plant ? &accounts->plant_grams[owner] : &accounts->segment_grams[owner];
        *total += grams;
        if (*total > MOST_GRAMS) {
            *place = l + 1;
            *offset = line->start;
            return STEEPLECUFF_REFUSED_GRAMS_OVER_LIMIT;
        }
    }
    return 0;
}

/* Takes off what each plant captured, which is at most what its fuel gave: refusal 16. */
static uint32_t take_captured_off(const struct period *period, struct accounts *accounts, uint64_t *place)
{
    for (uint32_t p = 0; p < period->plants; p++) {
        if (accounts->captured_grams[p] > accounts->fuel_grams[p]) {
            *place = p + 1;
            return STEEPLECUFF_REFUSED_CAPTURED_OVER_FUEL;
        }
        accounts->plant_grams[p] -= accounts->captured_grams[p];
    }
    return 0;
}

static uint64_t kg_of(uint64_t grams)
{
    return (grams + GRAMS_A_KG - 1) / GRAMS_A_KG;
}

static bool passes(uint32_t set, uint32_t plant)
{
    return (set >> plant & 1) != 0;
}

/* Puts each plant with its export before its first segment. */
static void enter(const struct period *period, struct accounts *accounts, amounts_table amounts)
{
    for (uint32_t p = 0; p < period->plants; p++) {
        uint32_t first = period->plant[p].first - 1;
        amounts[p][first] = period->plant[p].exported;
        accounts->passing[first] |= UINT32_C(1) << p;
    }
}

static uint64_t inflow_of(const struct period *period, uint32_t set, amounts_table amounts, uint32_t s)
{
    uint64_t inflow = 0;
    for (uint32_t p = 0; p < period->plants; p++)
        if (passes(set, p))
            inflow += amounts[p][s];
    return inflow;
}

/* Refusals 11, 12 and 13 at one segment. */
static uint32_t test_segment(uint64_t inflow, uint64_t outflow, uint64_t emission)
{
    if (inflow > LARGEST)
        return STEEPLECUFF_REFUSED_INFLOW_OVER_LIMIT;
    if (outflow > inflow)
        return STEEPLECUFF_REFUSED_OUTFLOW_OVER_INFLOW;
    if (emission > 0 && inflow == 0)
        return STEEPLECUFF_REFUSED_EMISSION_WITHOUT_INFLOW;
    return 0;
}

/* Credits the outflow of segment `s` by running sums: to the amounts at the next segment, or at a store to what is stored. */
static void credit(const struct period *period, struct accounts *accounts, amounts_table amounts, uint32_t s)
{
    const struct segment *segment = &period->segment[s];
    uint64_t inflow = accounts->inflow[s];
    uint64_t sum = 0, credited = 0;
    for (uint32_t p = 0; p < period->plants; p++) {
        if (!passes(accounts->passing[s], p))
            continue;
        sum += amounts[p][s];
        uint64_t so_far = inflow == 0 ? 0 : sum * segment->outflow / inflow;
        if (segment->kind == STORE)
            accounts->stored[p] = so_far - credited;
        else
            amounts[p][segment->next - 1] = so_far - credited;
        credited = so_far;
    }
    if (segment->kind != STORE)
        accounts->passing[segment->next - 1] |= accounts->passing[s];
}

/* Charges the emission of segment `s` to each plant by itself, rounded up; with an emission there is an inflow. */
static void charge(const struct period *period, struct accounts *accounts, amounts_table amounts, uint32_t s, uint64_t emission)
{
    uint64_t inflow = accounts->inflow[s];
    if (emission == 0)
        return;
    for (uint32_t p = 0; p < period->plants; p++)
        if (passes(accounts->passing[s], p))
            accounts->charged[p] += (amounts[p][s] * emission + inflow - 1) / inflow;
}

/* Works the segments in rising number: refusals 11 to 13. */
static uint32_t walk(const struct period *period, struct accounts *accounts, uint64_t *place)
{
    amounts_table amounts;
    enter(period, accounts, amounts);
    for (uint32_t s = 0; s < period->segments; s++) {
        uint64_t emission = kg_of(accounts->segment_grams[s]);
        accounts->inflow[s] = inflow_of(period, accounts->passing[s], amounts, s);
        uint32_t fault = test_segment(accounts->inflow[s], period->segment[s].outflow, emission);
        if (fault != 0) {
            *place = s + 1;
            return fault;
        }
        credit(period, accounts, amounts, s);
        charge(period, accounts, amounts, s, emission);
    }
    return 0;
}

/* Refusals 14 and 15. */
static uint32_t test_tables(const struct period *period, size_t plants_len, size_t segments_len, uint64_t *place)
{
    size_t plant_numbers = (size_t)period->plants * STEEPLECUFF_PLANT_NUMBERS;
    size_t segment_numbers = (size_t)period->segments * STEEPLECUFF_SEGMENT_NUMBERS;
    if (plants_len / STEEPLECUFF_NUMBER_BYTES < plant_numbers) {
        *place = plant_numbers;
        return STEEPLECUFF_REFUSED_PLANT_TABLE_SHORT;
    }
    if (segments_len / STEEPLECUFF_NUMBER_BYTES < segment_numbers) {
        *place = segment_numbers;
        return STEEPLECUFF_REFUSED_SEGMENT_TABLE_SHORT;
    }
    return 0;
}

/* Writes a row's numbers, each with its least significant byte first; answers where the next row begins. */
static uint8_t *put_row(uint8_t *bytes, const uint64_t *row, size_t count)
{
    for (size_t i = 0; i < count; i++)
        for (unsigned byte = 0; byte < STEEPLECUFF_NUMBER_BYTES; byte++)
            *bytes++ = (uint8_t)(row[i] >> (BYTE_BITS * byte));
    return bytes;
}

static uint8_t *put_plant(uint8_t *bytes, const struct plant *plant, uint64_t stored, uint64_t associated)
{
    uint64_t gross = stored * plant->fraction / WHOLE_FRACTION;
    uint64_t net = gross > associated ? gross - associated : 0;
    const uint64_t row[STEEPLECUFF_PLANT_NUMBERS] = {
        [STEEPLECUFF_PLANT_EXPORTED] = plant->exported,
        [STEEPLECUFF_PLANT_STORED] = stored,
        [STEEPLECUFF_PLANT_LOST] = plant->exported - stored,
        [STEEPLECUFF_PLANT_GROSS] = gross,
        [STEEPLECUFF_PLANT_ASSOCIATED] = associated,
        [STEEPLECUFF_PLANT_NET] = net,
        [STEEPLECUFF_PLANT_UNITS] = net / KG_A_UNIT,
        [STEEPLECUFF_PLANT_DEFICIT] = associated > gross ? associated - gross : 0,
    };
    return put_row(bytes, row, STEEPLECUFF_PLANT_NUMBERS);
}

static uint8_t *put_segment(uint8_t *bytes, uint64_t inflow, uint64_t outflow, uint64_t emission, uint32_t set)
{
    const uint64_t row[STEEPLECUFF_SEGMENT_NUMBERS] = {
        [STEEPLECUFF_SEGMENT_INFLOW] = inflow,
        [STEEPLECUFF_SEGMENT_OUTFLOW] = outflow,
        [STEEPLECUFF_SEGMENT_LOST] = inflow - outflow,
        [STEEPLECUFF_SEGMENT_EMISSION] = emission,
        [STEEPLECUFF_SEGMENT_PLANTS] = set,
    };
    return put_row(bytes, row, STEEPLECUFF_SEGMENT_NUMBERS);
}

/* Writes both tables, which are long enough. */
static void write_tables(const struct period *period, const struct accounts *accounts, uint8_t *plants, uint8_t *segments)
{
    for (uint32_t p = 0; p < period->plants; p++)
        plants = put_plant(plants, &period->plant[p], accounts->stored[p],
                           kg_of(accounts->plant_grams[p]) + accounts->charged[p]);
    for (uint32_t s = 0; s < period->segments; s++)
        segments = put_segment(segments, accounts->inflow[s], period->segment[s].outflow,
                               kg_of(accounts->segment_grams[s]), accounts->passing[s]);
}

/* Refusals 10, 16 and 11 to 15, in this order, then the tables; `*offset` is the file's length at first, which is that of
   all but 10. */
static uint32_t account(const struct period *period, uint8_t *plants, size_t plants_len, uint8_t *segments,
                        size_t segments_len, uint64_t *place, uint64_t *offset)
{
    struct accounts accounts = {0};
    uint32_t fault = add_grams(period, &accounts, place, offset);
    if (fault == 0)
        fault = take_captured_off(period, &accounts, place);
    if (fault == 0)
        fault = walk(period, &accounts, place);
    if (fault == 0)
        fault = test_tables(period, plants_len, segments_len, place);
    if (fault != 0)
        return fault;
    write_tables(period, &accounts, plants, segments);
    *place = 0;
    *offset = 0;
    return 0;
}

uint32_t plain_quantify(const uint8_t *file, size_t file_len, uint8_t *plants, size_t plants_len, uint8_t *segments,
                        size_t segments_len, uint64_t *place, uint64_t *offset)
{
    struct reader reader = {file, file_len, 0, 0};
    struct period period;
    uint32_t fault = read_period(&reader, &period);
    *offset = reader.next; /* the file's length, if all of it is read */
    if (fault != 0) {
        *place = reader.place;
        return fault;
    }
    return account(&period, plants, plants_len, segments, segments_len, place, offset);
}
