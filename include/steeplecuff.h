/*
 * Steeplecuff: the removal units of the capture plants of one certification period, five figures of a meter's daily
 * readings, and period files from plain numbers.
 *
 * There are three calls. steeplecuff_quantify takes a period file and fills two tables: a row for each plant and a row
 * for each segment. steeplecuff_days takes a meter's sheet, the readings of up to a year, and gives five figures, among
 * them on how many days the meter repeated itself. steeplecuff_write takes the numbers of a period as a list and writes
 * its file. Each call can also refuse what it is given; it then says why and where, and the two that read say at which
 * byte. docs/GUIDE.md explains the file, the sheet, the rows, the figures and the refusals, and docs/RULES.md has the
 * rules by number. This page says how a C or C++ program makes the calls, in this order:
 *
 *   the version . the row of a plant . the row of a segment . limits . counts . answers . offsets . quantify . days .
 *   write . an example
 *
 * Link with the archive target/staticlib/libhistorian.a, for x86-64, which `tools/archive` proves and builds. Of
 * the C library it needs memcpy and memset. examples/historian.c is a whole program; examples/README.md shows how to
 * build it by hand, with make, with CMake and with pkg-config.
 */
#ifndef STEEPLECUFF_H
#define STEEPLECUFF_H

#include <stddef.h>
#include <stdint.h>

/*
 * The version of this header and of the archive that it goes with. Its first part changes if callers have to change
 * their code.
 *
 * New in 2.2.0: the call steeplecuff_write. The other calls stay as they are.
 *
 * New in 2.1.0: a plant's line may have class 9, fossil CO2 captured with the rest, and a file can be refused with 16.
 * The calls stay as they are. A caller that looks refusals up in a list, as examples/historian.c does, needs 16 in it.
 *
 * New in 2.0.0: both calls have one more parameter, offset, as their last. So calls have to be written and compiled
 * again. What was compiled for 1.1.0 can still be linked, but must not be: it lends no offset, and the call would write
 * to a wrong address. All else is as in 1.1.0: numbers of refusal, places, tables and figures.
 */
#define STEEPLECUFF_VERSION "2.2.0"

#ifdef __cplusplus
extern "C" {
#endif

/* The row of a plant: its numbers in order (rule 7.1). All are in kg except the units. */
enum steeplecuff_plant_number {
    STEEPLECUFF_PLANT_EXPORTED,   /* what the plant sent off */
    STEEPLECUFF_PLANT_STORED,     /* what the store credited to it */
    STEEPLECUFF_PLANT_LOST,       /* exported - stored */
    STEEPLECUFF_PLANT_GROSS,      /* stored x origin fraction, rounded down */
    STEEPLECUFF_PLANT_ASSOCIATED, /* its own emissions, less its class 9, and all its charges */
    STEEPLECUFF_PLANT_NET,        /* gross - associated; 0 if that is negative */
    STEEPLECUFF_PLANT_UNITS,      /* whole tonnes of net: the removal units */
    STEEPLECUFF_PLANT_DEFICIT,    /* associated - gross; 0 if that is negative */
    STEEPLECUFF_PLANT_NUMBERS     /* how many numbers a plant's row has: 8 */
};

/* The row of a segment: its numbers in order (rule 7.2). All are in kg except the set of plants. */
enum steeplecuff_segment_number {
    STEEPLECUFF_SEGMENT_INFLOW,   /* A: the sum of the amounts that enter */
    STEEPLECUFF_SEGMENT_OUTFLOW,  /* D: the metered outflow */
    STEEPLECUFF_SEGMENT_LOST,     /* A - D */
    STEEPLECUFF_SEGMENT_EMISSION, /* E: the segment's own emissions */
    STEEPLECUFF_SEGMENT_PLANTS,   /* who passes: plant 1 has the lowest bit, plant 2 the next; also with 0 kg */
    STEEPLECUFF_SEGMENT_NUMBERS   /* how many numbers a segment's row has: 5 */
};

/*
 * The limits (chapter 9 of the rules). Tables of these sizes are large enough for every file. No file that can be read
 * is longer than STEEPLECUFF_MOST_FILE_BYTES, and no sheet than STEEPLECUFF_MOST_SHEET_BYTES. So a buffer of one byte
 * more is enough: a call on as much as fits into it gives the answer for the whole file or sheet, however long it is
 * (rule 9.2). To write, a buffer of STEEPLECUFF_MOST_FILE_BYTES is enough for every period, and no period has more than
 * STEEPLECUFF_MOST_LIST_NUMBERS numbers.
 */
enum steeplecuff_limit {
    STEEPLECUFF_MOST_PLANTS = 16,
    STEEPLECUFF_MOST_SEGMENTS = 32,
    STEEPLECUFF_MOST_LINES = 512,
    STEEPLECUFF_MOST_DAYS = 366,  /* readings of a sheet */
    STEEPLECUFF_NUMBER_BYTES = 8, /* bytes of one number in a table */
    STEEPLECUFF_MOST_PLANT_BYTES = STEEPLECUFF_MOST_PLANTS * STEEPLECUFF_PLANT_NUMBERS * STEEPLECUFF_NUMBER_BYTES,
    STEEPLECUFF_MOST_SEGMENT_BYTES = STEEPLECUFF_MOST_SEGMENTS * STEEPLECUFF_SEGMENT_NUMBERS * STEEPLECUFF_NUMBER_BYTES,
    /* the count and the readings, each with the most bytes that it can have: 1,832 */
    STEEPLECUFF_MOST_SHEET_BYTES = 2 + STEEPLECUFF_MOST_DAYS * 5,
    /* the header and the records, each field with the most bytes that it can have: 7,029 */
    STEEPLECUFF_MOST_FILE_BYTES = (1 + 1 + 1 + 2) + STEEPLECUFF_MOST_PLANTS * (5 + 1 + 3) +
                                  STEEPLECUFF_MOST_SEGMENTS * (1 + 5 + 1) + STEEPLECUFF_MOST_LINES * (1 + 1 + 1 + 5 + 5),
    /* the numbers of the header and of all records: 2,708 */
    STEEPLECUFF_MOST_LIST_NUMBERS =
        4 + STEEPLECUFF_MOST_PLANTS * 3 + STEEPLECUFF_MOST_SEGMENTS * 3 + STEEPLECUFF_MOST_LINES * 5
};

/* Where an accepted file has the counts P and S, which say how many rows the tables have: the bytes file[1] and
   file[2]. Its first three numbers, edition, P and S, take one byte each. */
enum steeplecuff_count_byte { STEEPLECUFF_PLANTS_BYTE = 1, STEEPLECUFF_SEGMENTS_BYTE = 2 };

/*
 * What a call answers (rule 8.1); behind each colon is what its place then counts. "number" is the number of the file at
 * fault, counted from 0; lines, plants and segments are counted from 1. P, S and L are the file's counts of plants,
 * segments and lines. Only the first reason is answered (rule 8.8); 16 is tested directly after 10, to which class 9 does
 * not count (rule 8.10).
 *
 * A sheet can get 0, 1, 2, 3, 5 and 9, with the same meaning for the sheet as for a file (rule 12.7). Its number 0 is the
 * count of days, which 5 refuses; its number d is the reading of day d; so the place of 9 is one more than the days.
 *
 * A list of numbers that is to be written can get 0, 1, 3 to 9 and 14, with the same meaning for the list as for a file;
 * "number" is counted in the list. 14 is STEEPLECUFF_REFUSED_BUFFER_SHORT there and is tested last.
 */
enum steeplecuff_answer {
    STEEPLECUFF_ACCEPTED = 0,                         /* both tables, or all figures, are written; place and offset 0 */
    STEEPLECUFF_REFUSED_FILE_ENDS = 1,                /* the file ends within a number or before one that is due: number */
    STEEPLECUFF_REFUSED_NOT_SHORTEST = 2,             /* a number is not in its shortest form: number */
    STEEPLECUFF_REFUSED_NUMBER_OVER_LIMIT = 3,        /* a fifth group says more follow, or over 4,000,000,000: number */
    STEEPLECUFF_REFUSED_EDITION = 4,                  /* the edition is not 1: number */
    STEEPLECUFF_REFUSED_COUNT = 5,                    /* P, S, L or the count of days is outside its range: number */
    STEEPLECUFF_REFUSED_PLANT_FIELD = 6,              /* a plant's field is outside its range: number */
    STEEPLECUFF_REFUSED_SEGMENT_FIELD = 7,            /* a segment's kind or next segment is not allowed: number */
    STEEPLECUFF_REFUSED_LINE_FIELD = 8,               /* a line's field is not allowed: number */
    STEEPLECUFF_REFUSED_BYTES_AFTER = 9,              /* bytes follow the last number: the count of numbers */
    STEEPLECUFF_REFUSED_GRAMS_OVER_LIMIT = 10,        /* an owner has over 4,000,000,000,000 g: the line that passes it */
    STEEPLECUFF_REFUSED_INFLOW_OVER_LIMIT = 11,       /* an inflow is over 4,000,000,000 kg: segment */
    STEEPLECUFF_REFUSED_OUTFLOW_OVER_INFLOW = 12,     /* an outflow is larger than the inflow: segment */
    STEEPLECUFF_REFUSED_EMISSION_WITHOUT_INFLOW = 13, /* a segment has emissions and no inflow: segment */
    STEEPLECUFF_REFUSED_PLANT_TABLE_SHORT = 14,       /* the plant table has fewer than 8P numbers: 8P */
    STEEPLECUFF_REFUSED_BUFFER_SHORT = 14,            /* the buffer is shorter than the file to be written: its bytes */
    STEEPLECUFF_REFUSED_SEGMENT_TABLE_SHORT = 15,     /* the segment table has fewer than 5S numbers: 5S */
    STEEPLECUFF_REFUSED_CAPTURED_OVER_FUEL = 16       /* a plant has more grams of class 9 than of fuel: plant */
};

/*
 * The offset (rule 8.9): at which byte the fault is. It is the byte that a byte viewer shows, so that nobody has to count
 * numbers there. Bytes are counted from 0; many viewers show them in hexadecimal.
 *
 *   answer     offset
 *   0          0
 *   1, 2, 3    the first byte of the number at fault; if no byte of it is there, the length of the file
 *   4 to 8     the first byte of the field's number
 *   9          the first byte behind the last number
 *   10         the first byte of the line's first number
 *   11 to 16   the length of the file: no single byte is at fault
 *
 * The answers to a sheet have the same offsets, counted in the sheet. No offset is larger than the length.
 *
 * steeplecuff_write reads no file, so it has no offset: the place says which number of the list is at fault.
 */

/*
 * Works out one period (rules 10.1 to 10.8). Answers one of steeplecuff_answer and sets *place and *offset: to 0 if the
 * file is accepted, else to the place and the byte of the fault.
 *
 * In:   file[0 .. file_len - 1], the period file. It is only read; every content and length is answered.
 * Out:  plants[0 .. plants_len - 1] and segments[0 .. segments_len - 1], the tables. A table is a run of numbers of eight
 *       bytes, least significant first, at any alignment, one row after the other: field f of plant p (from 1) is number
 *       (p - 1) * STEEPLECUFF_PLANT_NUMBERS + f. A length that is no multiple of eight counts as its whole numbers.
 *       Acceptance writes 8 numbers for each plant and 5 for each segment; all behind them stays.
 *       A refusal leaves both tables as they were.
 *
 * The caller must make sure that no pointer is null, not even if its length is 0; that each is good for its length; and
 * that the tables, *place and *offset overlap neither each other nor the file.
 *
 * The call keeps nothing from one call to the next and has no global state: threads may call it at the same time, each
 * with tables, a place and an offset of its own, also on the same file. It allocates nothing, calls nothing back and
 * returns for every input. It uses some 8,100 bytes of stack, whatever the file (docs/PERFORMANCE.md).
 */
uint32_t steeplecuff_quantify(const uint8_t *file, size_t file_len, uint8_t *plants, size_t plants_len,
                              uint8_t *segments, size_t segments_len, uint64_t *place, uint64_t *offset);

/*
 * Works out one meter's sheet (rules 12.1 to 12.9 and 12.12). Answers one of steeplecuff_answer and sets *place and
 * *offset: to 0 if the sheet is accepted, else to the place and the byte of the fault.
 *
 * In:   sheet[0 .. sheet_len - 1], the sheet: numbers written as in a period file, first the count of days, 1 to
 *       STEEPLECUFF_MOST_DAYS, then for each day its reading in kg, and nothing behind the last. It is only read; every
 *       content and length is answered.
 * Out:  the five figures, on acceptance. A run is a stretch of days that all have the same reading, above 0; one day
 *       that differs from its neighbours is a run of 1.
 *       *sum            the readings added up, in kg
 *       *repeated       how many days have the reading of the day before, and it is above 0
 *       *repeated_zero  how many days have the reading of the day before, and it is 0
 *       *longest        how many days the longest run has; 0 if every reading is 0
 *       *first          the day, counted from 1, on which that run begins, the earliest of several as long; 0 if every
 *                       reading is 0
 *       A refusal leaves the five as they were.
 *
 * The caller must make sure that no pointer is null, not even that of an empty sheet; that the sheet is good for its
 * length; and that the figures, *place and *offset overlap neither each other nor the sheet.
 *
 * Like the first call, this one keeps nothing from one call to the next and has no global state: threads may make both
 * calls at the same time, each with figures, a place and an offset of its own, also on the same sheet. It allocates
 * nothing, calls nothing back and returns for every input. It uses some 200 bytes of stack, whatever the sheet
 * (docs/PERFORMANCE.md).
 */
uint32_t steeplecuff_days(const uint8_t *sheet, size_t sheet_len, uint64_t *sum, uint64_t *repeated,
                          uint64_t *repeated_zero, uint64_t *longest, uint64_t *first, uint64_t *place,
                          uint64_t *offset);

/*
 * Writes the file of one period (rules 15.1 to 15.8). Answers one of steeplecuff_answer and sets *written and *place: to
 * the bytes written and 0 if the list is accepted, else to 0 and the place of the fault.
 *
 * In:   numbers[0 .. numbers_len - 1], the numbers of the period in the order of its file (rule 2.2): header, plants,
 *       segments, lines. Each has eight bytes, least significant first, at any alignment. A length that is no multiple of
 *       eight counts as its whole numbers. The list is only read; every content and length is answered.
 * Out:  buffer[0 .. buffer_len - 1]. Acceptance writes the file to its first *written bytes, each number in its shortest
 *       form; all behind them stays. steeplecuff_quantify reads the file as the same numbers, and a file that it can read
 *       is written again as the same bytes. A refusal leaves the buffer as it was.
 *
 * The numbers are tested in their order, each as a reader of the file would test it: 1 if the list has ended, 3 if the
 * number is over 4,000,000,000, then 4 to 8 for its field. Then 9 if numbers are left over; its place is how many the
 * period has. Last 14 if the buffer is too short; its place is how many bytes are needed, so that a call with a buffer_len
 * of 0 tells the length. What the accounts refuse (10 to 13, and 16) is not tested, and 2 cannot occur.
 *
 * The caller must make sure that no pointer is null, not even if its length is 0; that each is good for its length; and
 * that the buffer, *written and *place overlap neither each other nor the list.
 *
 * Like the other calls, this one keeps nothing from one call to the next and has no global state: threads may make all
 * three at the same time, each with a buffer, a count and a place of its own, also on the same list. It allocates nothing,
 * calls nothing back and returns for every input. It uses some 280 bytes of stack (docs/PERFORMANCE.md).
 */
uint32_t steeplecuff_write(const uint8_t *numbers, size_t numbers_len, uint8_t *buffer, size_t buffer_len,
                           uint64_t *written, uint64_t *place);

/*
Example:

    #include <inttypes.h>
    #include <stdio.h>
    #include "steeplecuff.h"

    static uint64_t number_of(const uint8_t *table, size_t index)
    {
        uint64_t number = 0;
        for (size_t byte = STEEPLECUFF_NUMBER_BYTES; byte > 0; byte--)
            number = number << 8 | table[index * STEEPLECUFF_NUMBER_BYTES + byte - 1];
        return number;
    }

    void print_units(const uint8_t *file, size_t file_len)
    {
        uint8_t plants[STEEPLECUFF_MOST_PLANT_BYTES], segments[STEEPLECUFF_MOST_SEGMENT_BYTES];
        uint64_t place, offset;
        uint32_t refusal =
            steeplecuff_quantify(file, file_len, plants, sizeof plants, segments, sizeof segments, &place, &offset);
        if (refusal != STEEPLECUFF_ACCEPTED) {
            printf("refused: %" PRIu32 " at %" PRIu64 ", byte %" PRIu64 "\n", refusal, place, offset);
            return;
        }
        for (size_t plant = 0; plant < file[STEEPLECUFF_PLANTS_BYTE]; plant++)
            printf("plant %zu: %" PRIu64 " units\n", plant + 1,
                   number_of(plants, plant * STEEPLECUFF_PLANT_NUMBERS + STEEPLECUFF_PLANT_UNITS));
    }

    void print_longest_run(const uint8_t *sheet, size_t sheet_len)
    {
        uint64_t sum, repeated, repeated_zero, longest, first, place, offset;
        uint32_t refusal =
            steeplecuff_days(sheet, sheet_len, &sum, &repeated, &repeated_zero, &longest, &first, &place, &offset);
        if (refusal != STEEPLECUFF_ACCEPTED)
            printf("refused: %" PRIu32 " at %" PRIu64 ", byte %" PRIu64 "\n", refusal, place, offset);
        else if (longest == 0)
            printf("nothing was metered\n");
        else
            printf("the same reading on %" PRIu64 " days, from day %" PRIu64 " on\n", longest, first);
    }

    void write_file(const uint8_t *numbers, size_t numbers_len, FILE *out)
    {
        uint8_t file[STEEPLECUFF_MOST_FILE_BYTES];
        uint64_t written, place;
        uint32_t refusal = steeplecuff_write(numbers, numbers_len, file, sizeof file, &written, &place);
        if (refusal != STEEPLECUFF_ACCEPTED)
            printf("refused: %" PRIu32 " at %" PRIu64 "\n", refusal, place);
        else
            fwrite(file, 1, (size_t)written, out);
    }
*/

#ifdef __cplusplus
}
#endif

#endif
