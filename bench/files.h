/* The period files, the meters' sheets and the lists of numbers on which the benchmark makes the calls. */
#ifndef FILES_H
#define FILES_H

#include <stdbool.h>
#include <stddef.h>
#include <stdint.h>

#include "numbers.h"
#include "steeplecuff.h"

/* A full-size period: as many plants, segments and lines as there can be. */
enum { FULL_PLANTS = STEEPLECUFF_MOST_PLANTS, FULL_SEGMENTS = STEEPLECUFF_MOST_SEGMENTS, FULL_LINES = 512 };
enum { HEADER_NUMBERS = 4, PLANT_FIELDS = 3, SEGMENT_FIELDS = 3, LINE_FIELDS = 5 };
enum {
    FULL_NUMBERS =
        HEADER_NUMBERS + PLANT_FIELDS * FULL_PLANTS + SEGMENT_FIELDS * FULL_SEGMENTS + LINE_FIELDS * FULL_LINES
};

/* Which call a file is for. A list is no file: it has plain numbers of eight bytes. */
enum file_kind { PERIOD_FILE, SHEET, LIST };

struct file {
    enum file_kind kind;
    uint8_t bytes[FULL_NUMBERS * STEEPLECUFF_NUMBER_BYTES]; /* enough for all: a list has the longest numbers */
    size_t len;
    size_t numbers;
    uint32_t refusal; /* the expected answer */
};

/* Makes the file of that name: `whole`, the worked period (rule 13.11); `full`, a full-size one that is accepted;
   `refused`, the same refused at its very last number. Or the sheet of a full year: `small-year`, with readings of one
   byte; `mixed-year`, of one to five; `refused-year`, the same refused at its last reading. Or a sheet of one number
   alone, which is read and then refused, since it is no count of days: `one-group`, `two-groups`, `three-groups`,
   `four-groups` and `five-groups`, by the bytes of the number; `no-group`, an empty sheet. Or the numbers of the three
   periods as a list: `whole-list`, `full-list` and `refused-list`. False if there is none. */
bool make_file(struct file *file, const char *name);

#endif
