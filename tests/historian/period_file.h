/* The worked period. */
#ifndef PERIOD_FILE_H
#define PERIOD_FILE_H

#include <stdint.h>

enum { WHOLE_PERIOD_NUMBERS = 26 };

/* The numbers of rule 13.11. */
extern const uint32_t whole_period[WHOLE_PERIOD_NUMBERS];

/* Where in whole_period the figures are that other cases change. */
enum {
    THE_EDITION = 0,
    THE_LINES = 3, /* their count */
    FIRST_EXPORTED = 4,
    FIRST_ENTRY = 5, /* the segment at which plant 1 enters */
    SECOND_EXPORTED = 7,
    SECOND_FRACTION = 9,
    FIRST_OUTFLOW = 11,
    SECOND_KIND = 13,
    SECOND_OUTFLOW = 14,
    FIRST_CLASS = 18, /* of line 1 */
    FIRST_QUANTITY = 19,
    FIRST_FACTOR = 20,
    SECOND_OWNER_KIND = 21,
    SECOND_OWNER = 22,
    SECOND_CLASS = 23,
    SECOND_QUANTITY = 24,
    SECOND_FACTOR = 25
};

#endif
