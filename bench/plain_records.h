/* Limits and codes of the records of a period file, for the calls in plain C. */
#ifndef PLAIN_RECORDS_H
#define PLAIN_RECORDS_H

#include "steeplecuff.h"

enum { EDITION = 1, MOST_PLANTS = STEEPLECUFF_MOST_PLANTS, MOST_SEGMENTS = STEEPLECUFF_MOST_SEGMENTS, MOST_LINES = 512 };
enum { WHOLE_FRACTION = 1000000, MOST_FACTOR = 1000000000 };
enum { FIRST_KIND = 1, STORE = 6 };
enum { PLANT_OWNER = 0, SEGMENT_OWNER = 1 };
enum { FIRST_PLANT_CLASS = 1, LAST_PLANT_CLASS = 9, FIRST_SEGMENT_CLASS = 3, LAST_SEGMENT_CLASS = 7 };
enum { FUEL = 3, CAPTURED = 9 }; /* two of the classes: CAPTURED is fossil CO2 captured with the rest, of plants alone */
enum { GRAMS_A_KG = 1000 };      /* the factor of CAPTURED, too */

#endif
