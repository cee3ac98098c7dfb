#include "period_file.h"

const uint32_t whole_period[WHOLE_PERIOD_NUMBERS] = {
    1, 2, 2, 2,        /* edition, plants, segments, lines */
    10000, 1, 1000000, /* plant 1 */
    5001, 1, 900000,   /* plant 2 */
    1, 14900, 2,       /* segment 1 */
    6, 14899, 0,       /* segment 2 */
    0, 1, 4, 2000, 350, /* line 1 */
    1, 1, 3, 101, 2650  /* line 2 */
};
