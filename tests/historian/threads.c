/* threads: makes all calls from several threads at the same time, on one file, one sheet and one list, each thread with
   tables, figures, a buffer, places and offsets of its own and with a small stack; in turn on the whole of each, and
   without its last byte, which is refused. Checks that they leave what a call by itself leaves. Exits with 0 if they do,
   else with 1. */
#define _POSIX_C_SOURCE 200809L /* for the barrier */
#include <pthread.h>
#include <stdbool.h>
#include <stdio.h>
#include <string.h>

#include "numbers.h"
#include "period_file.h"
#include "steeplecuff.h"

enum { THREADS = 8, CALLS = 500, STACK_BYTES = 65536, SHEET_NUMBERS = 7 };
enum { WHOLE, CUT, LENGTHS }; /* how many bytes are missing at the end */
enum { LAST_FILE_BYTES = 2, LAST_SHEET_BYTES = 3 }; /* of the last numbers, 2650 and 70000 */
enum { BYTE_BEFORE = 0xA5, BYTE_BITS = 8 };

/* What a call of each kind leaves. */
struct left {
    uint32_t answer, sheet_answer;
    uint64_t place, sheet_place, offset, sheet_offset;
    uint64_t sum, repeated, repeated_zero, longest, first;
    uint32_t write_answer;
    uint64_t write_place, written;
    uint8_t buffer[STEEPLECUFF_MOST_FILE_BYTES];
    uint8_t plants[STEEPLECUFF_MOST_PLANT_BYTES], segments[STEEPLECUFF_MOST_SEGMENT_BYTES];
};

static const uint32_t sheet_numbers[SHEET_NUMBERS] = {6, 300, 0, 0, 70000, 70000, 70000};
static uint8_t file[WHOLE_PERIOD_NUMBERS * MOST_NUMBER_BYTES], sheet[SHEET_NUMBERS * MOST_NUMBER_BYTES];
static size_t file_len, sheet_len;
static uint8_t list[WHOLE_PERIOD_NUMBERS * STEEPLECUFF_NUMBER_BYTES];
static struct left alone[LENGTHS], together[THREADS];
static pthread_barrier_t start;

/* Makes one call of each kind, without the last `missing` bytes. */
static void call(struct left *left, size_t missing)
{
    memset(left, BYTE_BEFORE, sizeof *left);
    left->answer = steeplecuff_quantify(file, file_len - missing, left->plants, sizeof left->plants, left->segments,
                                        sizeof left->segments, &left->place, &left->offset);
    left->sheet_answer =
        steeplecuff_days(sheet, sheet_len - missing, &left->sum, &left->repeated, &left->repeated_zero, &left->longest,
                         &left->first, &left->sheet_place, &left->sheet_offset);
    left->write_answer = steeplecuff_write(list, sizeof list - missing, left->buffer, sizeof left->buffer, &left->written,
                                           &left->write_place);
}

/* Puts the numbers of the worked period into the list. */
static void make_list(void)
{
    for (size_t i = 0; i < sizeof list; i++)
        list[i] = (uint8_t)((uint64_t)whole_period[i / STEEPLECUFF_NUMBER_BYTES] >>
                            (BYTE_BITS * (i % STEEPLECUFF_NUMBER_BYTES)));
}

static bool same_figures(const struct left *left, const struct left *right)
{
    return left->sheet_answer == right->sheet_answer && left->sheet_place == right->sheet_place &&
           left->sheet_offset == right->sheet_offset && left->sum == right->sum && left->repeated == right->repeated &&
           left->repeated_zero == right->repeated_zero && left->longest == right->longest &&
           left->first == right->first;
}

static bool same_buffers(const struct left *left, const struct left *right)
{
    return left->write_answer == right->write_answer && left->write_place == right->write_place &&
           left->written == right->written && memcmp(left->buffer, right->buffer, sizeof left->buffer) == 0;
}

static bool same_tables(const struct left *left, const struct left *right)
{
    return left->answer == right->answer && left->place == right->place && left->offset == right->offset &&
           memcmp(left->plants, right->plants, sizeof left->plants) == 0 &&
           memcmp(left->segments, right->segments, sizeof left->segments) == 0;
}

/* Makes the calls by themselves; answers whether they accept the whole, and refuse at its last number what is cut. */
static bool call_alone(void)
{
    const struct left *whole = &alone[WHOLE], *cut = &alone[CUT];
    call(&alone[WHOLE], WHOLE);
    call(&alone[CUT], CUT);
    return whole->answer == STEEPLECUFF_ACCEPTED && whole->sheet_answer == STEEPLECUFF_ACCEPTED &&
           whole->offset == 0 && whole->sheet_offset == 0 && cut->answer == STEEPLECUFF_REFUSED_FILE_ENDS &&
           cut->sheet_answer == STEEPLECUFF_REFUSED_FILE_ENDS && cut->offset == file_len - LAST_FILE_BYTES &&
           cut->sheet_offset == sheet_len - LAST_SHEET_BYTES && whole->write_answer == STEEPLECUFF_ACCEPTED &&
           whole->written == file_len && memcmp(whole->buffer, file, file_len) == 0 &&
           cut->write_answer == STEEPLECUFF_REFUSED_FILE_ENDS && cut->write_place == WHOLE_PERIOD_NUMBERS - 1;
}

/* One thread's calls, begun when all threads are there: answers NULL if each of them leaves what a call by itself left. */
static void *call_often(void *of_thread)
{
    struct left *left = of_thread;
    pthread_barrier_wait(&start);
    for (int i = 0; i < CALLS; i++) {
        size_t missing = i % LENGTHS;
        call(left, missing);
        if (!same_tables(left, &alone[missing]) || !same_figures(left, &alone[missing]) ||
            !same_buffers(left, &alone[missing]))
            return left;
    }
    return NULL;
}

int main(void)
{
    pthread_attr_t small_stack;
    pthread_t threads[THREADS];
    unsigned wrong = 0;

    file_len = put_numbers(file, whole_period, WHOLE_PERIOD_NUMBERS);
    sheet_len = put_numbers(sheet, sheet_numbers, SHEET_NUMBERS);
    make_list();
    if (!call_alone()) {
        puts("a call by itself is not answered as it should be");
        return 1;
    }
    if (pthread_barrier_init(&start, NULL, THREADS) != 0 || pthread_attr_init(&small_stack) != 0 ||
        pthread_attr_setstacksize(&small_stack, STACK_BYTES) != 0) {
        puts("the threads could not be prepared");
        return 1;
    }
    for (int i = 0; i < THREADS; i++)
        if (pthread_create(&threads[i], &small_stack, call_often, &together[i]) != 0) {
            puts("a thread could not be made");
            return 1;
        }
    for (int i = 0; i < THREADS; i++) {
        void *differs;
        if (pthread_join(threads[i], &differs) != 0 || differs != NULL)
            wrong++;
    }
    printf("%d threads with %d calls of each kind: %u of them differ\n", THREADS, CALLS, wrong);
    return wrong == 0 ? 0 : 1;
}
