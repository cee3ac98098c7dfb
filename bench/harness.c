/* harness: what the benchmark measures. FILE is a name of files.h, a period file, a sheet or a list; which call is made
   follows from it. FUNCTION is steeplecuff, plain, or empty, which does nothing.
     harness size FILE                   prints how many bytes and numbers the file has
     harness same FILE                   exits with 1 if the answers of steeplecuff and plain differ
     harness calls FUNCTION FILE TIMES   calls the function TIMES times
     harness stack FUNCTION FILE         prints the bytes of stack of one call
   Exits with 2 if it is asked for anything else. */
#include <stdio.h>
#include <stdlib.h>
#include <string.h>

#include "files.h"
#include "plain.h"
#include "stack_use.h"
#include "steeplecuff.h"

enum { DIFFERENT = 1, CANNOT_GO_ON = 2, DECIMAL = 10 };

typedef uint32_t quantify(const uint8_t *, size_t, uint8_t *, size_t, uint8_t *, size_t, uint64_t *, uint64_t *);
typedef uint32_t days(const uint8_t *, size_t, uint64_t *, uint64_t *, uint64_t *, uint64_t *, uint64_t *, uint64_t *,
                      uint64_t *);
typedef uint32_t writer(const uint8_t *, size_t, uint8_t *, size_t, uint64_t *, uint64_t *);

/* What FUNCTION names: a function for each kind of file. */
struct functions {
    const char *name;
    quantify *quantify;
    days *days;
    writer *write;
};

struct figures {
    uint64_t sum, repeated, repeated_zero, longest, first;
};

/* What a call leaves: the tables of a period file, the figures of a sheet, or the file of a list. */
struct answer {
    uint8_t buffer[STEEPLECUFF_MOST_FILE_BYTES];
    uint8_t plants[STEEPLECUFF_MOST_PLANT_BYTES];
    uint8_t segments[STEEPLECUFF_MOST_SEGMENT_BYTES];
    struct figures figures;
    uint32_t refusal;
    uint64_t place, offset, written;
};

/* One call: its functions, its file and its answer. */
struct call {
    struct functions functions;
    struct file file;
    struct answer answer;
};

static struct call call;

/* Says what to write in place of a word; answers the status to exit with. */
static int complain(const char *message, const char *word)
{
    fprintf(stderr, "harness: write %s, not %s\n", message, word);
    return CANNOT_GO_ON;
}

/* These three show what any call costs. */
static uint32_t empty_quantify(const uint8_t *file, size_t file_len, uint8_t *plants, size_t plants_len,
                               uint8_t *segments, size_t segments_len, uint64_t *place, uint64_t *offset)
{
    (void)file, (void)file_len, (void)plants, (void)plants_len, (void)segments, (void)segments_len;
    (void)place, (void)offset;
    return STEEPLECUFF_ACCEPTED;
}

static uint32_t empty_days(const uint8_t *sheet, size_t sheet_len, uint64_t *sum, uint64_t *repeated,
                           uint64_t *repeated_zero, uint64_t *longest, uint64_t *first, uint64_t *place,
                           uint64_t *offset)
{
    (void)sheet, (void)sheet_len, (void)sum, (void)repeated, (void)repeated_zero;
    (void)longest, (void)first, (void)place, (void)offset;
    return STEEPLECUFF_ACCEPTED;
}

static uint32_t empty_write(const uint8_t *numbers, size_t numbers_len, uint8_t *buffer, size_t buffer_len,
                            uint64_t *written, uint64_t *place)
{
    (void)numbers, (void)numbers_len, (void)buffer, (void)buffer_len, (void)written, (void)place;
    return STEEPLECUFF_ACCEPTED;
}

static void choose_function(const char *name)
{
    static const struct functions all[] = {
        {"steeplecuff", steeplecuff_quantify, steeplecuff_days, steeplecuff_write},
        {"plain", plain_quantify, plain_days, plain_write},
        {"empty", empty_quantify, empty_days, empty_write},
    };
    for (size_t i = 0; i < sizeof all / sizeof all[0]; i++)
        if (strcmp(name, all[i].name) == 0) {
            call.functions = all[i];
            return;
        }
    exit(complain("steeplecuff, plain or empty", name));
}

static void choose_file(const char *name)
{
    if (!make_file(&call.file, name))
        exit(complain("whole, full, refused, small-year, mixed-year, refused-year, no-group, one-group, two-groups, "
                      "three-groups, four-groups, five-groups, whole-list, full-list or refused-list",
                      name));
}

static inline void make_quantify(void *made)
{
    struct call *one = made;
    struct answer *answer = &one->answer;
    answer->refusal = one->functions.quantify(one->file.bytes, one->file.len, answer->plants, sizeof answer->plants,
                                              answer->segments, sizeof answer->segments, &answer->place,
                                              &answer->offset);
}

static inline void make_days(void *made)
{
    struct call *one = made;
    struct figures *figures = &one->answer.figures;
    one->answer.refusal =
        one->functions.days(one->file.bytes, one->file.len, &figures->sum, &figures->repeated, &figures->repeated_zero,
                            &figures->longest, &figures->first, &one->answer.place, &one->answer.offset);
}

static inline void make_write(void *made)
{
    struct call *one = made;
    struct answer *answer = &one->answer;
    answer->refusal = one->functions.write(one->file.bytes, one->file.len, answer->buffer, sizeof answer->buffer,
                                           &answer->written, &answer->place);
}

/* What makes the call that the file is for. */
static void (*maker(void))(void *)
{
    if (call.file.kind == LIST)
        return make_write;
    return call.file.kind == SHEET ? make_days : make_quantify;
}

/* The answer of a function; what the call does not write is zero. */
static struct answer answer_of(const char *function)
{
    choose_function(function);
    memset(&call.answer, 0, sizeof call.answer);
    maker()(&call);
    return call.answer;
}

static int print_size(const char *file)
{
    choose_file(file);
    printf("%zu %zu\n", call.file.len, call.file.numbers);
    return 0;
}

static int compare(const char *file)
{
    static struct answer ours, plain;
    choose_file(file);
    ours = answer_of("steeplecuff");
    plain = answer_of("plain");
    bool alike = ours.refusal == call.file.refusal && plain.refusal == call.file.refusal && ours.place == plain.place &&
                 ours.offset == plain.offset && memcmp(ours.plants, plain.plants, sizeof ours.plants) == 0 &&
                 memcmp(ours.segments, plain.segments, sizeof ours.segments) == 0 &&
                 memcmp(&ours.figures, &plain.figures, sizeof ours.figures) == 0 && ours.written == plain.written &&
                 memcmp(ours.buffer, plain.buffer, sizeof ours.buffer) == 0;
    return alike ? 0 : DIFFERENT;
}

static inline void make_calls(void (*make)(void *), long times)
{
    for (long i = 0; i < times; i++)
        make(&call);
}

/* Names all makers, so that the compiler puts each into its loop and little is counted besides the call. */
static void make_all_calls(void *times)
{
    if (call.file.kind == LIST)
        make_calls(make_write, *(long *)times);
    else if (call.file.kind == SHEET)
        make_calls(make_days, *(long *)times);
    else
        make_calls(make_quantify, *(long *)times);
}

/* On a stack whose place is fixed: how the C library copies depends on where the bytes are, and the machine's own stack
   starts by the environment. */
static int repeat(const char *function, const char *file, long times)
{
    choose_function(function);
    choose_file(file);
    on_other_stack(make_all_calls, &times);
    return 0;
}

static int print_stack(const char *function, const char *file)
{
    choose_function(function);
    choose_file(file);
    printf("%zu\n", stack_use(maker(), &call));
    return 0;
}

int main(int argc, char **argv)
{
    const char *word = argc > 1 ? argv[1] : "nothing";
    if (argc == 3 && strcmp(word, "size") == 0)
        return print_size(argv[2]);
    if (argc == 3 && strcmp(word, "same") == 0)
        return compare(argv[2]);
    if (argc == 5 && strcmp(word, "calls") == 0)
        return repeat(argv[2], argv[3], strtol(argv[4], NULL, DECIMAL));
    if (argc == 4 && strcmp(word, "stack") == 0)
        return print_stack(argv[2], argv[3]);
    return complain("size FILE, same FILE, calls FUNCTION FILE TIMES or stack FUNCTION FILE", word);
}
