#include "checks.h"

#include <inttypes.h>
#include <stdio.h>

static unsigned passed, failed;

void check_begin(const char *name)
{
    printf("%s: ", name);
    fflush(stdout);
}

bool all_stayed(const char *changed)
{
    if (changed != NULL)
        printf("FAILED, %s\n", changed);
    return changed == NULL;
}

static void print_answer(struct answer answer)
{
    printf("%" PRIu32 " at %" PRIu64 ", byte %" PRIu64, answer.refusal, answer.place, answer.offset);
}

bool answer_is(struct answer answer, struct answer due)
{
    if (answer.refusal == due.refusal && answer.place == due.place && answer.offset == due.offset)
        return true;
    printf("FAILED, it is ");
    print_answer(answer);
    printf(" and should be ");
    print_answer(due);
    putchar('\n');
    return false;
}

void check_end(bool right)
{
    if (right) {
        puts("passed");
        passed++;
    } else {
        failed++;
    }
}

void check_length(const char *name, size_t len, size_t len_of_header)
{
    check_begin(name);
    if (len != len_of_header)
        printf("FAILED, it has %zu bytes\n", len);
    check_end(len == len_of_header);
}

int checks_done(void)
{
    printf("%u passed, %u failed\n", passed, failed);
    return failed == 0 ? 0 : 1;
}
