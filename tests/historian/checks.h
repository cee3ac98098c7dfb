/* Named checks, a line for each: 'NAME: passed', or 'NAME: FAILED, ' and what is wrong. */
#ifndef CHECKS_H
#define CHECKS_H

#include <stdbool.h>
#include <stddef.h>
#include <stdint.h>

/* What a call answers: a refusal, or 0, with its place and its offset. */
struct answer {
    uint32_t refusal;
    uint64_t place, offset;
};

/* Prints the name at once, so that the last line shows where a program died. */
void check_begin(const char *name);

/* Whether a call left alone what it must: `changed` is NULL then, else it says in words what changed, which is printed. */
bool all_stayed(const char *changed);

/* Whether the answer is the one that is due; if it is not, prints both. */
bool answer_is(struct answer answer, struct answer due);

/* Ends the check and counts it. If it is not right, what is wrong was printed before, after 'FAILED, '. */
void check_end(bool right);

/* One check: that the longest file or sheet has the length that steeplecuff.h gives. */
void check_length(const char *name, size_t len, size_t len_of_header);

/* Prints 'N passed, M failed'; answers the status to exit with, 1 if a check failed. */
int checks_done(void);

#endif
