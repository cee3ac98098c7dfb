/* What the replay programs share: cases on standard input, and answers on standard output. Numbers and lengths have
   their least significant byte first. */
#ifndef CASES_H
#define CASES_H

#include "blocks.h"

/* Reads the `count` lengths that begin a case, four bytes each; false if standard input ends before the case. Exits
   with 2 if it ends inside of them. */
bool read_lengths(size_t *lengths, size_t count);

/* Reads the next `len` bytes of the case into the block. Exits with 2 if there are fewer. */
void read_bytes(struct block *block, size_t len);

/* Exits with 1 if a call changed what it must leave alone; `changed` says what, or is NULL. */
void end_where_changed(const char *changed);

/* Writes what begins every answer: the refusal in four bytes. */
void write_code(uint32_t refusal);

/* Writes what begins the answer of a call that reads: the refusal, then its place and its offset in eight bytes each. */
void write_refusal(uint32_t refusal, uint64_t place, uint64_t offset);

/* Writes a number in eight bytes. */
void write_number(uint64_t number);

/* Sends the answer at once. Exits with 2 if that cannot be done. */
void send_answer(void);

#endif
