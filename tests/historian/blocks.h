/* Blocks of memory of exactly the length that is asked for, so that a byte touched outside of one is seen. */
#ifndef BLOCKS_H
#define BLOCKS_H

#include <stdbool.h>
#include <stddef.h>
#include <stdint.h>

enum block_kind {
    BLOCK_ON_HEAP, /* each from malloc: AddressSanitizer and valgrind watch its edges */
    BLOCK_GUARDED  /* a page behind it kills the program if it is touched; the bytes before it are checked */
};

struct block {
    enum block_kind kind;
    uint8_t *bytes; /* never null, not even if len is 0 */
    size_t len;
    uint8_t *room; /* guarded: readable and writable pages with the guard page behind, kept for the next block */
    size_t room_len;
};

/* The kind that a program's first argument names: none, or `guarded`. Exits with 2 if it is another word. */
enum block_kind block_kind_asked(int argc, char **argv);

/* Gives the block `len` bytes of any content. `block` starts as { .kind = .. }, or was given back. */
void block_take(struct block *block, size_t len);

/* Gives the block room for one number and sets it; answers where it is. */
uint64_t *block_take_number(struct block *block, uint64_t number);

/* Whether the bytes before a guarded block are as block_take left them; true on the heap, which others watch. */
bool block_front_stayed(const struct block *block);

/* Ends the use of the block. */
void block_give_back(struct block *block);

#endif
