#define _DEFAULT_SOURCE /* for MAP_ANONYMOUS */
#include "blocks.h"

#include <stdio.h>
#include <stdlib.h>
#include <string.h>
#include <sys/mman.h>
#include <unistd.h>

enum { FRONT_LEN = 64, FRONT_BYTE = 0xC3, CANNOT_GO_ON = 2 };

static void *or_end(void *memory)
{
    if (memory == NULL || memory == MAP_FAILED) {
        fputs("blocks: there is no memory: make the cases smaller, or run fewer programs at once\n", stderr);
        exit(CANNOT_GO_ON);
    }
    return memory;
}

enum block_kind block_kind_asked(int argc, char **argv)
{
    if (argc == 1)
        return BLOCK_ON_HEAP;
    if (argc == 2 && strcmp(argv[1], "guarded") == 0)
        return BLOCK_GUARDED;
    fprintf(stderr, "%s: write no argument, or: guarded\n", argv[0]);
    exit(CANNOT_GO_ON);
}

/* Gives a guarded block room for its front and `len` bytes, and a guard page behind them. */
static void make_room(struct block *block, size_t len)
{
    size_t page = (size_t)sysconf(_SC_PAGESIZE);
    size_t needed = (FRONT_LEN + len + page - 1) / page * page;
    if (needed <= block->room_len)
        return;
    if (block->room != NULL)
        munmap(block->room, block->room_len + page);
    block->room = or_end(mmap(NULL, needed + page, PROT_READ | PROT_WRITE, MAP_PRIVATE | MAP_ANONYMOUS, -1, 0));
    block->room_len = needed;
    if (mprotect(block->room + needed, page, PROT_NONE) != 0)
        or_end(NULL);
}

void block_take(struct block *block, size_t len)
{
    block->len = len;
    if (block->kind == BLOCK_ON_HEAP) {
        block->bytes = or_end(malloc(len > 0 ? len : 1)); /* malloc(0) may give null */
        return;
    }
    make_room(block, len);
    block->bytes = block->room + block->room_len - len;
    memset(block->bytes - FRONT_LEN, FRONT_BYTE, FRONT_LEN);
}

uint64_t *block_take_number(struct block *block, uint64_t number)
{
    block_take(block, sizeof number);
    memcpy(block->bytes, &number, sizeof number);
    return (uint64_t *)block->bytes;
}

bool block_front_stayed(const struct block *block)
{
    if (block->kind == BLOCK_ON_HEAP)
        return true;
    for (size_t i = 1; i <= FRONT_LEN; i++)
        if (*(block->bytes - i) != FRONT_BYTE)
            return false;
    return true;
}

void block_give_back(struct block *block)
{
    if (block->kind == BLOCK_ON_HEAP)
        free(block->bytes);
    block->bytes = NULL;
}
