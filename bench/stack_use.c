#define _XOPEN_SOURCE 700 /* for ucontext */
#include "stack_use.h"

#include <stdint.h>
#include <stdio.h>
#include <stdlib.h>
#include <string.h>
#include <ucontext.h>

enum { STACK_LEN = 1 << 20, PAGE = 1 << 12, PAINT = 0xA5, CANNOT_GO_ON = 2 };

/* A page more than is used, so that it can start at a page. */
static uint8_t room[STACK_LEN + PAGE];

/* What the other stack runs: a context's function takes no pointers. */
static void (*the_work)(void *);
static void *the_what;

static void run_work(void)
{
    the_work(the_what);
}

static void end_with(const char *message)
{
    fprintf(stderr, "stack_use: %s\n", message);
    exit(CANNOT_GO_ON);
}

/* The lowest byte of the other stack. */
static uint8_t *other_stack(void)
{
    return room + (PAGE - (uintptr_t)room % PAGE) % PAGE;
}

void on_other_stack(void (*work)(void *), void *what)
{
    ucontext_t here, there;
    the_work = work;
    the_what = what;
    if (getcontext(&there) != 0)
        end_with("this machine has no contexts: run it on Linux with glibc");
    there.uc_stack.ss_sp = other_stack();
    there.uc_stack.ss_size = STACK_LEN;
    there.uc_link = &here;
    makecontext(&there, run_work, 0);
    if (swapcontext(&here, &there) != 0)
        end_with("the other stack could not be entered: run it on Linux with glibc");
}

size_t stack_use(void (*work)(void *), void *what)
{
    uint8_t *stack = other_stack();
    memset(stack, PAINT, STACK_LEN);
    on_other_stack(work, what);
    if (stack[0] != PAINT)
        end_with("all of the painted stack was used: make STACK_LEN larger");

    size_t untouched = 0;
    while (untouched < STACK_LEN && stack[untouched] == PAINT)
        untouched++;
    return STACK_LEN - untouched;
}
