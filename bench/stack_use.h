/* A stack of its own for a function, and how much of it the function uses. */
#ifndef STACK_USE_H
#define STACK_USE_H

#include <stddef.h>

/* Runs `work(what)` on a stack of its own, which starts at a page of memory whatever the environment is. */
void on_other_stack(void (*work)(void *), void *what);

/* Runs `work(what)` there, after painting it; answers the bytes from its top to the deepest one that changed. */
size_t stack_use(void (*work)(void *), void *what);

#endif
