/* A `read` and a `write` that move one to seven bytes at a time. Put before those of the C library, they try the two loops between what is
   proved and standard input and output. */
#include <stddef.h>
#include <sys/syscall.h>
#include <unistd.h>

enum { MOST_MOVED = 7 };

long syscall(long number, ...);

/* How many of `count` bytes are moved this time. */
static size_t some_of(size_t count)
{
    static size_t calls;
    size_t moved = 1 + calls++ % MOST_MOVED;
    return moved < count ? moved : count;
}

ssize_t read(int descriptor, void *bytes, size_t count)
{
    return syscall(SYS_read, descriptor, bytes, some_of(count));
}

ssize_t write(int descriptor, const void *bytes, size_t count)
{
    return syscall(SYS_write, descriptor, bytes, some_of(count));
}
