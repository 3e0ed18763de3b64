/* Preloaded: has read and write do what the system may do at any time. INTERRUPTED_CALLS has
   letters: with `i` every second call of each is interrupted before it has done anything, and with
   `s` each other one does a part of what it could: 1 to 7 bytes. A call that fails is the C
   library's own. Of read and write, which are all that the program reads and writes by. */
#define _GNU_SOURCE
#include <dlfcn.h>
#include <errno.h>
#include <stdatomic.h>
#include <stdlib.h>
#include <string.h>
#include <unistd.h>

static atomic_ulong reads, writes;

static int does(char what)
{
    const char *calls = getenv("INTERRUPTED_CALLS");
    return calls != NULL && strchr(calls, what) != NULL;
}

static int is_interrupted(unsigned long call)
{
    return does('i') && call % 2 == 0;
}

static size_t part(unsigned long call, size_t count)
{
    size_t most = 1 + call / 2 % 7;
    return does('s') && count > most ? most : count;
}

ssize_t read(int file, void *bytes, size_t count)
{
    static ssize_t (*next)(int, void *, size_t);
    if (next == NULL)
        next = (ssize_t (*)(int, void *, size_t))dlsym(RTLD_NEXT, "read");
    unsigned long call = atomic_fetch_add(&reads, 1);
    if (is_interrupted(call)) {
        errno = EINTR;
        return -1;
    }
    return next(file, bytes, part(call, count));
}

ssize_t write(int file, const void *bytes, size_t count)
{
    static ssize_t (*next)(int, const void *, size_t);
    if (next == NULL)
        next = (ssize_t (*)(int, const void *, size_t))dlsym(RTLD_NEXT, "write");
    unsigned long call = atomic_fetch_add(&writes, 1);
    if (is_interrupted(call)) {
        errno = EINTR;
        return -1;
    }
    return next(file, bytes, part(call, count));
}
