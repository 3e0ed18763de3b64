/* Preloaded: refuses one allocation of a program, the one that REFUSED_ALLOCATION numbers from 1 on, and makes the file REFUSED_NOTE
   as it does. All others are the C library's own. Of malloc and realloc, which are all that the program calls. */
#define _GNU_SOURCE
#include <dlfcn.h>
#include <errno.h>
#include <fcntl.h>
#include <stdatomic.h>
#include <stdlib.h>
#include <unistd.h>

static atomic_long made;

static int is_refused(void)
{
    const char *number = getenv("REFUSED_ALLOCATION");
    if (number == NULL || atomic_fetch_add(&made, 1) + 1 != atol(number))
        return 0;
    const char *note = getenv("REFUSED_NOTE");
    if (note != NULL)
        close(open(note, O_CREAT | O_WRONLY, 0600));
    errno = ENOMEM;
    return 1;
}

void *malloc(size_t size)
{
    static void *(*next)(size_t);
    if (next == NULL)
        next = (void *(*)(size_t))dlsym(RTLD_NEXT, "malloc");
    return is_refused() ? NULL : next(size);
}

void *realloc(void *old, size_t size)
{
    static void *(*next)(void *, size_t);
    if (next == NULL)
        next = (void *(*)(void *, size_t))dlsym(RTLD_NEXT, "realloc");
    return is_refused() ? NULL : next(old, size);
}
