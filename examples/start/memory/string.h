/* The four functions that a compiler calls of its own accord, as C has them; each is linked only where it is called. With --libc the
   C library's own <string.h> is taken. */
#ifndef SMTSIM_STRING_H
#define SMTSIM_STRING_H

#include <stddef.h>

void *memcpy(void *restrict target, const void *restrict source, size_t count);
void *memmove(void *target, const void *source, size_t count);
void *memset(void *target, int byte, size_t count);
int memcmp(const void *one, const void *other, size_t count);

#endif
