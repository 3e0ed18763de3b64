#include "string.h"
#include "words.h"

void *memcpy(void *restrict target, const void *restrict source, size_t count)
{
    copy_upwards(target, source, count);
    return target;
}
