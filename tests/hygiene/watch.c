#include "watch.h"

#include <stdlib.h>
#include <string.h>

void watch_begin(struct watch *watch, const void *bytes, size_t count)
{
    if (count > WATCH_MOST)
        abort();
    memcpy(watch->bytes, bytes, count);
    memset(watch->steady, 1, count);
}

void watch_again(struct watch *watch, const void *bytes, size_t count)
{
    for (size_t i = 0; i < count; i++)
        watch->steady[i] &= ((const uint8_t *)bytes)[i] == watch->bytes[i];
}

size_t watch_others(const struct watch *watch, const void *bytes, size_t count)
{
    size_t others = 0;

    for (size_t i = 0; i < count; i++)
        others += watch->steady[i] && ((const uint8_t *)bytes)[i] != watch->bytes[i];
    return others;
}
