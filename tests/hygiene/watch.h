/* What depends on a key among bytes that a call leaves: those that are others after the same call with other keys. It sees a key in whatever
   form it lies there, and one byte to a word. What is another after the same call with the same keys, as an address of the heap is, does not
   count. */

#ifndef WATCH_H
#define WATCH_H

#include <stddef.h>
#include <stdint.h>

enum { WATCH_MOST = 1 << 17 };

struct watch {
    uint8_t bytes[WATCH_MOST], steady[WATCH_MOST];
};

/* After a call. */
void watch_begin(struct watch *watch, const void *bytes, size_t count);

/* After the same call with the same keys. */
void watch_again(struct watch *watch, const void *bytes, size_t count);

/* After the same call with other keys: how many bytes are others. */
size_t watch_others(const struct watch *watch, const void *bytes, size_t count);

#endif
