/* What one call leaves, and whether what is planted is found. */

#ifndef MEASURE_H
#define MEASURE_H

#include "calls.h"

/* The most over all rounds: of the stack used, of its bytes that aren't zero, of each secret found, and of what depends on a key. */
struct most {
    size_t stack, not_zero;
    struct found on_stack, in_registers;
};

/* After the call alone, and after the call and card_wipe_stack. Not 0: it answered something else than it must. */
int measure_bare(const struct keyed_call *call, struct most *most);
int measure_wiped(const struct keyed_call *call, struct most *most);

/* Whether eight bytes of each secret in a row are found. */
int planted_is_found(void);

/* Whether the key is seen that lies one byte to a word, and in a register: by the other keys alone. */
int apart_is_seen(void);

#endif
