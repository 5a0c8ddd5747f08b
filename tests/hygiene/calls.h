/* The calls that see a key, each with arguments of its own that are not on the stack. */

#ifndef CALLS_H
#define CALLS_H

#include "card.h"
#include "secrets.h"

/* The most that a call may leave of each secret. What isn't named is 0. */
struct bar {
    struct found on_stack, in_registers;
};

struct keyed_call {
    const char *name;
    uint8_t (*make)(void);
    uint8_t answer; /* what it must answer */
    const struct bar *bar;
};

enum { KEYED_CALLS = 36 };

extern const struct keyed_call keyed_calls[KEYED_CALLS];

/* Chooses keys, initial value, algorithm, span and PDU anew, and what is looked for with them. */
void calls_choose(uint64_t *generator);

/* The keys that are looked for, and others: no byte of a key is the same, and nothing else differs. The first are taken when
   they are chosen. */
enum keys { LOOKED_FOR, OTHERS, KEY_SETS };
void calls_take_keys(enum keys which);

/* The key of the slot that calls are about. */
const uint8_t *calls_key(void);

/* Makes table, buffer and text as they were chosen. Before each call. */
void calls_restore(void);

#endif
