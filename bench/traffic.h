/* Traffic through a full table, at every start and skip below 8. */

#ifndef TRAFFIC_H
#define TRAFFIC_H

#include "inputs.h"

enum { SHIFTS = 64 };

struct traffic {
    struct card_slot table[CARD_SLOTS];
    struct input input;
    size_t start, skip;
};

/* Traffic that is taken. Its shift, below SHIFTS, gives start and skip. It has the bits, or those that the keystream
   has left after the skip, and its buffer ends with the byte of the last. */
void traffic_taken(struct traffic *traffic, uint64_t *generator, uint64_t algorithm, size_t bits, int shift);

uint8_t traffic_call(struct traffic *traffic, size_t *blocks);

/* The card's bench call with the same key, initial value and buffer, of as many blocks: its bits end where those of
   traffic end in the keystream. */
uint8_t traffic_bench(struct traffic *traffic, size_t *blocks);

#endif
