/* Inputs of calls, from a seed. Not for keys in use. */

#ifndef INPUTS_H
#define INPUTS_H

#include <stdio.h>

#include "calls.h"
#include "front.h"

struct input {
    uint64_t algorithm;
    size_t key_len, iv_len, buf_len, bits;
    uint8_t key[KEY_BYTES + 1], iv[IV_BYTES + 1], buf[BUFFER_BYTES + 1];
};

/* The next input of a generator (splitmix64): some of each length, and some that are refused. */
void inputs_next(struct input *input, uint64_t *generator);

/* An input that is taken, whose buffer ends with the byte of its last bit. */
void inputs_taken(struct input *input, uint64_t *generator, uint64_t algorithm, size_t bits);

/* Traffic with this input, of a start and a skip, as a line of the second program. */
void inputs_print_traffic(const struct input *input, size_t start, size_t skip);

/* The bench call with this input as such a line. It is traffic on a buffer with the bits that the call writes set to
   0. */
void inputs_print_bench(const struct input *input);

uint8_t inputs_call(bench_call *call, struct input *input, size_t *blocks);

#endif
