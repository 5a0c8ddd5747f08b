/* Bytes that decide what is tried: a generator's without end, or a fuzzer's, after which come zeros. */

#ifndef SOURCE_H
#define SOURCE_H

#include <stddef.h>
#include <stdint.h>

struct source {
    const uint8_t *at;
    size_t left;
    uint64_t *generator; /* null where the bytes stand at `at` */
};

uint8_t source_byte(struct source *source);

/* Whether only zeros are left. */
int source_dry(const struct source *source);

/* A number of so many bytes, its least byte first. */
uint64_t source_number(struct source *source, int bytes);

/* A number below a bound that is above 0 and at most 65,536. */
uint64_t source_below(struct source *source, uint64_t bound);

/* A seeded generator of test values (splitmix64). Not for keys in use. */
uint64_t generator_next(uint64_t *state);

#endif
