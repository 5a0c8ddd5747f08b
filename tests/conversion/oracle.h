/* Random conversions, the second program's checker and wrong ones. src/face.rs has them. */

#ifndef ORACLE_H
#define ORACLE_H

#include <stddef.h>
#include <stdint.h>

/* What a checker is lent. It stands until the next one is asked for. */
struct lent {
    const uint8_t *before;
    size_t before_bytes;
    const uint8_t *after;
    size_t after_bytes;
    const uint64_t *pairs;
    size_t numbers;
    uint8_t by_moves; /* it is of our own moves, and is never refused */
};

struct lent conversion_random(uint64_t seed, uint64_t number);

/* As the program `converted` reads it. */
struct lent conversion_of_input(const uint8_t *input, size_t bytes);

uint8_t second_converted(const uint8_t *before, size_t before_bytes, const uint8_t *after, size_t after_bytes,
                         const uint64_t *pairs, size_t numbers, size_t *place);

/* Wrong checkers, numbered from 0, each asked about what was lent last. */
size_t wrong_checkers(void);
uint8_t wrong_converted(size_t number, size_t *place);
void wrong_name(size_t number, uint8_t *name, size_t bytes);

#endif
