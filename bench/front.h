/* The front of a bench call, which both peers share: refusals, mixing, mode key and mode value. */

#ifndef FRONT_H
#define FRONT_H

#include <stddef.h>
#include <stdint.h>

enum { KEY_BYTES = 24, IV_BYTES = 10, BLOCK_BYTES = 32, BLOCK_BITS = 256, KEYSTREAM_BITS = 8288, BUFFER_BYTES = 8192 };
enum { BLOCKS = (KEYSTREAM_BITS + BLOCK_BITS - 1) / BLOCK_BITS };

struct mode {
    uint8_t key[KEY_BYTES];
    uint8_t value[KEY_BYTES];
};

/* 0, or the first refusal in the order 1, 2, 3, 5, 4, 6. */
uint8_t front_refusal(uint64_t algorithm, size_t key_len, size_t iv_len, size_t buf_len, size_t n);

void front_mode(struct mode *mode, uint64_t algorithm, const uint8_t *key, const uint8_t *iv);

/* Bits 0 to n - 1 of buf become those of bits; every other bit stays. */
void front_write_bits(uint8_t *buf, const uint8_t *bits, size_t n);

#endif
