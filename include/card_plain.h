/*
 * The plain engine: the keystream of TEA5, TEA6 and TEA7 by code that is read beside the standard (docs/PLAIN.md). It
 * gives what the card's own engine gives, bit by bit, and takes hundreds of times as long: for training and for
 * comparison.
 *
 * Link with libplain_c.a, which `rt lib` in crates/plain_c writes; a program that only uses the card needs libcard_c.a
 * alone. What card.h says of answers, of refused calls and of what the caller sees to holds here too.
 */

#ifndef CARD_PLAIN_H
#define CARD_PLAIN_H

#include "card.h"

#ifdef __cplusplus
extern "C" {
#endif

/* Writes keystream bits from skip_bits on, length_bits of them, from bit 0 of the buffer on, and keeps the buffer's later
   bits. With skip 0 it is card_bench. `blocks` becomes the number of keystream blocks, of 256 bits, in which a used bit
   lies. Length and skip may be any numbers: their sum never wraps.
   Refused: 1, 2, 3, 5, 4, 6. */
uint8_t card_plain(uint64_t algorithm, const uint8_t *key, size_t key_bytes, const uint8_t *iv, size_t iv_bytes,
                   uint8_t *buffer, size_t buffer_bytes, size_t length_bits, size_t skip_bits,
                   size_t *blocks);

#ifdef __cplusplus
}
#endif

#endif
